#!/usr/bin/env python3
"""Writes the table of records that crates/records_table is run on (stdin) and what it must print (stdout).

The expected replies come from `reply` below, which is written from docs/RECORDS.md alone and shares nothing with the
proved code. Run from the repository's root; the table is committed, so this is only needed to change it.
"""
import random


class Fault(Exception):
    pass


def reply(data):
    """How many tasks a record has, and how many words the first; or the fault."""
    bits = ''.join(format(b, '08b') for b in data)
    at = 0

    def read(width):
        nonlocal at
        if at + width > len(bits):
            raise Fault(1, at)
        at += width
        return int(bits[at - width:at] or '0', 2)

    def read_that(width, test, number):
        begin = at
        n = read(width)
        if not test(n):
            raise Fault(number, begin)
        return n

    def words(params):
        rows = [()]
        for low, high, down in params:
            values = list(range(low, high + 1))
            rows = [row + (v,) for row in rows for v in (reversed(values) if down else values)]
        return rows

    def targets(link):
        places = {word: i for i, word in enumerate(words(tasks[link['to']]))}
        for word in words(tasks[link['from']]):
            target = []
            for (pick, add, divisor), (low, high, _) in zip(link['rules'], tasks[link['to']]):
                n = (word[pick] if pick < 4 else 0) + add
                n = n // divisor if n >= 0 else -(-n // divisor)
                target.append(n if low <= n <= high else None)
            yield None if None in target else places[tuple(target)]

    def in_order(link):
        last, ended = 0, False
        for place in targets(link):
            if place is None:
                ended = True
            elif ended or place < last:
                return False
            else:
                last = place
        return True

    read_that(4, lambda n: n == 1, 2)
    task_count = read_that(6, lambda n: 1 <= n <= 32, 3)
    link_count = read_that(7, lambda n: n <= 64, 3)
    tasks, links = [], []
    for _ in range(task_count):
        begin, params, size = at, [], 1
        for _ in range(read_that(3, lambda n: n <= 4, 4)):
            low = read(8)
            high = read_that(8, lambda n: low <= n, 4)
            params.append((low, high, read(1)))
            size *= high - low + 1
        if size > 65536:
            raise Fault(5, begin)
        tasks.append(params)
    for _ in range(link_count):
        begin = at
        start, start_side, end, end_side = read(5), read(1), read(5), read(1)
        if start >= task_count or end >= task_count or start == end:
            raise Fault(6, begin)
        rules = []
        for _ in tasks[end]:
            pick = read_that(3, lambda n: n < len(tasks[start]) or n == 4, 7)
            add = read(9)
            rules.append((pick, add - 512 if add >= 256 else add, read_that(4, lambda n: n > 0, 7)))
        links.append({'begin': begin, 'ends': (start, start_side, end, end_side), 'from': start, 'to': end, 'rules': rules})
    read_that(-at % 8, lambda n: n == 0, 10)
    for _ in range(task_count):
        for _ in range(read_that(8, lambda n: 1 <= n <= 15, 10)):
            read_that(8, lambda n: 33 <= n <= 126, 10)
    if at != len(bits):
        raise Fault(10, at)
    for i, link in enumerate(links):
        if any(link['ends'] == earlier['ends'] for earlier in links[:i]):
            raise Fault(8, link['begin'])
    for link in links:
        if not in_order(link):
            raise Fault(9, link['begin'])
    return len(tasks), len(words(tasks[0]))


def pack(tasks, links, names=None, form=1, task_count=None, link_count=None, padding='0', after=b'', rule_count=None):
    bits = format(form, '04b')
    bits += format(len(tasks) if task_count is None else task_count, '06b')
    bits += format(len(links) if link_count is None else link_count, '07b')
    for params in tasks:
        count = len(params)
        if params and isinstance(params[0], int):
            count, params = params[0], params[1:]
        bits += format(count, '03b') + ''.join(format(l, '08b') + format(h, '08b') + str(d) for l, h, d in params)
    for start, start_side, end, end_side, rules in links:
        bits += format(start, '05b') + str(start_side) + format(end, '05b') + str(end_side)
        bits += ''.join(format(p, '03b') + format(a % 512, '09b') + format(d, '04b') for p, a, d in rules)
    bits += padding * (-len(bits) % 8)
    data = bytes(int(bits[i:i + 8], 2) for i in range(0, len(bits), 8))
    for name in names if names is not None else [b'abcdefghijklmnopqrstuvwxyzABCDEF'[i:i + 1] for i in range(len(tasks))]:
        data += bytes([len(name)]) + name if isinstance(name, bytes) else bytes(name)
    return data + after


UP, DOWN = (1, 3, 0), (1, 3, 1)
SAME, ON = (0, 0, 1), (0, 1, 1)
TWO = [[UP], [UP]]
FINE = [(0, 1, 1, 0, [SAME])]
BACK = [(0, 1, 1, 0, [(0, 0, 1)]), (1, 1, 0, 0, [(0, 2, 1)])]
A = bytes.fromhex('108110103101030210000860001080026363026c64')


def cases():
    yield 'accepted', A
    yield 'cut-short', A[:20]
    yield 'one-more', A + b'\0'
    yield 'no-bytes', b''
    for n in (1, 2, 3, 5, 8, 11, 13, 15, 16, 18):
        yield 'first-%d-bytes' % n, A[:n]
    yield 'form-0', pack(TWO, FINE, form=0)
    yield 'form-2', pack(TWO, FINE, form=2)
    yield 'form-before-counts', pack(TWO, FINE, form=15, task_count=0, link_count=127)
    yield 'no-tasks', pack([], [])
    yield 'tasks-33', pack(TWO, FINE, task_count=33)
    yield 'tasks-32', pack([[]] * 32, [])
    yield 'links-65', pack(TWO, FINE, link_count=65)
    yield 'tasks-before-links', pack(TWO, FINE, task_count=63, link_count=127)
    yield 'params-5', pack([[5, UP, UP, UP, UP], [UP]], [])
    yield 'params-4', pack([[UP, UP, UP, UP], [UP]], [])
    yield 'low-above-high', pack([[(4, 3, 0)], [UP]], [])
    yield 'low-is-high', pack([[(3, 3, 1)], []], [])
    yield 'two-bad-ranges', pack([[UP, (9, 8, 0)], [(2, 1, 1)]], [])
    yield 'words-65536', pack([[(0, 255, 0), (0, 255, 1)], []], [])
    yield 'words-65537-and-more', pack([[], [(0, 255, 0), (0, 255, 0), (0, 1, 0)]], [])
    yield 'words-before-next-task', pack([[(0, 255, 0), (0, 255, 0), (0, 1, 0)], [7]], [])
    yield 'range-before-words', pack([[(0, 255, 0), (0, 255, 0), (0, 1, 0), (9, 8, 0)], []], [])
    yield 'from-no-task', pack(TWO, [(2, 0, 1, 0, [SAME])])
    yield 'to-no-task', pack(TWO, [(0, 0, 31, 1, [SAME])])
    yield 'both-in-one', pack(TWO, [(1, 0, 1, 1, [SAME])])
    yield 'ends-before-rules', pack(TWO, [(1, 0, 1, 1, [(7, 0, 0)])])
    yield 'second-link-bad-ends', pack(TWO, FINE + [(0, 0, 0, 0, [])])
    yield 'pick-of-no-parameter', pack(TWO, [(0, 1, 1, 0, [(1, 0, 1)])])
    yield 'pick-5', pack([[UP, UP, UP, UP], [UP]], [(0, 1, 1, 0, [(5, 0, 1)])])
    yield 'pick-3', pack([[UP, UP, UP, UP], [UP]], [(0, 1, 1, 0, [(3, 0, 1)])])
    yield 'pick-4', pack(TWO, [(0, 1, 1, 0, [(4, 2, 1)])])
    yield 'pick-of-none', pack([[], [UP]], [(0, 1, 1, 0, [(0, 1, 1)])])
    yield 'divisor-0', pack(TWO, [(0, 1, 1, 0, [(0, 0, 0)])])
    yield 'pick-before-divisor', pack(TWO, [(0, 1, 1, 0, [(6, 0, 0)])])
    yield 'same-ends', pack(TWO, FINE + FINE)
    yield 'same-ends-third', pack(TWO, BACK + [FINE[0]])
    yield 'same-ends-twice', pack(TWO, FINE + BACK[1:] + FINE + BACK[1:])
    yield 'other-side', pack(TWO, FINE + [(0, 0, 1, 0, [SAME]), (0, 1, 1, 1, [SAME])])
    yield 'order-down', pack([[DOWN], [DOWN]], [(0, 1, 1, 0, [ON])])
    yield 'order-up', pack(TWO, [(0, 1, 1, 0, [ON])])
    yield 'order-by-place', pack([[UP], [DOWN]], FINE)
    yield 'order-gap', pack([[(0, 3, 1)], [(0, 1, 0)]], FINE)
    yield 'order-never-given', pack([[UP], [(9, 9, 0)]], FINE)
    yield 'order-backward-but-placed', pack([[DOWN], [DOWN]], FINE)
    yield 'quotient-to-zero', pack([[(0, 3, 0)], [(0, 1, 0)]], [(0, 1, 1, 0, [(0, -1, 2)])])
    yield 'quotient-to-zero-down', pack([[(0, 3, 1)], [(0, 1, 1)]], [(0, 1, 1, 0, [(0, -1, 2)])])
    yield 'quotient-below-zero', pack([[(0, 3, 0)], [(0, 1, 0)]], [(0, 1, 1, 0, [(0, -2, 2)])])
    yield 'add-least', pack([[(255, 255, 0)], [(0, 255, 0)]], [(0, 1, 1, 0, [(0, -256, 1)])])
    yield 'add-most', pack([[(0, 0, 0)], [(255, 255, 0)]], [(0, 1, 1, 0, [(0, 255, 1)])])
    yield 'second-out-of-order', pack(TWO, FINE + [(1, 0, 0, 0, [(0, -1, 1)])])
    yield 'ends-before-order', pack([[DOWN], [DOWN]], [(0, 1, 1, 0, [ON]), (0, 0, 1, 1, [SAME]), (0, 0, 1, 1, [SAME])])
    yield 'padding-set', pack(TWO, FINE, padding='1')
    yield 'padding-before-names', pack(TWO, FINE, names=[b''], padding='1')
    yield 'no-padding', pack([[UP, UP, UP], []], [(1, 0, 0, 0, [(4, 1, 1)] * 3)])
    yield 'name-of-0', pack(TWO, FINE, names=[b'', b'b'])
    yield 'name-of-15', pack(TWO, FINE, names=[b'123456789012345', b'b'])
    yield 'name-of-16', pack(TWO, FINE, names=[b'1234567890123456', b'b'])
    yield 'name-with-space', pack(TWO, FINE, names=[b'a', b'b c'])
    yield 'name-with-127', pack(TWO, FINE, names=[b'a', b'b\x7f'])
    yield 'name-from-33-to-126', pack(TWO, FINE, names=[b'!', b'~'])
    yield 'names-missing', pack(TWO, FINE, names=[b'a'])
    yield 'length-before-bytes', pack(TWO, FINE, names=[b'1234567890123456\x07', b''])
    yield 'end-before-same-ends', pack(TWO, FINE + FINE, after=b'x')
    yield 'end-before-order', pack([[DOWN], [DOWN]], [(0, 1, 1, 0, [ON])], after=b'\0\0')
    yield 'name-before-same-ends', pack(TWO, FINE + FINE, names=[b'a', b'\x80'])
    yield 'same-names', pack(TWO, FINE, names=[b'ld', b'ld'])
    picks = random.Random(7)
    for n in range(120):
        tasks = [[random_range(picks) for _ in range(picks.randrange(3))] for _ in range(picks.randrange(2, 5))]
        links = [random_link(picks, tasks) for _ in range(picks.randrange(4))]
        data = bytearray(pack(tasks, links))
        for _ in range(picks.choice((0, 0, 1, 1, 2))):
            data[picks.randrange(len(data))] ^= 1 << picks.randrange(8)
        yield 'random-%d' % n, bytes(data[:picks.choice((None, None, None, picks.randrange(len(data) + 1)))])


def random_range(picks):
    low = picks.randrange(4)
    return low, low + picks.randrange(3), picks.randrange(2)


def random_link(picks, tasks):
    start, end = picks.sample(range(len(tasks)), 2)
    rules = [(picks.choice(list(range(len(tasks[start]))) + [4]), picks.randrange(-2, 4), picks.randrange(1, 3)) for _ in tasks[end]]
    return start, picks.randrange(2), end, picks.randrange(2), rules


def main():
    rows, replies = [], []
    for name, data in cases():
        rows.append('%s %s\n' % (name, data.hex()))
        try:
            said = 'ok, %d tasks, %d words in the first' % reply(data)
        except Fault as fault:
            said = 'plan %d at %d' % fault.args
        replies.append('%s: %s\n' % (name, said))
    with open('crates/records_table/stdin', 'w') as out:
        out.writelines(rows)
    with open('crates/records_table/stdout', 'w') as out:
        out.writelines(replies)


if __name__ == '__main__':
    main()
