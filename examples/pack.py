#!/usr/bin/env python3
"""pack.py PLAN.TXT PLAN.BIN: packs a plan that is written as text into a packed record (docs/RECORDS.md has the layout).

A line of the text is one of
    task NAME [RANGE ..]          a range is LOW-HIGH, run through upward, or HIGH>LOW, run through downward
    link SIDE FROM SIDE TO [RULE ..]   a side is start or finish; a rule for each parameter of the task TO
A rule is pN, a number, pN+K, pN-K, or one of these in brackets and divided, as (p0-1)/2.
What follows a # is a comment. Nothing is checked: the programs check the record.
"""
import re
import sys


def rule(text):
    divided = re.fullmatch(r'\((.*)\)/(\d+)', text) or re.fullmatch(r'([^/]*)/(\d+)', text)
    body, divisor = (divided.group(1), int(divided.group(2))) if divided else (text, 1)
    picked = re.fullmatch(r'p(\d)([+-]\d+)?', body)
    if picked:
        return int(picked.group(1)), int(picked.group(2) or 0), divisor
    return 4, int(body), divisor


def main(source, target):
    tasks, links, names = [], [], []
    for line in open(source):
        words = line.split('#')[0].split()
        if words and words[0] == 'task':
            names.append(words[1])
            params = []
            for text in words[2:]:
                if '>' in text:
                    high, low = map(int, text.split('>'))
                    params.append((low, high, 1))
                else:
                    low, high = map(int, text.split('-'))
                    params.append((low, high, 0))
            tasks.append(params)
        elif words:
            links.append((words[2], words[1], words[4], words[3], [rule(text) for text in words[5:]]))
    bits = ''

    def field(width, number):
        nonlocal bits
        bits += format(int(number) % 2 ** width, '0%db' % width)

    field(4, 1)
    field(6, len(tasks))
    field(7, len(links))
    for params in tasks:
        field(3, len(params))
        for low, high, down in params:
            field(8, low)
            field(8, high)
            field(1, down)
    for start, start_side, end, end_side, rules in links:
        field(5, names.index(start))
        field(1, start_side == 'finish')
        field(5, names.index(end))
        field(1, end_side == 'finish')
        for pick, add, divisor in rules:
            field(3, pick)
            field(9, add)
            field(4, divisor)
    bits += '0' * (-len(bits) % 8)
    for name in names:
        field(8, len(name))
        for letter in name:
            field(8, ord(letter))
    with open(target, 'wb') as out:
        out.write(bytes(int(bits[i:i + 8], 2) for i in range(0, len(bits), 8)))


if __name__ == '__main__':
    if len(sys.argv) != 3:
        sys.exit(__doc__)
    main(sys.argv[1], sys.argv[2])
