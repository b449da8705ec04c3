#!/usr/bin/env python3
"""Spells the names of this repository's definitions and lemmas as the library spells its own.

usage: python3 tools/respell.py [--dry] [--table]      at the top of a checkout, once, after the toolchain's port.py

--dry writes nothing; --table prints each name with its new spelling.

Words are in snake case, facts and types in upper camel case. Renamed are names that files of specs/ and proofs/ bind: definitions,
lemmas, fields, local names. Names that come from src/, names of the library, names that the check makes (goals, steps), strings, inputs
and outputs stay. What two names would share is listed, and given other names in the table OWN below.
"""
import glob
import re
import sys

TOKEN = re.compile(r"(?<![0-9A-Za-z_'])[A-Za-z_ℕℤ∥⊥₁Σ][A-Za-z0-9_'′ℕℤ∥⊥₁]*(?:-[A-Za-z0-9_'′ℕℤ∥⊥₁]+)*")
CRATES = ("bits", "plans", "runs", "pipeline", "worked")
OWN_PATH = re.compile(r"Rattle\.(?:%s)\." % "|".join(CRATES))
USE = re.compile(r"^(?:ghost )?use (\S+?)\.\{([^}]*)\};?$", re.M)
# names that the rule would let fall together, or that read badly
OWN = {
    "side-of": "side_of_lem",
    "word-at": "word_at_lem",
    "all_none": "all_none_lem",
    "no-link": "no_link_lem",
    "in-range": "in_range_lem",
    "no-ends": "no_ends_lem",
    "no-reply": "no_reply_lem",
    "side-bit": "side_bit_lem",
    "fewLinks": "links_few",
    "good-links": "links_sound",
    "is-waiting": "now_waiting",
    "is-running": "now_running",
    "is-done": "now_done",
    "By-counts": "JudgedByCounts",
    "get_d_bits": "get_or_bits",
}
# the same, in one file alone
OWN_IN = {
    "crates/plans/proofs/Passing.antt": {"target_at": "target_at_lem"},
    "crates/plans/specs/Layout.antt": {"leb": "nat_le", "ltb": "nat_lt"},
    "crates/runs/specs/Slots.antt": {"leb": "nat_le", "ltb": "nat_lt"},
}
for name in ("plans/proofs/Walking", "plans/proofs/Restricting", "plans/proofs/Predecessors", "plans/proofs/Conditions",
             "runs/proofs/Order", "runs/proofs/ByCounts", "pipeline/proofs/Replies", "pipeline/proofs/Keeping"):
    OWN_IN["crates/%s.antt" % name] = {"link_at": "link_at_lem"}
for name in ("Naming", "Assured"):
    OWN_IN["crates/plans/proofs/%s.antt" % name] = {"name_at": "name_at_lem"}
COMMENT = re.compile(r"(?:--|//).*$")


def odd(name):
    return name in OWN or "-" in name or "′" in name or bool(re.search(r"[a-z0-9][A-Z]", name)) and name[0].islower()


def snake(name):
    if name in OWN:
        return OWN[name]
    name = name.replace("′", "'").replace("getD", "get_or")
    parts = name.split("-")
    if parts[0][:1].isupper():
        return "".join(p[:1].upper() + p[1:] for p in parts)
    word = "_".join(parts)
    return re.sub(r"(?<=[a-z0-9])([A-Z])", lambda m: "_" + m.group(1).lower(), word) if word[:1].islower() else word


def is_answer(path):
    return path.count("/") > 3 or path.endswith(("/Answers.antt", "/Invariants.antt", "/Proof.antt"))


def split(text):
    """Code and strings of a .rt file, alternately."""
    return re.split(r"(\"(?:\\.|[^\"\\])*\")", text)


def main():
    dry = "--dry" in sys.argv
    antt = sorted(glob.glob("crates/*/specs/**/*.antt", recursive=True) + glob.glob("crates/*/proofs/**/*.antt", recursive=True))
    code = sorted(glob.glob("crates/*/src/*.rt"))
    text = {p: open(p, encoding="utf-8").read() for p in antt + code}
    library, own = set(), set()
    for p in antt + code:
        for path, names in USE.findall(text[p]):
            for n in names.split(","):
                if not OWN_PATH.match(path):
                    library.add(n.strip().split(" as ")[0])
    for p in antt:
        if not is_answer(p):
            body = re.sub(r"--.*$", "", USE.sub("", text[p]), flags=re.M)
            own |= {t for t in TOKEN.findall(body) if odd(t) and t not in library}
    made = set()
    new = {}
    for p in antt + code:
        goals = set(re.findall(r"\bgoal\.([\w'-]+)", text[p])) if is_answer(p) else set()
        here = set(TOKEN.findall(text[p]))

        def turn(m):
            t = m.group(0)
            if t in OWN_IN.get(p, {}):
                return OWN_IN[p][t]
            before = m.string[:m.start()]
            if "-" in t and COMMENT.search(before.rsplit("\n", 1)[-1]):
                return t
            if t not in own or t in goals or before.endswith(("goal.",)) or is_answer(p) and re.search(r"(?<![\w'])(c|l|w|a)\.$", before):
                return t
            s = snake(t)
            if s in here and s != t:
                made.add((p, t, s))
            new[t] = s
            return s

        if "AllByRecursion as All" in text[p]:
            # a library's word may not stand for another word of the library
            text[p] = re.sub(r"(?<![\w'·.-])All(?![\w'-])", "AllByRecursion", text[p].replace("AllByRecursion as All", "AllByRecursion"))
        text[p] = re.sub(r"\b(rank|limit|progress)-of\b", r"\1_of", text[p]) if p.endswith(".rt") else text[p]
        if p.endswith(".antt"):
            text_new = TOKEN.sub(turn, text[p])
            if is_answer(p):
                # names that the answer file binds itself
                local = {t for t in re.findall(r"(?:\blet |\bλ \(?)([\w'-]+)", text_new) if odd(t) and t not in library and t not in goals}
                local |= {t for t in re.findall(r"^([\w'-]+) :", text_new, re.M) if odd(t) and t not in library and t not in goals}
                text_new = TOKEN.sub(lambda m: snake(m.group(0)) if m.group(0) in local and not m.string[:m.start()].endswith(".") else m.group(0), text_new)
        else:
            text_new = "".join(s if i % 2 else TOKEN.sub(turn, s) for i, s in enumerate(split(text[p])))
        if text_new != text[p] and not dry:
            open(p, "w", encoding="utf-8").write(text_new)
    for p, t, s in sorted(made):
        print("also there: %s: %s -> %s" % (p, t, s))
    back = {}
    for t, s in new.items():
        back.setdefault(s, []).append(t)
    for s, ts in sorted(back.items()):
        if len(ts) > 1:
            print("fall together: %s <- %s" % (s, ", ".join(sorted(ts))))
    clash = sorted(s for s in back if s in library)
    print("also in the library:", ", ".join(clash))
    print(len(new), "names")
    if "--table" in sys.argv:
        for t in sorted(new):
            print(t, new[t])


main()
