#!/usr/bin/env python3
"""Brings the repository's own definitions and lemmas to today's spelling, once, after port.py.

Words are in snake case, and types in camel case: `first-open` becomes `first_open`, and `Is-digit` becomes `IsDigit`.
A name is the repository's own where a file of specs/ or proofs/ defines it; names of goals, of steps of the code and of the
library keep theirs. Names that would fall together with another are given one of their own below.
"""
import pathlib
import re
import sys

# Names that would fall together with another, or with a word of the library.
NAMED = {
    "If-some": "IfSomeThen",
    "count-at": "count_from",
    "first-++": "first_append",
    "getD-new": "get_or_new",
    "getD-self": "get_or_self",
    "rule-at": "rule_place",
    "rule-text": "text_of_rule",
}
WORD = r"[\w'\-]"
DEFINED = re.compile(
    r"^\s*(?:abbrev |unfoldable )?(?:pub )?(?:abbrev |unfoldable )?(?:data |record |ruleset |mutual )?"
    r"([^\s(){}\[\];,.«»λ:@⌜⌝|]+)\s*(?::|\()(.*)$"
)
GOAL = re.compile(r"^\s*(?:goal|given|need)\.")


def files():
    for p in sorted(pathlib.Path("crates").glob("*/**/*.antt")):
        if "out" not in p.parts:
            yield p


def own_names():
    names, goals = set(), set()
    for p in files():
        for line in p.read_text().splitlines():
            m = DEFINED.match(line)
            if m and "-" in m.group(1) and m.group(1) != "-":
                (goals if GOAL.match(m.group(2)) else names).add(m.group(1))
    both = sorted(names & goals)
    if both:
        print("own names that are goals' names too, left as they are:", *both)
    return names - goals


def spelled(name):
    if name in NAMED:
        return NAMED[name]
    if name[0].isupper():
        return "".join(word[0].upper() + word[1:] for word in name.split("-"))
    return name.replace("-", "_")


def main():
    names = own_names()
    turned = {n: spelled(n) for n in names}
    seen = {}
    for n, s in sorted(turned.items()):
        if s in seen:
            print("fall together:", n, seen[s])
        seen[s] = n
    longest = sorted(names, key=len, reverse=True)
    # A step that a branch leaves behind is named after a variable: `w.first-is`.
    rule = re.compile(rf"(?<!{WORD})(?<!\bw\.)(" + "|".join(re.escape(n) for n in longest) + rf")(?!{WORD})")
    changed = 0
    sources = sorted(pathlib.Path("crates").glob("*/src/**/*.rt"))
    for p in [*files(), *sources]:
        old = p.read_text()
        new = rule.sub(lambda m: turned[m.group(1)], old)
        if new != old:
            p.write_text(new)
            changed += 1
    print(f"{len(names)} names, {changed} files")


sys.exit(main())
