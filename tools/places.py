#!/usr/bin/env python3
"""Lists the places in src/ that docs/DESIGN-PASS.md counts: python3 tools/places.py [ROOT] [POINT]

It goes by the text alone, so each list is a superset that a reader goes through: docs/DESIGN-PASS.md says of each place
what it became, or why it stays."""
import collections
import pathlib
import re
import sys

root = pathlib.Path(sys.argv[1] if len(sys.argv) > 1 else ".")
only = sys.argv[2] if len(sys.argv) > 2 else None
files = sorted(p for p in root.glob("crates/*/src/**/*.rt"))
lines = [(p.relative_to(root / "crates"), n, l) for p in files for n, l in enumerate(p.read_text().split("\n"), 1)]


def rows(pattern, keep=lambda p, l: True):
    return [(f"{p}:{n}", l.strip()) for p, n, l in lines if re.search(pattern, l) and keep(p, l)]


def code(p, l):
    return not l.strip().startswith("//") and "ghost use" not in l


def clauses():
    """Clauses that say the same, whatever their label, in three or more functions."""
    seen = collections.defaultdict(list)
    for p, n, l in lines:
        m = re.match(r"\s*(?:requires|ensures)\s*\w*\s*\{\s*(.*)\s*\}$", l)
        if m and not str(p).startswith("vectors"):
            for fact in re.split(r" × ", m.group(1)):
                fact = re.sub(r"^\(+|\)+$", "", fact.strip())
                if "result" not in fact:
                    seen[(str(p).split("/")[0], fact)].append(f"{p}:{n}")
    return [(", ".join(v), k[1]) for k, v in seen.items() if len(v) >= 3]


def travellers():
    """Pairs of parameters, name and type, that stand together in three or more functions of a crate."""
    seen = collections.defaultdict(list)
    for p in files:
        text = p.read_text()
        for m in re.finditer(r"fn (\w+)(?:<[^(]*>)?\(([^)]*)\)", text):
            ps = [re.sub(r"\s+", " ", x.strip()) for x in re.split(r",(?![^<\[(]*[>\])])", m.group(2)) if ":" in x]
            ps = sorted({re.sub(r"^mut ", "", re.sub(r": &'?\w* ?", ": &", x)) for x in ps})
            for i, a in enumerate(ps):
                for b in ps[i + 1:]:
                    seen[(str(p.relative_to(root / "crates")).split("/")[0], a, b)].append(m.group(1))
    return [(f"{k[0]}: {', '.join(v)}", f"{k[1]} with {k[2]}") for k, v in seen.items() if len(v) >= 3]


POINTS = {
    "1 own Option or Result, sentinels, numbers for kinds": [
        ("enums with as many variants as Option or Result, or with an empty variant beside ones with values",
         lambda: rows(r"^\s*(pub(\(\w+\))? )?enum (Mark|Answer|LineFault|Fault|Reading|Status|Presence|CellCause)\b")),
        ("a value that stands for none", lambda: rows(r"///? .*(if there is none|or the (cell's )?length|in its place|or the end of the list|as soon as nothing)|return Reading::Quiet;")),
        ("numbers for causes, kinds and steps", lambda: rows(r"fn (number|to_entry|from_entry|kind_number)\b|const \w*KIND: u16", code)),
        ("a flag beside a value", lambda: rows(r"\b(first|trial|lenient): bool|let mut first = true|Mark, first: bool", code)),
    ],
    "2 twins": [
        ("faults of a cause and a place, and the numbers and refusals of causes", lambda: rows(r"pub struct (\w*Fault|At)\b|fn number\(|for Refusal \{|Cause, usize\)", code)),
        ("texts measured and then written", lambda: rows(r"has_room\(put_|put_\w+\(out, .*\)\.ok_or", code)),
        ("the first reading that is not quiet", lambda: rows(r"Reading::Quiet => (\{\}|second|match|self\.)|(loud|said|by_ban|by_pin) => ", code)),
        ("the same five fields, and their copy", lambda: rows(r"pub struct (NameBox|Row)\b|name: row\.name", code)),
        ("searches of boxes", lambda: rows(r"fn (clashed|crowded|first_clashing|first_blocked|some_name_lost|first_alone|run_end|first_kept)\b", code)),
        ("three tables read into, and their book", lambda: rows(r"\[NO_RULE; |RuleBook::new\(", lambda p, l: code(p, l) and "tests" not in str(p))),
        ("a verdict or refusal told by a program", lambda: rows(r"layer job\"|the verdict is too long", code)),
        ("rows of nothing", lambda: rows(r"pub const NO_\w+|const NO_MEMBER|const NONE", code)),
        ("constants said again", lambda: rows(r"const (MAX_CHOICES|MAX_BYTES|MOST_BYTES)\b", code)),
    ],
    "3 index loops": [
        ("loops over an index, or that keep one", lambda: rows(r"while .*(\.len\(\)|>= 10)|for \w+ in [^{]*\.\.[^{]*\{|\.enumerate\(\)", lambda p, l: code(p, l) and "tests" not in str(p) and not str(p).startswith(("vectors", "job_vectors")))),
        ("loops whose body is a library method", lambda: rows(r"^\s*for (choice|b|c|row|_\w*|example|candidate) in ", lambda p, l: code(p, l) and "tests" not in str(p) and not str(p).startswith(("vectors", "job_vectors")))),
    ],
    "4 by hand": [
        ("equality", lambda: rows(r"fn is_(yes|no|open|outside|digit)\b|let (ByteKind|Position)::\w+ = |if let (Mark|ByteKind|Position|Reading)::\w+ = ", code)),
        ("conversion", lambda: rows(r"fn (to_entry|from_entry|turned|fault|other_answer|answer|mark_of|refused)\b|fn from\((pair|fault)", code)),
        ("defaults", lambda: rows(r"fn (zero|new)\(\) -> ", code)),
        ("printing", lambda: rows(r"fn (word_of|digits|put_\w+)\b", code)),
    ],
    "5 facts and parameters that travel": [("clauses in three functions or more", clauses), ("parameters in three functions or more", travellers)],
    "6 buffers, parallel arrays": [
        ("a buffer with a length beside", lambda: rows(r"^\s*count: u8|let mut (count|len) = 0|let mut list = \*boxes|seen: \[bool", code)),
        ("parallel arrays", lambda: rows(r"boxes: &\[NameBox\], marks: &\[Mark\]|marks: &mut \[Mark\], work: &mut \[u16\]|pins: &\[Mark\], marks: &\[Mark\]", code)),
    ],
    "7 switches on a step": [("enums that choose what is done", lambda: rows(r"enum (Spacing|Role|Half|State|Position)\b", code))],
}

for point, groups in POINTS.items():
    if only and not point.startswith(only):
        continue
    found = [(name, list(find())) for name, find in groups]
    print(f"# {point}: {sum(len(f) for _, f in found)}")
    for name, f in found:
        print(f"  ## {name}: {len(f)}")
        for where, what in f:
            print(f"    {where}  {what[:110]}")
