#!/usr/bin/env python3
"""Counts the places in src/ that docs/DESIGN-PASS.md speaks of, and lists them.

usage: places.py [--list] [COMMIT]    at the top of the repository
"""
import re
import subprocess
import sys

listing = "--list" in sys.argv
names = [a for a in sys.argv[1:] if not a.startswith("--")]


def sources():
    if names:
        listed = subprocess.run(["git", "ls-tree", "-r", "--name-only", names[0], "crates"], capture_output=True, text=True, check=True).stdout.split()
        read = lambda p: subprocess.run(["git", "show", f"{names[0]}:{p}"], capture_output=True, text=True, check=True).stdout
    else:
        listed = subprocess.run(["git", "ls-files", "-co", "--exclude-standard", "crates"], capture_output=True, text=True, check=True).stdout.split()
        read = lambda p: open(p).read()
    return {p: read(p) for p in sorted(set(listed)) if "/src/" in p and p.endswith(".rt")}


texts = sources()
SKIPPED = re.compile(r"^\s*(//|ghost use|use |requires|ensures)")


def lines(pattern):
    found = []
    for path, text in texts.items():
        for n, line in enumerate(text.split("\n"), 1):
            if not SKIPPED.match(line) and re.search(pattern, line):
                found.append(f"{path}:{n}: {line.strip()}")
    return found


def functions():
    head = re.compile(r"^(?P<pad> *)(?:pub(?:\(crate\))? )?(?:extern \"C\" )?fn (?P<name>\w+)(?P<rest>[^\n]*)$", re.M)
    for path, text in texts.items():
        for m in head.finditer(text):
            end = text.find("\n" + m["pad"] + "}\n", m.start())
            yield path, m["name"], text[m.start():end]


def parameters(whole):
    inside = whole[whole.index("(", whole.index("fn ")):]
    depth = count = 0
    some = False
    for c in inside:
        if c in "([{<":
            depth += 1
        elif c in ")]}>":
            depth -= 1
            if depth == 0:
                break
        elif c == "," and depth == 1:
            count += 1
            some = False
            continue
        elif depth >= 1 and not c.isspace():
            some = True
    return count + (1 if some else 0)


def shape(whole):
    body = whole[whole.find("\n" + re.match(r" *", whole)[0] + "{") + 1:]
    types = re.sub(r"\b(u8|u16|u32|u64|usize)\b", "T", re.sub(r"\d[\d_]*(u8|u16|u32|u64|usize)?", "N", body))
    order = {}
    return re.sub(r"\b[a-z_][a-z_0-9]*\b", lambda m: order.setdefault(m[0], f"v{len(order)}") if m[0] not in KEPT else m[0], types)


KEPT = {"let", "mut", "while", "for", "in", "if", "else", "return", "match", "loop", "true", "false", "as", "fn", "break", "continue"}


def twins():
    groups = {}
    for path, name, whole in functions():
        s = re.sub(r"\s+", " ", shape(whole))
        if len(s) > 60:
            groups.setdefault(s, []).append(f"{path}: {name}")
    return [" = ".join(g) for g in groups.values() if len(g) > 1]


def repeated_requires():
    seen = {}
    for path, name, whole in functions():
        for m in re.finditer(r"^ *requires(?: \w+)? (\{.*\})$", whole, re.M):
            seen.setdefault(m[1], []).append(f"{path}: {name}")
    return [f"{clause}: {len(fs)} functions" for clause, fs in seen.items() if len(fs) > 2]


points = [
    ("1a own enums", lines(r"\benum \w+ \{")),
    ("1b a number that is 0 where nothing is refused, tested", lines(r"\bnumber\)? (!=|==) 0")),
    ("1c refusals by number literals", lines(r"\bnumber: [0-9]+|\b(refusal_at|refused|refused_by|refusal_reply)\([0-9]+|stopped(_by)?\(.*\b(12|25|26)[,)]")),
    ("1d numbers for kinds", lines(r"const [A-Z_]+: u8|model::(STAY|OTHER_MOVE|ROOT_ENTRY|PASSED_ENTRY|CROSSED_ENTRY|LEAVING)")),
    ("1e numbers for none", lines(r"return (64|255|256|300|400);|\[255u8; |== (64|255|300|400)\b")),
    ("2 functions with one body but for names, types and numbers", twins()),
    ("3 while and loop", lines(r"^\s*(let \w+ = )?(while|loop)\b")),
    ("4a conversions by functions of the crate casts", lines(r"\bcasts::\w+\(")),
    ("4b largest and smallest by hand, sums that stop at the largest number by hand", lines(r"\bfn (larger|smaller|least_of|capped_sum|capped_product|differs|both)\b")),
    ("5a functions with more than seven parameters", [f"{p}: {n} ({parameters(w)})" for p, n, w in functions() if parameters(w) > 7]),
    ("5b a requires of three or more functions", repeated_requires()),
    ("6 a state taken apart or put together array by array", lines(r"= (\*?state|fresh|\*)\.?(words|counters|tails|nexts|statuses|rows|domains|peers|entries|tenures|longest)|^\s*(tails|nexts|statuses|peers),$")),
    ("7 function pointers, dyn", lines(r"\bdyn\b|: fn\(")),
]
for name, found in points:
    print(f"{name}: {len(found)}")
    if listing:
        for f in found:
            print(f"    {f}")
