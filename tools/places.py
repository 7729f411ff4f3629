#!/usr/bin/env python3
"""Counts the places of docs/DESIGN-PASS.md in crates/*/src: python3 tools/places.py [TREE] [-v]

Each line is a kind of place of a point and its count; with -v the places follow, FILE:LINE and the line.
"""
import glob
import os
import re
import sys

WHILE = r"^\s*('[a-z]+: )?while "
LINES = [
    ("1 own enums", r"^(pub )?enum "),
    ("1 constants for refusals and kinds",
     r"const (BAD_\w+|CLOCK_\w+|QUEUE_FULL|NO_STATE|SPENT|NO_ROOM|TORN_LOG|OUT_OF_RANGE|READY|TAKEN|SENT|IDLE|"
     r"CLOSED|REFUSED|SAMPLE|OFFER|POLL): "),
    ("1 bare numbers of refusals", r"(return|refused\(|refused_make\(|Refused\()\s*([2-9]|1[0-5])\b|refused_make\(1"),
    ("3 loops with while", WHILE),
    ("4 widening by as", r" as (u64|u128|f64)\b"),
    ("6 a length beside a buffer", r"^    (pub )?len: usize"),
    ("6 a length or a place passed beside a slice",
     r"fn \w+.*\b(n|held|at|bytes|end|end_at|len): usize, \w+: &|fn \w+.*: &(mut )?\[\w+\], (at|n): usize"),
    ("7 closures, impl Fn, dyn, function pointers", r"\bdyn |impl Fn|: fn\(|\|\w+\| "),
]
REFUSES = r"\w*refusal|write_\w+|presscurlew_write_\w+|presscurlew_gate_burst"
FLAG = r"^    (pub )?(kind|refusal|number|profile|oldway|live|admitted|pairing|fromend|failed|sound|more): .*"
PARAMETER = re.compile(r"(\w+): ([^,]+?)(?:,|$)")


def sources(tree):
    for path in sorted(glob.glob(os.path.join(tree, "crates/*/src/*.rt"))):
        with open(path, encoding="utf-8") as f:
            yield os.path.relpath(path, tree), f.read()


def functions(text):
    """The line, the name, the parameters, the result and the requires of each function."""
    for m in re.finditer(r"^ *(?:pub )?(?:extern \"C\" )?fn (\w+)(?:<[^>]*>)?\((.*?)\)(.*?)^ *\{$", text, re.S | re.M):
        line = text.count("\n", 0, m.start()) + 1
        parameters = re.sub(r"\s+", " ", m.group(2)).strip()
        result = re.match(r"\s*-> (\S+)", m.group(3))
        needs = re.findall(r"requires(?: \w+)? \{(.*?)\}\s*(?=requires|ensures|$)", m.group(3), re.S)
        yield line, m.group(1), parameters, result and result.group(1), [re.sub(r"\s+", " ", n).strip() for n in needs]


def main():
    words = [a for a in sys.argv[1:] if a != "-v"]
    tree, verbose = (words[0] if words else "."), "-v" in sys.argv
    found = {name: [] for name, _ in LINES}
    flags, profiles, refusals, needs, groups = [], [], [], {}, {}
    for path, text in sources(tree):
        for number, line in enumerate(text.split("\n"), 1):
            if line.strip().startswith("//"):
                continue
            for name, pattern in LINES:
                if re.search(pattern, line):
                    found[name].append(f"{path}:{number}: {line.strip()}")
        for body in re.finditer(r"^(?:pub )?struct \w+[^{;]*\{\n(.*?)^\}", text, re.S | re.M):
            for m in re.finditer(FLAG, body.group(1), re.M):
                line = text.count("\n", 0, body.start(1) + m.start()) + 1
                flags.append(f"{path}:{line}: {m.group(0).strip()}")
        for line, name, parameters, result, required in functions(text):
            if "profile: u32" in parameters:
                profiles.append(f"{path}:{line}: {name}")
            if result == "u32" and re.fullmatch(REFUSES, name):
                refusals.append(f"{path}:{line}: {name}")
            for need in required:
                needs.setdefault(need, []).append(f"{path}:{line}: {name}")
            names = tuple(p for p, _ in PARAMETER.findall(parameters))
            for row in (("queues", "came", "air"), ("queues", "came"), ("words", "came"), ("n", "slots"), ("above", "waits")):
                if all(r in names for r in row):
                    groups.setdefault(row, []).append(f"{path}:{line}: {name}")
                    break
    found["1 fields with a flag, a kind or a refusal"] = flags
    found["1 functions that take a profile's number"] = profiles
    found["1 functions that answer a refusal's number"] = refusals
    for need, where in sorted(needs.items(), key=lambda x: -len(x[1])):
        if len(where) >= 3:
            found[f"5 requires {{ {need} }}"] = where
    for row, where in sorted(groups.items(), key=lambda x: -len(x[1])):
        if len(where) >= 3:
            found["5 parameters together: " + ", ".join(row)] = where
    for name in sorted(found):
        print(f"{len(found[name]):4}  {name}", flush=True)
        if verbose:
            print("".join(f"        {w}\n" for w in found[name]), end="")


if __name__ == "__main__":
    main()
