#!/usr/bin/env python3
"""Brings the repository's own words to the spelling of today's Rattle. Run once, at the top, right after the kit's port.py.

Words of specs/ and proofs/ are in snake case: callOn is call_on. In a lemma's name a dash joins words that are
defined, and a plain word is added with an underscore: sent-steady is sent_steady, busyOf-zero is busy_of-zero. A name
that would fall together with one that is there already gets the ending _lem. Functions, fields, exported names and
strings of src/ keep their names. What documents, checks and must-fail edits cite is turned with it.
"""

import os
import re
import sys

WORD = re.compile(r"(?<![A-Za-z0-9_'])[a-z][a-z0-9]*(?:_[a-z0-9]+)*[A-Z][A-Za-z0-9_']*")
DEFINED_AT_TOP = re.compile(r"^(?:abbrev |unfoldable )?(?:pub )?([^\s:(){}]+) :", re.M)
DEFINED = re.compile(r"^ *(?:abbrev |unfoldable )?(?:pub )?([^\s:(){}]+) :", re.M)

# Words of std, and of the language, that a lemma's name is made of.
KNOWN = set(
    """zero suc nil cons one add sub mul div mod rem pow le lt leb ltb eq eqb append length take drop get get_or set map
    filter all any and or not true false replicate sum some none ok err max min cond fst snd refl bit_and bit_or""".split()
)

# Lemmas and examples whose names would fall together with a definition's.
FALLING = "answer_at counts_of goes_on in_order in_step no_last no_stray not_live read_again".split()


def texts(ends, folders=("crates",)):
    for top in folders:
        for folder, dirs, files in os.walk(top):
            dirs[:] = sorted(d for d in dirs if d not in ("out", "target", ".git"))
            for f in sorted(files):
                if f.endswith(ends):
                    yield os.path.join(folder, f)


def read(path):
    with open(path, encoding="utf-8") as f:
        return f.read()


def snake(word):
    word = re.sub(r"([a-z0-9])([A-Z])", lambda m: m.group(1) + "_" + m.group(2).lower(), word)
    return re.sub(r"[A-Z]", lambda m: m.group(0).lower(), word)


def own(path):
    """Whether the file holds the crate's words: those of a function's proof, in a folder of its own, are its own affair."""
    parts = path.split(os.sep)
    return parts[2] == "specs" or (parts[2] == "proofs" and len(parts) == 4)


def definitions():
    """The names of specs/ (words), the others that have no dash, and those that have one."""
    words, plain, dashed = set(), set(), set()
    for path in texts(".antt"):
        if not own(path):
            continue
        for name in DEFINED.findall(re.sub(r"--.*", "", read(path))):
            (dashed if "-" in name.strip("-") else plain).add(name)
        if path.split(os.sep)[2] == "specs":
            words.update(n for n in DEFINED_AT_TOP.findall(re.sub(r"--.*", "", read(path))) if "-" not in n)
    return words, plain, dashed


def undashed(name, words):
    """The lemma's name with a dash where it joins two words that are defined, and an underscore elsewhere."""
    made, left = "", ""
    for part in name.split("-"):
        joins = (left in words or left in KNOWN or left[:1].isupper()) and (part in words or part in KNOWN or part[:1].isupper())
        made, left = (made + "-" + part, part) if made and joins else (made + "_" * bool(made) + part, left + "_" * bool(made) + part)
    return made


def turn_words(text):
    return WORD.sub(lambda m: snake(m.group(0)), text)


def turn_names(text, names):
    """Whole names only, outside of comments."""
    if not names:
        return text
    any_name = re.compile(r"(?<![\w'-])(" + "|".join(sorted(map(re.escape, names), key=len, reverse=True)) + r")(?![\w'-])")
    lines = []
    for line in text.split("\n"):
        code, mark, comment = line.partition("--")
        lines.append(any_name.sub(lambda m: names[m.group(1)], code) + mark + comment)
    return "\n".join(lines)


def main():
    words, plain, dashed = definitions()
    fell = {n: n + "_lem" for n in FALLING}
    snakes = {fell.get(w, snake(w) if WORD.fullmatch(w) else w) for w in plain}
    words = {snake(w) if WORD.fullmatch(w) else w for w in words}
    lemmas = {}
    for name in dashed:
        name = "-".join(snake(p) if WORD.fullmatch(p) else p for p in name.split("-"))
        lemmas[name] = undashed(name, words)
    taken = {}
    for old, new in sorted(lemmas.items()):
        if new in snakes or new in taken:
            lemmas[old] = new + "_lem"
        taken[lemmas[old]] = old
    lemmas = {o: n for o, n in lemmas.items() if o != n}
    paths = re.compile(r"(?<![\w'.-])(" + "|".join(FALLING) + r")(?![\w'-])")
    for path in texts((".antt", ".rt", ".edit")):
        text = was = read(path)
        if path.endswith(".antt"):
            text = paths.sub(lambda m: fell[m.group(1)], text)
        text = turn_names(turn_words(text), lemmas)
        if text != was:
            with open(path, "w", encoding="utf-8") as f:
                f.write(text)
    known = {w: snake(w) for w in plain if WORD.fullmatch(w)}
    cited = re.compile(r"(?<![\w'/.-])(" + "|".join(map(re.escape, sorted({**known, **lemmas}, key=len, reverse=True))) + r")(?![\w'-])")
    pages = [p for p in texts((".md",), ("docs",))] + ["README.md", "CONTRIBUTING.md"]
    for path in pages + [p for p in (".ci/names", ".ci/claims") if os.path.exists(p)]:
        text = was = read(path)
        text = re.sub(r"`[^`\n]+`", lambda m: cited.sub(lambda n: {**known, **lemmas}[n.group(1)], m.group(0)), text)
        if text != was:
            with open(path, "w", encoding="utf-8") as f:
                f.write(text)
    if "--list" in sys.argv:
        for old, new in sorted({**known, **lemmas}.items()):
            print(old, new)


main()
