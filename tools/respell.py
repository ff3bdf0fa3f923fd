#!/usr/bin/env python3
"""Spells the definitions and lemmas of this repository as today's Rattle spells names.

usage: python3 tools/respell.py [--names]     at the top, once, on what port.py has turned

A name in mixed case becomes snake case. A dash becomes an underscore, but where it joins the names of definitions, as in length-points.
Types, modules, functions of src/ and the names that Rattle makes stay. --names prints what would change, and names that would fall together.
"""

import os
import re
import sys

TOP = os.path.join(os.path.dirname(os.path.abspath(__file__)), "..")
WORD = r"[^\s(){}\[\].;,:@\"«»`|/]+"
DECLARED = re.compile(rf"(?m)^\s*(?:(?:pub|abbrev|unfoldable|opaque)\s+)*({WORD})(?:\s+\{{[^{{}}\n]*\}})*\s+:\s+(.*)")
BOUND = re.compile(rf"(?:\blet|\bin|[({{])\s+({WORD})\s+:\s")
# Lemmas that would meet a definition of their crate once it has its new name; a lemma takes _lem then.
MEETS = {
    "not_finite": ("outline/proofs/EntryLaws", "outline/proofs/EntryUses", "outline/specs/EntryLaws", "entries/proofs/FixCases", "fix_replies/proofs/WorkedReplies"),
    "refused_end": ("lines/proofs/EndLines", "lines/proofs/end_walk/Proof", "text_program/proofs/LineByLine"),
    "nothing_written": ("mask_cells/proofs/MaskRefusals",),
    "too_far": ("moves/proofs/WorkedMoves",),
    "too_many": ("mask_cells/proofs/MaskLimits", "masks/proofs/decide/Proof"),
    "word_cells": ("mask_cells/proofs/WordCells", "mask_cells/proofs/OnesCounted"),
    "walk_rows": ("worked_rows/proofs/Worked",),
    "is_digit": ("text_numbers/proofs/DigitCases", "text_numbers/proofs/digits/Proof"),
    "in_step": ("worked_rows/proofs/Errors",),
}
LIBRARY = {"length", "append", "take", "drop", "map", "sum", "get_or", "reverse", "concat", "filter", "zip", "cond", "min", "max"}


def files(suffixes, *folders):
    for top in folders:
        for folder, inside, names in os.walk(os.path.join(TOP, top)):
            inside[:] = sorted(d for d in inside if d not in ("out", "target", ".git"))
            for name in sorted(names):
                if name.endswith(suffixes):
                    yield os.path.join(folder, name)


def read(path):
    with open(path, encoding="utf-8") as file:
        return file.read()


def without_comments(text):
    return re.sub(r"(?m)--.*$", "", text)


def declared():
    """Each declared name, with whether some place declares it as more than a goal of Rattle's, and the names of definitions."""
    own, definitions = set(), set(LIBRARY)
    for path in files((".antt",), "crates"):
        text = without_comments(read(path))
        for name, kind in DECLARED.findall(text):
            if not kind.startswith("tie."):
                own.add(name)
            if "/specs/" in path and "-" not in name:
                definitions.add(name)
        own.update(BOUND.findall(text))
        own.update(re.findall(r"\bas ([a-z]\w*)", text))
    for path in files((".rt",), "crates"):
        own.update(name for items in re.findall(r"(?m)^ghost use .*$", read(path)) for name in re.findall(r"\bas ([a-z]\w*)", items))
    return own, definitions


def snake(word):
    if not word[:1].islower():
        return word
    return re.sub(r"(?<=[a-z0-9])[A-Z]+", lambda found: "_" + found.group().lower(), word)


def respelled(name, definitions):
    if not re.match(r"[a-z]", name) or not re.fullmatch(r"[A-Za-z0-9_'₀-₉ℤℕ-]+", name):
        return name
    parts = name.split("-")
    if len(parts) > 1 and all(part in definitions or snake(part) in definitions for part in parts):
        return "-".join(snake(part) for part in parts)
    return "_".join(snake(part) for part in parts)


def turns():
    own, definitions = declared()
    fixed = {"invariant-loop", "decreases-loop"}
    turned = {name: respelled(name, definitions) for name in sorted(own - fixed)}
    mixed = {new for old, new in turned.items() if old != new and "-" not in old}
    turned = {old: new + "_lem" if "-" in old and new in mixed else new for old, new in turned.items()}
    return {old: new for old, new in turned.items() if old != new}


def functions():
    return {name for path in files((".rt",), "crates") for name in re.findall(r"\bfn (\w+)", read(path))}


def apply(text, turned, comments_whole):
    def code(part):
        return re.sub(WORD, lambda found: turned.get(found.group(), found.group()), part)

    def of_source(part):
        # Behind a dot a name of a function of src/ is Rattle's name of a call, which has the function's own spelling.
        return re.sub(rf"(?<=\.)({WORD})", lambda found: found.group().replace("-", "_") if found.group() in turned and found.group().replace("-", "_") in FUNCTIONS else found.group(), part)

    def prose(part):
        part = re.sub(r"`[^`\n]+`", lambda found: code(found.group()), part)
        return re.sub(r"(?<![\w'-])[a-z][A-Za-z0-9]*[A-Z]\w*(?![\w'-])", lambda found: turned.get(found.group(), found.group()), part)

    if comments_whole:
        return prose(text)
    mark = "--"
    lines = []
    for line in text.split("\n"):
        at = line.find(mark)
        lines.append(code(of_source(line)) if at < 0 else code(of_source(line[:at])) + prose(line[at:]))
    return "\n".join(lines)


def apply_rust(text, turned):
    """Ghost text alone: ghost items, and the clauses in braces. Comments as prose, and strings as they are."""
    out, depth, ghost = [], 0, False
    for line in text.split("\n"):
        at = line.find("//")
        head, note = (line, "") if at < 0 else (line[:at], line[at:])
        starts = re.match(r"\s*(ghost\b|requires\b|ensures\b|invariant\b|prove!)", head)
        if starts or ghost:
            depth = (depth if ghost else 0) + head.count("{") - head.count("}")
            ghost = depth > 0
            head = apply(head, turned, False)
        out.append(head + apply(note, turned, True))
    return "\n".join(out)


FUNCTIONS = functions()


def main():
    turned = turns()
    if "--names" in sys.argv:
        own, _ = declared()
        meets = {}
        for name in own:
            meets.setdefault(turned.get(name, name), set()).add(name)
        for new, olds in sorted(meets.items()):
            if len(olds) > 1:
                print("together:", new, sorted(olds))
        for old, new in turned.items():
            print(old, new)
        return
    for path in files((".antt", ".rt"), "crates"):
        text = read(path)
        here = turned | {old: old + "_lem" for old, places in MEETS.items() if any(path.endswith(f"crates/{place}.antt") for place in places)}
        new = apply(text, here, False) if path.endswith(".antt") else apply_rust(text, here)
        if new != text:
            with open(path, "w", encoding="utf-8") as file:
                file.write(new)


main()
