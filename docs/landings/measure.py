#!/usr/bin/env python3
"""What the tree holds, and how long its checks take, so that a landing can be held against an earlier one.

python3 docs/landings/measure.py [--times] [--gate] [--write PAGE ..]

Prints the counts of each crate. --times also proves every crate from nothing, one at a time, and --gate runs .ci/run,
each on the clock, in a copy of the tree under target/; both take minutes. --write puts what was taken into each page
named, between its marks; the part that was not taken is left as it was.
"""
import argparse
import os
import re
import shutil
import subprocess
import sys
import time
from pathlib import Path

sys.dont_write_bytecode = True
ROOT = Path(__file__).resolve().parent.parent.parent
sys.path.insert(0, str(ROOT / "docs"))
from crates import listed_crates  # noqa: E402

COPY = ROOT / "target" / "measured"
MARK = "<!-- docs/landings/measure.py writes {} from here -->\n"
MARK_ENDS = "<!-- to here -->\n"
FUNCTION = re.compile(r'^ *(pub )?(?:pub\(crate\) )?(?:extern "C" )?fn \w+', re.MULTILINE)
DECLARATION = re.compile(r"(abbrev |unfoldable )?(?:pub )?(record |data )?[^\s:(){}]+ (?:[({][^=]*)?: ")
BESIDE = {"second": "*.py", "docs": "**/*.py", "bench": "*.*", "callers": "**/*.[chr]*", ".ci": "*"}


# Counting

def filled_lines(paths):
    """Lines that are not empty."""
    return sum(1 for path in paths for line in path.read_text().splitlines() if line.strip())


def declarations(paths):
    """How many names have a definition (marked abbrev, unfoldable, record or data), and how many only a type and a proof.

    They stand at the margin or, two in, below `module _`; what stands two in below anything else is a field or a local.
    """
    defined = stated = 0
    for path in paths:
        in_module = False
        for line in path.read_text().splitlines():
            if line[:1] not in ("", " "):
                in_module = line.startswith("module ")
            body = line[2:] if in_module and line.startswith("  ") else line
            found = None if body.startswith((" ", "--", "use ", "module ")) else DECLARATION.match(body)
            if found and (found[1] or found[2]):
                defined += 1
            elif found:
                stated += 1
    return defined, stated


def edits_of(crate):
    """The edits that must be refused."""
    return sorted((ROOT / "crates" / crate).glob("must-fail/*.edit"))


def counts_of(crate):
    """One row: what the crate has."""
    folder = ROOT / "crates" / crate
    code = sorted(folder.glob("src/**/*.rt"))
    specs = sorted(folder.glob("specs/**/*.antt"))
    lemmas = sorted(folder.glob("proofs/*.antt"))
    proofs = sorted(folder.glob("proofs/*/**/*.antt"))
    edits = edits_of(crate)
    functions = [public for path in code for public in FUNCTION.findall(path.read_text())]
    return [len(functions), sum(map(bool, functions)), sum(declarations(specs)), declarations(lemmas)[1], len(edits),
            filled_lines(code), filled_lines(specs), filled_lines(lemmas), filled_lines(proofs), filled_lines(edits)]


def table(heads, rows):
    """Rows as a table; numbers to the right, with commas."""
    marks = ["---"] + ["---:"] * (len(heads) - 1)
    cells = [[f"{cell:,}" if isinstance(cell, int) else cell for cell in row] for row in rows]
    return "".join("| " + " | ".join(row) + " |\n" for row in (heads, marks, *cells))


def counts():
    """Both tables of counts."""
    rows = [[f"`{crate}`", *counts_of(crate)] for crate in listed_crates()]
    rows.append(["all", *(sum(column) for column in list(zip(*rows))[1:])])
    heads = ["Crate", "functions", "of them public", "definitions", "lemmas", "refused edits",
             "lines of code", "of definitions", "of lemmas", "of functions' proofs", "of edits"]
    beside = [[f"`{folder}/`", filled_lines(path for path in sorted((ROOT / folder).glob(pattern)) if path.is_file() and "target" not in path.parts)]
              for folder, pattern in BESIDE.items()]
    return table(heads, rows) + "\n" + table(["Beside the crates", "lines"], beside)


# Timing

def timed(command, **settings):
    """Seconds that the command takes in the copy, and what it prints; all ends if it fails."""
    began = time.monotonic()
    done = subprocess.run(command, cwd=COPY, stdout=subprocess.PIPE, stderr=subprocess.STDOUT, text=True, env=os.environ | settings)
    if done.returncode != 0:
        sys.exit(f"{done.stdout}failed: {' '.join(command)}")
    return time.monotonic() - began, done.stdout


def times(gate):
    """The table of times, in whole seconds."""
    shutil.rmtree(COPY, ignore_errors=True)
    shutil.copytree(ROOT, COPY, ignore=shutil.ignore_patterns("target", ".git", "__pycache__"))
    rows = []
    for crate in listed_crates():
        seconds, _ = timed(["rt", "check", crate], RT_JOBS="1")
        rows.append([f"`{crate}`", round(seconds), len(edits_of(crate))])
        print(f"{crate}: {round(seconds)} s", file=sys.stderr)
    rows.append(["all, one at a time", sum(row[1] for row in rows), sum(row[2] for row in rows)])
    taken = table(["Crate", "check, s", "refused edits, each a check more"], rows)
    if gate:
        seconds, printed = timed([".ci/run"])
        taken += f"\n`.ci/run`: {seconds / 60:.0f} minutes, on {os.cpu_count()} processors. Its last line: `{printed.splitlines()[-1]}`.\n"
    shutil.rmtree(COPY)
    return taken


def put(page, part, taken):
    """The part between its marks, if the page has them."""
    before, mark, rest = page.read_text().partition(MARK.format(part))
    if mark:
        after = rest.partition(MARK_ENDS)[2]
        page.write_text(before + mark + "\n" + taken + "\n" + MARK_ENDS + after)


def main():
    parser = argparse.ArgumentParser(description="What the tree holds, and how long its checks take.")
    parser.add_argument("--times", action="store_true", help="prove every crate from nothing, on the clock")
    parser.add_argument("--gate", action="store_true", help="with --times: run .ci/run too")
    parser.add_argument("--write", type=Path, nargs="*", default=[], metavar="PAGE", help="fill these pages")
    chosen = parser.parse_args()
    taken = {"counts": counts()}
    if chosen.times:
        taken["times"] = times(chosen.gate)
    for part, text in taken.items():
        print(text)
        for page in chosen.write:
            put(page, part, text)


if __name__ == "__main__":
    main()
