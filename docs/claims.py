"""What the pages of claims say of the tree: each name on them is there, each edit of the tree stands once, and the lines of definitions."""
import re
from pathlib import Path

from differences import expect

ROOT = Path(__file__).resolve().parent.parent
CRATES = ROOT / "crates"
WHERE = "docs/CLAIMS*.md"
NAMES = r"`[\w-]+`(?:, `[\w-]+`)*"
NAME = re.compile(r"`([A-Za-z][\w-]+)`")


def words(paths):
    """The words of some sources, comments left out."""
    return {word for path in paths for word in re.findall(r"[\w-]+", re.sub(r"(?m)(?:^|\s)(?:--|//)\s.*", "", path.read_text()))}


def column(text, head):
    """For every cell below this head, in whichever tables have it: each crate and a name given after it."""
    at, found = None, []
    for line in text.splitlines():
        cells = [cell.strip() for cell in line.strip("|").split("|")] if line.startswith("|") else []
        if head in cells or not cells:
            at = cells.index(head) if cells else None
        elif at is not None:
            found += [(crate, name) for crate, names in re.findall(rf"(\w+) ({NAMES})", cells[at])
                      if crate.islower() for name in NAME.findall(names)]
    return found


def check_edits(text):
    """Every edit of the tree stands once, after its crate."""
    named = column(text, "Refused edits")
    there = {(path.parts[-3], path.stem) for path in CRATES.glob("*/must-fail/*.edit")}
    for each in sorted(there | set(named)):
        expect(each in there, WHERE, f"no edit {' '.join(each)}")
        expect(named.count(each) == 1, WHERE, f"the edit {' '.join(each)} stands {named.count(each)} times")


def check_names(text):
    """Every promise is that of a function of its crate, every name given before a link is in that file, and every other in the tree."""
    for crate, name in column(text, "Promise"):
        code = "".join(path.read_text() for path in (CRATES / crate / "src").rglob("*.rt"))
        expect(re.search(rf"\bfn {name}\b", code), WHERE, f"{crate} has no function {name}")
    for names, label in re.findall(rf"({NAMES}) \(\[([\w/]+)\]", text):
        path = CRATES / f"{label}.antt"
        lacking = set(NAME.findall(names)) - (words([path]) if path.exists() else set())
        expect(not lacking, WHERE, f"{label} lacks {', '.join(sorted(lacking))}")
    known = words([*CRATES.rglob("*.antt"), *CRATES.rglob("*.rt"), *CRATES.glob("*/stdout")])
    known |= {path.name for path in CRATES.iterdir()} | {path.stem for path in CRATES.glob("*/must-fail/*.edit")}
    for name in sorted(set(NAME.findall(text)) - known):
        expect(False, WHERE, f"nothing is called {name}")


def check_definitions(text):
    """How many lines of definitions each crate has, those that only private contracts cite apart."""
    for folder in ("specs", "specs/private"):
        said = text.partition(f"In lines of `{folder}/*.antt`")[2].partition("\n")[0]
        lines = {}
        for path in sorted(CRATES.glob(f"*/{folder}/*.antt")):
            crate = path.relative_to(CRATES).parts[0]
            lines[crate] = lines.get(crate, 0) + len(path.read_text().splitlines())
        stated = {name: int(count) for name, count in re.findall(r"`(\w+)` (\d+)", said)}
        expect(stated == lines, WHERE, f"the lines of {folder} are " + ", ".join(f"`{name}` {count}" for name, count in lines.items()))


def check():
    text = "\n".join(path.read_text() for path in sorted(ROOT.glob(WHERE)))
    check_edits(text)
    check_names(text)
    check_definitions(text)
