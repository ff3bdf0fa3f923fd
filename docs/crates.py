"""The crates of this repository, as crates.txt lists them."""
from graphlib import TopologicalSorter
from pathlib import Path

LIST = Path(__file__).resolve().parent.parent / "crates.txt"


def listed_crates():
    """Each crate with the crates of this repository that it rests on; each comes after all that it rests on.

    A line is a name, what kind of crate it is if that is said, a colon and the names it rests on, the kit's own crates among them; # starts a comment.
    """
    lines = [line.partition("#")[0].partition(":") for line in LIST.read_text().splitlines()]
    named = {head.split()[0]: others.split() for head, _, others in lines if head.strip()}
    rests_on = {name: [other for other in others if other in named] for name, others in named.items()}
    return {name: rests_on[name] for name in TopologicalSorter(rests_on).static_order()}
