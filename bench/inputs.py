"""The inputs of the benchmark, made from a seed, so that they are the same in every run."""
import random

SEED = 14
LINES = 1_000_000
MOST_BYTES = 33_000_000


def coordinate(rng):
    return rng.randint(-2_000, 2_000)


def point_line(rng):
    return f"P\t{coordinate(rng)}\t{coordinate(rng)}\n"


def walks(points, closing):
    """Walks of so many points, each closed by the given line; the last is cut off with the lines."""
    def make(rng):
        lines = []
        while len(lines) < LINES:
            lines.append("B\n")
            lines += [point_line(rng) for _ in range(points)]
            lines.append(closing)
        return "".join(lines[:LINES])
    return make


# Lines of no form, each wrong in its own way.
DAMAGES = (
    lambda rng: "\n",
    lambda rng: rng.choice("CDSXabep") + "\n",
    lambda rng: rng.choice("ABE") + rng.choice(" \r\t0") + "\n",
    lambda rng: f"P {coordinate(rng)} {coordinate(rng)}\n",
    lambda rng: f"P\t{coordinate(rng)}\n",
    lambda rng: f"P\t{coordinate(rng)}\t\n",
    lambda rng: f"P\t{coordinate(rng)}\t{coordinate(rng)}\t{coordinate(rng)}\n",
    lambda rng: f"P\t0{rng.randint(0, 999)}\t{coordinate(rng)}\n",
    lambda rng: f"P\t{coordinate(rng)}\t-0\n",
    lambda rng: f"P\t+{rng.randint(0, 2_000)}\t{coordinate(rng)}\n",
    lambda rng: f"P\t{rng.randint(10_000, 99_999)}\t{coordinate(rng)}\n",
    lambda rng: f"P\t{coordinate(rng)}\t{coordinate(rng)}.{rng.randint(0, 9)}\n",
)


def damaged(rng):
    return "".join(rng.choice(DAMAGES)(rng) for _ in range(LINES))


def points_outside_a_walk(rng):
    return "".join(point_line(rng) for _ in range(LINES))


def one_long_line(_):
    return (MOST_BYTES - 1) * "P" + "\n"


# Each with what it is, as the table says it.
TIMED = {
    "points": (walks(1_024, "A\n"), "walks of 1,024 points, each abandoned: no line is refused"),
    "abandoned": (walks(4, "A\n"), "begin, four points, abandon: no line is refused"),
    "ended": (walks(4, "E\n"), "begin, four points, end: after 64 outlines each end is refused with 25, "
                               "the begin after it with 22, and points with 23 once the open walk has 1,024"),
    "damaged": (damaged, "lines of no form, of 12 kinds at random: each is refused with 9"),
    "outside": (points_outside_a_walk, "points with no walk open: each is refused with 21"),
}
UNTIMED = {"long": (one_long_line, "one line of 33,000,000 bytes")}


def make_inputs(folder):
    """Write those inputs that are not there yet; the paths by name."""
    folder.mkdir(parents=True, exist_ok=True)
    paths = {}
    for name, (make, _) in (TIMED | UNTIMED).items():
        paths[name] = folder / f"{name}-{SEED}.txt"
        if not paths[name].exists():
            paths[name].write_text(make(random.Random(SEED)), newline="\n")
    return paths
