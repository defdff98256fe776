"""For the scripts of this folder: builds the benchmark, runs it, and compares what the calls take. `rows` takes the options
of bench/run, which help.txt explains."""
import argparse
import pathlib
import statistics
import subprocess
import tempfile

HERE = pathlib.Path(__file__).resolve().parent
CALLS = ("reverse", "rows", "transpose")
# Bytes of a row, and the number of rows. The greatest list has 256 KB.
ROWS = """64x16 64x64 64x256 64x1024 64x4096 128x16 128x64 128x256 128x1024 128x2048 256x16 256x64 256x256 256x1024 1024x16
    1024x64 1024x256""".split()
# Columns and rows.
SHAPES = """2x2 3x3 4x4 5x5 6x6 7x7 8x8 15x17 16x16 17x19 64x64 63x50 300x60 512x512 1024x1024 1025x1024 2048x2048 2003x757
    4096x16 16x65536 1000x1024 300x4096 100x16384 40x65536 12x262144 65536x40 4096x4096 262144x12""".split()
# Columns and rows of matrices with long rows. Some are also in SHAPES.
WIDE = """1024x2048 2048x1024 2048x2048 4096x512 4096x4096 8192x256 8192x1024 16384x128 16384x256 16384x100 32768x64 32768x100
    65536x20 65536x40 65536x100 131072x24 262144x12 6144x700 12288x300 20000x100 50000x37""".split()
# What is measured on several threads.
SHAPES_ON_THREADS = """256x256 512x512 64x4096 4096x64 1000x300 1024x1024 1023x1001 64x16384 16384x64 2048x1024 1024x2048
    300x4096 2048x2048 4096x1024 64x65536 65536x64 4096x4096 256x65536 16x1048576 1048576x16 3000x2000 100x65536""".split()
# What is measured unless an option says otherwise, in general and by kind of build.
DEFAULTS = {
    "": {"calls": CALLS, "items": ["1", "4", "8", "32"], "sizes": range(2, 23), "rows": ROWS, "shapes": SHAPES + WIDE},
    "--parallel": {"calls": ["reverse", "transpose"], "sizes": range(14, 25), "shapes": SHAPES_ON_THREADS},
}
ALL = 2 ** 64
# The calls that are summarized together: the call, how many items or rows it moves, and the shapes. A call may be in
# several.
GROUPS = {
    "reversals of 2^2 to 2^13 items": ("reverse", range(2 ** 13 + 1)),
    "reversals of 2^14 to 2^22 items": ("reverse", range(2 ** 14, ALL)),
    "transposes of 2x2 to 8x8": ("transpose", range(65)),
    "transposes of 65 to 2^20 items": ("transpose", range(65, 2 ** 20 + 1)),
    "transposes of more items": ("transpose", range(2 ** 20 + 1, ALL), lambda shape: shape in SHAPES or shape not in WIDE),
    "transposes of wide matrices": ("transpose", range(ALL), WIDE.__contains__),
    "reversals of rows, compared with a copy": ("rows", range(ALL)),
}
GROUPS_ON_THREADS = {
    "reversals of up to 2^16 items": ("reverse", range(2 ** 16 + 1)),
    "reversals of 2^17 to 2^19 items": ("reverse", range(2 ** 17, 2 ** 20)),
    "reversals of 2^20 to 2^24 items": ("reverse", range(2 ** 20, ALL)),
    "transposes of fewer than 2^18 items": ("transpose", range(2 ** 18)),
    "transposes of 2^18 items and more, but fewer than 2^22": ("transpose", range(2 ** 18, 2 ** 22)),
    "transposes of 2^22 items and more": ("transpose", range(2 ** 22, ALL)),
}


class Row:
    """A call, and what it took each contender: nanoseconds, or instructions."""

    def __init__(self, name, units):
        self.name, self.units, self.took = name, int(units), {}

    def shape(self):
        return self.name.split(" ")[-1]

    def item(self):
        return int(self.name.split(" ")[1])

    def base(self):
        """Whom calls are compared with."""
        return "Original" if "Original" in self.took else "Copy"

    def ratio(self, a="Proved", b="Original"):
        """What the first contender took divided by what the second took. None if one of them was not measured."""
        return self.took[a] / self.took[b] if {a, b} <= self.took.keys() else None

    def is_in(self, call, units, has=None):
        return self.name.startswith(call) and self.units in units and (has is None or has(self.shape()))


def options(words, kind):
    """What is measured, as the options say that bench/build leaves. The kind is that of DEFAULTS."""
    def sizes(text):
        first, _, last = text.partition("-")
        return range(int(first), int(last) + 1) if last else [int(log) for log in text.split(",")]

    parser = argparse.ArgumentParser(prog="bench/run", add_help=False, allow_abbrev=False)
    parser.add_argument("--words", action="store_true")
    parser.add_argument("--iterators", action="store_true")
    parser.add_argument("--sizes", type=sizes)
    for name in ("calls", "items", "rows", "shapes"):
        parser.add_argument(f"--{name}", type=lambda text: text.split(","))
    for name, default in (("parts", 0), ("runs", 9), ("largest", ALL)):
        parser.add_argument(f"--{name}", type=int, default=default)
    parser.set_defaults(**DEFAULTS[""] | DEFAULTS[kind])
    return parser.parse_args(words)


def calls(asked):
    """The names of the calls that these options ask for."""
    if asked.words or asked.iterators:
        return ["words" if asked.words else "iterators"]
    rows, matrices = ({shape: [int(side) for side in shape.split("x")] for shape in shapes} for shapes in (asked.rows, asked.shapes))
    shapes = {"reverse": {f"2^{log}": (1, 2 ** log) for log in asked.sizes}, "rows": rows, "transpose": matrices}
    named = [(call, item, *shape) for call in CALLS if call in asked.calls for item in dict.fromkeys(asked.items) for shape in shapes[call].items()]
    return [f"{call} {item} {shape}" for call, item, shape, sides in named if is_asked(call, int(item), *sides, asked.largest)]


def is_asked(call, item, across, down, largest):
    """Whether the list is not too large, and a row consists of whole items."""
    of_bytes = call == "rows"
    return across * down * (1 if of_bytes else item) <= largest << 20 and not (of_bytes and across % item)


def output(*command):
    try:
        return subprocess.run([*map(str, command)], stdout=subprocess.PIPE, text=True, check=True).stdout
    except (OSError, subprocess.CalledProcessError):
        raise SystemExit(f"{command[0]} failed, or is not installed") from None


def rows(words):
    """Builds the benchmark as these options say, and measures."""
    path, *own = output(HERE / "build", *words).splitlines()
    asked = options(own, next((kind for kind in DEFAULTS if kind in words), ""))
    if asked.parts and "--parallel" in words:
        raise SystemExit("--parts is for the package alone")
    names = calls(asked)
    if not names:
        raise SystemExit("these options leave no call to measure")
    by = by_valgrind if "--instructions" in words else by_clock
    found = {}
    for line, took in by(path, asked.parts, names, asked.runs):
        name, units, contender = line.split("\t")[:3]
        found.setdefault(name, Row(name, units)).took[contender] = took
    return list(found.values())


def summaries(rows, on_threads=False):
    """What the proved call takes compared with the original, or with a copy, for each group of calls. The same for the
    whole call on one thread and for the package before, if these were measured, and for the proved call compared with them.
    Each is a pair of contenders, and by the name of each group that has calls the ratios of these, each with its row."""
    base = rows[0].base()
    pairs = [("Proved", base)]
    for other in (other for other in ("Call", "Before") if any(other in row.took for row in rows)):
        pairs += [(other, base), ("Proved", other)]
    for a, b in pairs:
        # Rows of several items are compared with a copy if the original was not measured.
        ratios = [(row.ratio(a, b if b in row.took else row.base()), row) for row in rows]
        found = {name: [(ratio, row) for ratio, row in ratios if ratio and row.is_in(*group)]
                 for name, group in (GROUPS_ON_THREADS if on_threads else GROUPS).items()}
        yield (a, b), {name: group for name, group in found.items() if group}


def mean(group, item=None):
    """The geometric mean of these ratios, or of those of items of this size, as text. It is empty if there is none."""
    ratios = [ratio for ratio, row in group if item is None or row.item() == item]
    return f"{statistics.geometric_mean(ratios):.2f}" if ratios else ""


def worst(group):
    return max(group, key=lambda pair: pair[0])


def table(head, rows):
    """A table without the rows that have no figure."""
    lines = [head, *(row for row in rows if any(row[1:]))]
    first, *rest = ("|" + "|".join(f" {cell} " if cell else " " for cell in row) + "|\n" for row in lines)
    return first + "|" + "---|" * len(head) + "\n" + "".join(rest) if rest else ""


# These yield each line of the benchmark that names a call and a contender, and what the call took.


def by_clock(path, parts, names, least):
    for line in output(path, least, parts, *names).splitlines():
        yield line, float(line.split("\t")[3])


def by_valgrind(path, parts, names, _):
    with tempfile.TemporaryDirectory() as folder:
        printed = output("valgrind", "-q", "--tool=callgrind", f"--callgrind-out-file={folder}/out", "--collect-atstart=no", "--toggle-collect=bench_counted",
                         "--dump-after=bench_counted", "--combine-dumps=yes", path, 0, parts, *names)
        totals = [float(line.split()[1]) for line in pathlib.Path(folder, "out").read_text().splitlines() if line.startswith("totals: ")]
    return zip(printed.splitlines(), totals)
