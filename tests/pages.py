"""For tests/agree: compares the pages with the code. It checks the functions that blocks of Rust quote, the clauses that
MODEL names, and each link, file and name. It also looks for each public function in the tests, in MODEL and in the callers."""
import functools
import os
import re
import subprocess

from rattle_source import declarations, functions
from rattle_source import read as read_source

# Names from std, the original, the kit and the system that pages mention and that no source has.
OUTSIDE = set("""
    as_chunks as_flattened_mut bytemuck DisjointMutPtr gcd_inner gcd_inversion_prime_field_32 get_disjoint_mut into_flattened
    i686 p3_maybe_rayon relatively_prime_u64 transparent TransparentWrapper
    TransparentWrapperAlloc extern_crate_alloc try_from_fn
    nat_eq axioms backend contains_key holes incremental Invariants LEMMA libraries precise statements tidy TURNED
""".split())
# These pages mention names that the repository does not have, or no longer has, so their names are not looked up.
ELSEWHERE = {"rust/CHANGELOG.md", "docs/TRIED.md", "docs/DIFFERENCES.md"}
FILE = r"[\w.-]+(/[\w.-]+)+/?|[\w-]+\.(md|rt|antt|sh|py|rs|h|c|tsv|svg|txt|toml)"


def read(path):
    with open(path, encoding="utf-8", errors="replace") as text:
        return text.read()


listing = ["git", "ls-files", "--cached", "--others", "--exclude-standard"]
tracked = subprocess.run(listing, capture_output=True, text=True, check=True).stdout.split("\n")
tracked = [path for path in tracked if os.path.isfile(path)]
pages = {path: read(path) for path in tracked if path.endswith(".md")}
sources = {path: read(path) for path in tracked if re.fullmatch(r"crates/\w+/src/.*\.rt", path)}
sources = {path: text for path, text in sources.items() if not re.search(r"/tests(\.rt|/)", path)}


@functools.cache
def clauses():
    """The names of the clauses of each function, by its own name, and by its path from its module, type or trait. The path of a
    variant or of another item of a type or trait has none."""
    found = {}
    for path in sources:
        module = os.path.basename(path)[:-len(".rt")]
        for outer in declarations(read_source(path)):
            owners = {module} if outer.kind == "fn" else {outer.name(), *re.findall(r" for &?(?:mut )?(\w+)", outer.head)}
            for inner in [outer] if outer.kind == "fn" else declarations(outer.body):
                for name in [inner.name(), *(f"{owner}::{inner.name()}" for owner in owners)]:
                    found.setdefault(name, set()).update(inner.labels())
            if outer.kind == "enum":
                found.update({f"{outer.name()}::{variant}": set() for variant in re.findall(r"\w+", outer.body)})
            elif outer.kind in ("impl", "struct", "trait"):
                found.update({f"{owner}::": set() for owner in owners})
    return found


def place(page, start, text):
    return f"{page}:{pages[page].count(chr(10), 0, start) + 1}: {text}"


def in_one_line(code):
    """Code without attributes and without its line breaks."""
    code = " ".join(re.sub(r"^\s*#\[.*\]$", "", code, flags=re.M).split())
    return code.replace("( ", "(").replace(", )", ")")


bare = "\n".join(map(in_one_line, sources.values()))


def is_in_a_source(quoted):
    """Whether a source has this function, with all its clauses."""
    has_body = re.search(r"^\{\n(.*\n)*\}$", quoted, re.M)
    return re.search(re.escape(in_one_line(quoted)) + ("" if has_body else r"( \{|;)"), bare)


def check_quotations():
    """Each function in a block of Rust is the same as in a source, with its comment, all its clauses, and its body if
    the block has one. A reader's own `main` is in no source."""
    for page, text in pages.items():
        for block in re.finditer(r"^```rust\n(.*?)^```", text, re.M | re.S):
            for part in re.split(r"\n\s*\n", block.group(1)):
                name = re.search(r"^(?:pub )?(?:const )?fn (?!main\b)(\w+)", part, re.M)
                if name and not is_in_a_source(part):
                    yield place(page, block.start(), f"{name.group(1)} is not as in the sources")


def check_clauses():
    """The clauses that a row of MODEL names in parentheses are clauses of the calls that the row names."""
    page, labels = "docs/MODEL.md", clauses()
    for row in re.finditer(r"^\|([^|\n]*)\|([^|\n]*)\|$", pages[page], re.M):
        named = {label for brackets in re.findall(r"\((`[a-z_`, ]+`)\)", row.group()) for label in re.findall(r"\w+", brackets)}
        calls = re.findall(r"(?<=`)((?:\w+::)?[a-z_]\w*)(?=`)", re.sub(r"\([^)]*\)", "", row.group(2)))
        for call in (call for call in calls if named and call not in labels):
            yield place(page, row.start(), f"no source has a call {call}")
        for label in sorted(named - {label for call in calls for label in labels.get(call, ())}):
            yield place(page, row.start(), f"no call of {', '.join(calls) or 'no name'} has a clause {label}")


def anchors(page):
    """The anchors of a page's headings, made from the words of the headings. A heading that was there before gets a
    number."""
    found = []
    for heading in re.findall(r"^#+ (.*)$", read(page), re.M):
        found.append(re.sub(r"[^\w -]", "", heading).lower().replace(" ", "-"))
    return {f"{anchor}-{found[:at].count(anchor)}" if anchor in found[:at] else anchor for at, anchor in enumerate(found)}


def check_links_and_names():
    """Each link leads to an existing file and heading, and each file and name in backquotes exists."""
    words = {word for path in tracked if not path.endswith((".md", ".svg", ".tsv")) and path != "tests/pages.py"
             for word in re.findall(r"\w+", read(path))} | OUTSIDE
    words |= {os.path.basename(path)[:-len(".edit")] for path in tracked if path.endswith(".edit")}
    # A release has one more file.
    paths = {"/" + "/".join(path.split("/")[:k]) for path in [*tracked, "docs/contracts.txt"] for k in range(1, path.count("/") + 2)}
    for page, text in pages.items():
        # Replaces blocks of code with blanks of the same length.
        text = re.sub(r"^```.*?^```", lambda block: re.sub(r"[^\n]", " ", block.group()), text, flags=re.M | re.S)
        for link in re.finditer(r"\]\(([^)#]*)#?([^)]*)\)", text):
            file = os.path.normpath(os.path.join(os.path.dirname(page), link.group(1))) if link.group(1) else page
            if "://" in link.group(1):
                continue
            if not os.path.exists(file):
                yield place(page, link.start(), f"no file {link.group(1)}")
            elif link.group(2) and link.group(2) not in anchors(file):
                yield place(page, link.start(), f"{file} has no heading {link.group(2)}")
        for token in re.finditer(r"`([^`]+)`", text):
            code = token.group(1)
            if re.fullmatch(FILE, code):
                if not any(path.endswith("/" + code.rstrip("/")) for path in paths):
                    yield place(page, token.start(), f"no file {code}")
            elif page not in ELSEWHERE:
                for owner, name in re.findall(r"(?<!\w)(?=([A-Z]\w*::)(\w+))", code):
                    if owner in clauses() and owner + name not in clauses():
                        yield place(page, token.start(), f"no {owner}{name}")
                for name in re.findall(r"(?<!\w)[A-Za-z]\w*", code):
                    # A final N stands for the size of an item.
                    if len(name) > 3 and re.sub("_N$", "_8", name) not in words and not re.fullmatch("[0-9a-f]{16}", name):
                        yield place(page, token.start(), f"no name {name}. If it is not of this repository, add it to tests/pages.py")


def public_functions():
    """The public functions of the libraries and the public methods of their types: the path, the type or None, and the
    function. Those of laws.rt say what holds, and do nothing."""
    for path in (path for path in sources if re.match(r"crates/p3_util(_kernels)?/", path) and not path.endswith("/laws.rt")):
        for outer, found in functions(read_source(path)):
            if found.seen_by == "pub" and (not outer or outer.kind == "impl" and " for " not in outer.head):
                yield path, outer and outer.name(), found


@functools.cache
def words(pattern):
    """The words of the files whose paths begin like this. A word in a comment is no use of what it names."""
    texts = (re.sub("" if path.endswith(".md") else r"^ *//.*|\s// .*", "", read(path), flags=re.M) for path in tracked if re.match(pattern, path))
    return {word for text in texts for word in re.findall(r"\w+", text)}


def check_functions():
    """Each public function is in a test of p3_util_vectors or of the package. If it promises anything, MODEL has it, or the
    type that it is a method of. If it has a precondition, a proved caller or a test in Rattle has it."""
    tests = words(r"crates/p3_util_vectors/src/|rust/(tests|src/.*tests)|tests/unproved/")
    callers, model = words(r"crates/p3_util_(examples|vectors)/src/"), words(r"docs/MODEL\.md")
    for path, owner, function in public_functions():
        kinds, name = {title.split(" ")[0] for title, _ in function.clauses}, function.name()
        if name not in tests:
            yield f"{path}: no test of crates/p3_util_vectors or of rust/ has {name}"
        if "ensures" in kinds and not {name, owner} & model:
            yield f"{path}: docs/MODEL.md does not say what {name} promises"
        if "requires" in kinds and name not in callers:
            yield f"{path}: no proved caller or test has {name}, which has a precondition"


def wrong():
    """A line for each thing that is wrong."""
    for check in (check_quotations, check_clauses, check_links_and_names, check_functions):
        yield from check()
