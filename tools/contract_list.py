"""Prints the contracts and the names of the definitions. A release has this as docs/contracts.txt.

    python3 tools/contract_list.py"""
import glob
import re
import sys
import textwrap

sys.dont_write_bytecode = True
from rattle_source import declarations, read

HEAD = """\
# The public contracts of the crates on which code may rely, and the names of the definitions. docs/CALLING.md explains how to
# read a contract, and docs/MODEL.md says in words what is promised. Crates of examples and tests are not listed, nor is what
# only the crates of this repository see, such as all of p3_util_dispatch.
#
# Below the name of a source are its contracts. All structs are listed, with their private fields, since a clause or a
# definition may name them. The lines below an implementation of a trait say what a clause sees of that type.
# What the root of a crate re-exports, such as `p3_util::NoRoom`, is below its src/lib.rt.
#
# The contracts of a crate are followed by the files of its definitions, each with the names that it defines. The file has the
# definitions, each with a comment that says the same in words. Below these are the crate's imports: the modules that the
# names in its contracts come from. Your crate can import the same names, by `ghost use`."""
CRATES = ["p3_util_kernels", "p3_util_fast", "p3_util", "p3_util_run", "p3_util_c"]
# The rows of marks and names of std that are too rare for docs/CALLING.md.
MARKS = "tools/marks.txt"
IMPORT = re.compile(r"^ *(?:ghost )?use ([\w.-]+)\.\{([^}]*)\};?(?: *--.*)?\n", re.M)
DEFINED = re.compile(r"^(?: *(?:abbrev|unfoldable) pub| *pub (?:record|data)|pub(?! record| data)) (?!mod |use )(\w+)", re.M)


def line(indent, code):
    code = re.sub(r",( })|, ?(\))", r"\1\2", " ".join(code.split()).rstrip(",")).replace("( ", "(")
    return textwrap.fill(code, 118, initial_indent=" " * indent, subsequent_indent=" " * (indent + 4), break_long_words=False)


def function(indent, owner, declared):
    """The lines of a function: its head, with the owner before its name, and its clauses."""
    return [line(indent, f"fn {owner}{declared.head[3:]}"), *(line(indent + 2, f"{title}: {said}") for title, said in declared.clauses)]


def members(outer):
    """What a trait or an implementation of a trait says, without the proofs of its laws."""
    for inner in declarations(outer.body):
        proves = outer.kind == "impl" and re.match(r"ghost (laws|full|few|fits|may_both|same_(items|steps|tiles?)|\w+_(refl|trans)) =", inner.head)
        if inner.kind == "fn" and (inner.clauses or outer.kind == "trait"):
            yield from function(4, "", inner)
        elif inner.kind == "ghost" and not proves or inner.kind == "type" and "=" not in inner.head:
            yield line(4, f"{inner.head} {inner.body}")


def contracts(text):
    """The public contracts of a source. Also all its structs and enums, since a definition may use any of them."""
    for outer in declarations(text):
        if outer.kind == "impl" and " for " not in outer.head:
            for inner in declarations(outer.body):
                if inner.kind == "fn" and inner.seen_by == "pub":
                    yield from function(2, f"{outer.name()}::", inner)
        elif outer.kind == "impl":
            if said := list(members(outer)):
                yield from [line(2, outer.head), *said]
        elif outer.seen_by != "pub" and outer.kind not in ("struct", "enum"):
            continue
        elif outer.kind == "fn":
            yield from function(2, "", outer)
        elif outer.kind == "trait":
            yield from [line(2, outer.head), *members(outer)]
        else:
            yield line(2, f"{outer.head} {{ {outer.body} }}" if outer.body else outer.head)


def listed(path):
    """The lines of a source, and the names that it imports for them, each with its module. Of a file of definitions, the one
    line has the names that it defines."""
    with open(path, encoding="utf-8") as text:
        source = read(path) if path.endswith(".rt") else text.read()
    if path.endswith(".rt"):
        exported = re.findall(r"^pub use [^;]*;", source, re.M) if path.endswith("/src/lib.rt") else []
        lines = [line(2, re.sub(r"(?<={)\s+|,?\s+(?=})", "", said)) for said in exported]
        lines += contracts(source)
    else:
        return [line(2, ", ".join(names))] if (names := DEFINED.findall(source)) else [], set()
    said = set(re.findall(r"\w+|[^\w\s]+", "\n".join(lines)))
    names = [(module, name.strip()) for module, names in IMPORT.findall(source) for name in names.split(",")]
    return lines, {(module, name) for module, name in names if said.issuperset(name.split(" as ")[-1].replace("◌", " ").split())}


def sections(crate):
    """The sections of a crate, each with its path, its lines and the names that it imports: the sources without tests, and
    the files of definitions."""
    sources = sorted(glob.glob(f"crates/{crate}/src/**/*.rt", recursive=True))
    definitions = sorted(glob.glob(f"crates/{crate}/specs/**/*.antt", recursive=True))
    for path in [*(path for path in sources if not re.search(r"/tests[./]", path)), *definitions]:
        yield path, *listed(path)


def marks():
    """The marks and names that docs/CALLING.md leaves out, each with its meaning."""
    with open(MARKS, encoding="utf-8") as text:
        rows = re.findall(r"^\| (.*) \| (.*) \|$", text.read(), re.M)
    return "\n".join(["Marks, and names of Rust and its std, that the table in docs/CALLING.md does not have",
                      *(line(2, f"{name}: {meaning}") for name, meaning in rows)])


def page():
    """The text of the list."""
    text = [HEAD, marks()]
    for crate in CRATES:
        imports = {}
        for path, lines, names in sections(crate):
            text += ["\n".join([path, *lines])] if lines else []
            for module, name in names:
                imports.setdefault(module, set()).add(name)
        lines = [line(2, f"{module}.{{{', '.join(sorted(names))}}}") for module, names in sorted(imports.items())]
        text.append("\n".join([f"Imports of crates/{crate}", *lines]))
    return "\n\n".join(text)


if __name__ == "__main__":
    print(page())
