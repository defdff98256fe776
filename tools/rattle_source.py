"""Reads Rattle sources (`.rt`): their tokens, their declarations with clauses, and which function a line belongs to.

`rust/erase`, the scripts of this folder and those in `tests/` import it."""
import functools
import re
from dataclasses import dataclass

TOKEN = re.compile(r"""
    (?P<space> \s+ )
  | (?P<doc> ///(?!/)[^\n]* | //![^\n]* )
  | (?P<comment> //[^\n]* )
  | (?P<string> [bc]?r(?P<hashes>\#*)".*?"(?P=hashes) | [bc]?"(?:\\.|[^"\\])*" )
  | (?P<char> b?'(?:\\(?:u\{[^}]*\}|x..|.)|[^\\'\n])' )
  | (?P<lifetime> '[^\W\d]\w* )
  | (?P<word> (?:r\#)?\w+ )
  | (?P<mark> /\*|::|->|=>|&&|\|\||==|!=|<=|>=|\.\.|. )
""", re.X | re.S)
CLOSED_BY = {"(": ")", "[": "]", "{": "}"}


class Unknown(Exception):
    """Something that a script does not know. The text has its place and says what it is."""


@dataclass
class Token:
    """A token or a line of documentation, with the white space and the comments before it."""
    kind: str
    text: str
    line: int
    gap: str


def scanned(text, name):
    """The tokens of `text`. The last token is empty. Its gap is what follows the others."""
    at, line, gap = 0, 1, ""
    while at < len(text):
        match = TOKEN.match(text, at)
        kind, piece = match.lastgroup, match[0]
        if piece in ('"', "/*"):
            raise Unknown(f"{name}:{line}: a string without an end, or a comment that begins with /*")
        if kind in ("space", "comment"):
            gap += piece
        else:
            yield Token(kind, piece, line, gap)
            gap = ""
        at += len(piece)
        line += piece.count("\n")
    yield Token("end", "", line, gap)


class Source:
    """A text as tokens, and for the index of each bracket the index of its partner."""

    def __init__(self, text, name):
        self.name = name
        self.tokens = list(scanned(text, name))
        self.partner = {}
        opened = []
        for at, token in enumerate(self.tokens):
            if token.text in CLOSED_BY:
                opened.append(at)
            elif token.text in CLOSED_BY.values():
                if not opened or CLOSED_BY[self.text(opened[-1])] != token.text:
                    self.refuse(opened[-1] if opened else at, "a bracket without its partner")
                self.partner[at] = opened.pop()
                self.partner[self.partner[at]] = at
        if opened:
            self.refuse(opened[-1], "a bracket without its partner")

    def refuse(self, at, word):
        """Raises an error with the place of the token at `at`. `word` says what is wrong there."""
        raise Unknown(f"{self.name}:{self.tokens[at].line}: {word}: {self.text(at)}")

    def text(self, at):
        return self.tokens[at].text if at < len(self.tokens) else ""

    def texts(self, start, end):
        return [self.text(at) for at in range(start, end)]

    def between(self, start, end):
        """The text of these tokens, as it stands in the source."""
        return "".join(token.gap + token.text for token in self.tokens[start:end])

    def next(self, text, at):
        """The index of the next token `text` after `at`."""
        place = next((i for i in range(at, len(self.tokens)) if self.text(i) == text), None)
        return place or self.refuse(at, f"an item without its {text}")


# What stands before the kind of a declaration, and where its head ends.
SEEN_BY = r'(?:(pub(?:\(\w+\))?) )?(?:const (?=fn)|extern "C" )?'
KIND = re.compile(SEEN_BY + r"(fn|const|struct|enum|trait|type|impl|ghost(?! use))\b")
HEAD_ENDS = {"requires", "ensures", "{", ";", ""}


@dataclass
class Declaration:
    """A declaration: who sees it (`pub`, `pub(crate)`, or empty if it is private), its kind, its head in one line, its
    clauses, each with its title, and the text between its braces."""
    seen_by: str
    kind: str
    head: str
    clauses: list
    body: str

    def name(self):
        """The name of what is declared. For an `impl` it is the name of the type, or of the trait that the type
        implements."""
        return re.match(r"(?:impl(?:<.*?>)? (?=\w)|\w+ )(\w+)", self.head)[1]

    def labels(self):
        """The names of the clauses. A clause without a name has the empty name."""
        return {title.partition(" ")[2] for title, _ in self.clauses}


@functools.cache
def read(path):
    """The text of a source without its comments and attributes. Each declaration stays in its line. What is
    `#[doc(hidden)] pub` is there for the sister crates only, and reads as `pub(crate)`."""
    with open(path, encoding="utf-8") as file:
        tokens = list(scanned(file.read(), path))
    text = "".join(blank(token.gap) + (blank(token.text) if token.kind == "doc" else token.text) for token in tokens)
    text = re.sub(r"^( *#\[doc\(hidden\)\]\n *)pub ", r"\1pub(crate) ", text, flags=re.M)
    return re.sub(r"^ *#!?\[.*\]$| +$", "", text, flags=re.M)


def blank(text):
    """The white space of a text, with blanks in place of everything else."""
    return re.sub(r"\S", " ", text)


def declarations(text):
    """Each declaration of the text. Those in its braces are in its body."""
    source, at = Source(text, "a declaration"), 0
    while at < len(source.tokens):
        start = at
        while source.text(at) not in HEAD_ENDS:
            at = max(at, source.partner.get(at, at)) + 1
        head, clauses, body = " ".join(source.between(start, at).split()), [], ""
        while source.text(at) in ("requires", "ensures"):
            brace = source.next("{", at)
            clauses.append((" ".join(source.texts(at, brace)).replace(" *", "*"), source.between(brace + 1, source.partner[brace])))
            at = source.partner[brace] + 1
        if source.text(at) == "{":
            body, at = source.between(at + 1, source.partner[at]), source.partner[at]
        at += 1
        if kind := KIND.match(head):
            yield Declaration(kind[1] or "", kind[2], head[kind.start(2):], clauses, body)


def functions(text):
    """Each function of the text, with the declaration of the type or trait that it belongs to, or None."""
    for outer in declarations(text):
        if outer.kind == "fn":
            yield None, outer
        elif outer.kind in ("impl", "trait"):
            yield from ((outer, inner) for inner in declarations(outer.body) if inner.kind == "fn")


def function_at(text, number):
    """The last function that begins at or above the line of this number. An attribute belongs to the function below it."""
    lines = text.split("\n")
    while re.match(" *#\\[", lines[number - 1]):
        number += 1
    return re.findall(rf"^ *{SEEN_BY}fn (\w+)", "\n".join(lines[:number]), re.M)[-1][-1]
