"""Rattle and antt as words: what `.ci/contracts`, `.ci/believed` and `.ci/calls` read in a source file."""
import re
import shutil
import subprocess
import sys
from pathlib import Path
from typing import NamedTuple

CODE = re.compile(r"\w+|::|\S")
ANTT = re.compile(r"«[^»]*»|[(){}.;,@]|[^\s(){}.;,@«»]+")


class Ghost(NamedTuple):
    """A text of antt in a file of Rattle: a clause, a ghost item, or what stands behind `ghost use`."""

    kind: str  # the word that it begins with: requires, ensures, ghost, use; = and by for what follows the type of a ghost item
    name: str
    place: int
    words: list


class Source:
    """A file with its comments and quoted texts blank, so that all else stays on its line.

    Of a file of Rattle `code` has what is Rattle's, at the places of `text`, and `ghosts` the texts of antt.
    """

    def __init__(self, file, data, tokens):
        text, code, place, end = [], [], 0, 0
        # the head of the ghost text that is open, with the place of each of its words, and where its body begins
        head, body, bodies = [], None, []
        for start, stop, kind in [*tokens, (len(data), len(data), b"Code")]:
            gap, word = blank(data[end:start]), (blank if kind in (b"Literal", b"Text") else bytes.decode)(data[start:stop])
            at, end = place + len(gap), stop
            if body is not None and (kind == b"End" or head[0][0] == "use" and (kind, word) == (b"Code", ";")):
                bodies.append((head, body, at))
                head, body = [], None
            elif kind == b"Head":
                head.append((word, at))
            place = at + len(word)
            if kind == b"Head" and word in ("{", "use"):
                body = place
            text += [gap, word]
            code += [gap, word if kind in (b"Code", b"Literal") and not head else re.sub(r"[^\n]", " ", word)]
        self.file, self.text, self.code = file, "".join(text), "".join(code)
        self.ghosts = []
        for head, start, stop in bodies:
            names = [word for word, _ in head[1:] if word not in ("*", ":", "=", "{")]
            self.ghosts.append(Ghost(head[0][0], names[0] if names else "", head[0][1], antt(self.text, start, stop)))

    def line(self, place):
        return self.text.count("\n", 0, place) + 1


def blank(data):
    return re.sub(rb"[^\n]", b" ", data).decode()


def read(files):
    """The files, read by the tokens that the kit's formatter prints: as a check reads them, and no comment or clause otherwise."""
    if not files:
        return []
    rattle = Path(shutil.which("rt") or sys.exit("`rt` is not on the path")).resolve().parent / "rattle"
    if not rattle.is_file():
        sys.exit("`rattle` does not stand beside `rt`")
    run = subprocess.run([rattle, "fmt", "--tokens", *files], capture_output=True)
    if run.returncode:
        sys.exit(f"`rattle fmt --tokens` cannot read the files: {run.stderr.decode()}")
    sources = []
    for file, rows in zip(files, re.split(rb"^file \d+\n", run.stdout, flags=re.M)[1:]):
        rows = (row.split(b" ", 4) for row in rows.splitlines())
        sources.append(Source(file, file.read_bytes(), [(int(start), int(stop), kind) for _, start, stop, kind, _ in rows]))
    return sources


def antt(text, start=0, end=sys.maxsize):
    """The words of antt in a part of a text, each with its place. An escaped name is the name."""
    return [(word[0].strip("«»"), word.start()) for word in ANTT.finditer(text, start, end)]


def brought(words):
    """What the words behind a `use` bring in: the whole path of each thing, the name that it gets here, and the place of the name."""
    prefixes, path, name = [[]], [], None
    for word, place in [*words, (",", 0)]:
        if word == "{":
            prefixes.append(prefixes[-1] + path)
            path = []
        elif word in (",", "}"):
            if path:
                whole = prefixes[-1] + path
                yield ".".join(whole[whole[0] == "package" :]), name or path[-1], at
            path, name = [], None
            if word == "}":
                prefixes.pop()
        elif word == "as":
            name = ""
        elif word != ".":
            at = place
            if name == "":
                name = word
            else:
                path.append(word)


def use_lines(text, words):
    """The words behind each `use` of a header, up to the next line of the header or of the declarations."""
    for i, is_open in uses(words):
        behind, depth = [], 0
        for word, place in words[i + 1 :]:
            if is_open or depth == 0 and text[place - 1] == "\n":
                break
            depth += (word == "{") - (word == "}")
            behind.append((word, place))
        if not is_open:
            yield behind


def opened(words):
    """The words in the braces of each `open .. use {..}`, the fields of a record that it brings in; or its `*`, which is all of them."""
    for i, is_open in uses(words):
        behind, depth = [], 0
        for word, place in words[i + 1 :] if is_open else []:
            depth += (word == "{") - (word == "}")
            behind.append((word, place))
            if depth == 0:
                break
        if is_open:
            yield behind


def uses(words):
    """The place of each `use` among the words, and whether it is that of an `open`."""
    is_open = False
    for i, (word, _) in enumerate(words):
        if word == "use":
            yield i, is_open
        is_open = word == "open" or is_open and word != "use"


def functions(source):
    """Each function of a file: its name, its place, whether it is public, its parameters, and its clauses."""
    words = list(CODE.finditer(source.code))
    for i, word in enumerate(words):
        # a `fn` that no name follows is of the type of a pointer
        if word[0] == "fn" and re.match(r"\w", words[i + 1][0]):
            before = i - 1
            while words[before][0] in ("extern", "unsafe", "const"):
                before -= 1
            parameters, end = head(words[i + 1 :])
            clauses = [ghost for ghost in source.ghosts if word.start() < ghost.place < end]
            yield words[i + 1][0], word.start(), words[before][0] == "pub", parameters, clauses


def head(words):
    """The parameters of a function, from the words of its head on, and where the head ends: at the body's brace, or at a `;`."""
    parameters, depth = [], 0
    for last, word in zip(words, words[1:]):
        if depth == 0 and word[0] in (";", "{"):
            break
        if depth == 1 and word[0] == ":":
            parameters.append((last[0], last.start()))
        depth += (word[0] in ("(", "[", "{")) - (word[0] in (")", "]", "}"))
    return parameters, word.start()
