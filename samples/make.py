#!/usr/bin/env python3
"""Makes the sample images from their descriptions: samples/make.py, or samples/make.py --check.

A description NAME.tape has a line an item, and comments behind #:

    VOL1 volume=GATE01                  a label of 80 SPACEs with these fields; see FIELDS
    HDR1 file=LEDGER set=SET001         a field that is not given is as in the last label of that
    HDR2 format=F block=00020           number, headers and trailers alike, or else as usual;
    HDR1 sequence=next section=first    next is one more, first is one
    EOF1                                a trailer; its count is that of the blocks behind the header
    UHL1 any text                       another label, with this text from byte 5 on
    mark                                a tape mark
    block 0007ABC                       a data block: the rest of the line
    end                                 the end of a reel
    repeat 65 .. again                  the lines between, so many times

and, for a set that differs from another one in one thing, after `like NAME`:

    item 6 byte 55: 000002              this text in place of the bytes of the item from that byte on
    item 4: block 0123                  this item in place of that
    without item 3                      one item less
    bytes 0: TGX                        this text in place of the image's own bytes from there on
    cut 3                               so many bytes less at the end of the image

Of some sets, which the list SIMH below names, it makes the reels too, NAME-1.tap and so on: tape files of that emulator.
"""

import pathlib
import shlex
import sys

HERE = pathlib.Path(__file__).parent

# Name of a field: byte position from 1, width, usual value.
VOLUME = {"volume": (5, 6, ""), "access": (11, 1, " "), "owner": (38, 14, ""), "standard": (80, 1, "4")}
FIRST = {
    "file": (5, 17, ""),
    "set": (22, 6, ""),
    "section": (28, 4, "0001"),
    "sequence": (32, 4, "0001"),
    "generation": (36, 4, "0001"),
    "version": (40, 2, "00"),
    "created": (42, 6, " 00000"),
    "expires": (48, 6, " 00000"),
    "access": (54, 1, " "),
    "count": (55, 6, "000000"),
}
SECOND = {"format": (5, 1, ""), "block": (6, 5, ""), "record": (11, 5, ""), "offset": (51, 2, "00")}
FIELDS = {"VOL1": VOLUME}
FIELDS.update({name + "1": FIRST for name in ("HDR", "EOV", "EOF")})
FIELDS.update({name + "2": SECOND for name in ("HDR", "EOV", "EOF")})

MARK, END = b"\x00\x00\x00", b"\xff\xff\xff"

SIMH = ["messages"]


class Tape:
    """The items of a set in the making."""

    def __init__(self):
        self.items = []
        self.last = {}
        self.blocks = 0
        self.edits = []

    def lines(self, lines):
        lines = iter(lines)
        for line in lines:
            if line.startswith("repeat "):
                inside = list(iter(lambda: next(lines), "again"))
                self.lines(inside * int(line.split()[1]))
            else:
                self.line(line)

    def line(self, line):
        word, _, rest = line.partition(" ")
        if word == "like":
            self.lines(lines_of(rest))
        elif word == "without":
            del self.items[int(rest.split()[1])]
        elif line.startswith("item ") and " byte " in line:
            place, text = line.split(": ", 1)
            _, item, _, byte = place.split()
            self.items[int(item)] = put(self.items[int(item)], 3 + int(byte) - 1, text)
        elif line.startswith("item "):
            place, text = line.split(": ", 1)
            self.items[int(place.split()[1])] = self.item(*text.partition(" ")[::2])
        elif word in ("bytes", "cut"):
            self.edits.append(line)
        else:
            self.items.append(self.item(word, rest))

    def item(self, word, rest):
        if word == "mark":
            return MARK
        if word == "end":
            return END
        if word == "block":
            self.blocks += 1
            return led(rest.encode())
        if word in FIELDS:
            return led(self.label(word, rest))
        return led(put(bytes(80 * b" "), 0, word + rest))

    def label(self, name, rest):
        fields = FIELDS[name]
        usual = {field: value for field, (_, _, value) in fields.items()}
        values = usual if name == "VOL1" else dict(self.last.get(name[3], usual))
        if name[3] == "1" and name[:3] == "HDR":
            values["count"], self.blocks = "000000", 0
        elif name[3] == "1" and name != "VOL1":
            values["count"] = f"{self.blocks:06}"
        for given in shlex.split(rest):
            field, value = given.split("=", 1)
            if value == "next" and name[3] in self.last:
                value = f"{int(values[field]) + 1:04}"
            values[field] = "0001" if value in ("first", "next") else value
        if name != "VOL1":
            self.last[name[3]] = values
        label = put(bytes(80 * b" "), 0, name)
        for field, (byte, width, _) in fields.items():
            label = put(label, byte - 1, values[field].ljust(width))
        return label

    def image(self):
        image = b"TGI\x00\x01" + b"".join(self.items)
        for edit in self.edits:
            word, _, rest = edit.partition(" ")
            if word == "cut":
                image = image[: -int(rest)]
            else:
                at, text = rest.split(": ", 1)
                image = put(image, int(at), text)
        return image

    def reels(self):
        """The items once more, as SIMH has them, a file for each reel."""
        files = [b""]
        for item in self.items:
            if item == END:
                files[-1] += b"\xff\xff\xff\xff"
                files.append(b"")
            else:
                length, block = (len(item) - 3).to_bytes(4, "little"), item[3:]
                files[-1] += (length + block + bytes(len(block) % 2) + length) if block else length
        return files[:-1]


def put(where, at, text):
    text = text.encode()
    assert at + len(text) <= len(where), f"{text} does not fit at {at}"
    return where[:at] + text + where[at + len(text) :]


def led(block):
    return len(block).to_bytes(3, "big") + block


def lines_of(name):
    text = (HERE / f"{name}.tape").read_text()
    lines = (line.strip() for line in text.splitlines())
    return [line for line in lines if line and not line.startswith("#")]


def files_of(name):
    """The name and the bytes of each file that is made of a description."""
    tape = Tape()
    tape.lines(lines_of(name))
    yield f"{name}.tgi", tape.image()
    if name in SIMH:
        for number, reel in enumerate(tape.reels(), 1):
            yield f"{name}-{number}.tap", reel


def main():
    names = sorted(path.stem for path in HERE.glob("*.tape"))
    files = {file: made for name in names for file, made in files_of(name)}
    if sys.argv[1:] == ["--check"]:
        stale = [file for file, made in files.items() if (HERE / file).read_bytes() != made]
        sys.exit(f"not as described: {', '.join(stale)}" if stale else 0)
    for file, made in files.items():
        (HERE / file).write_bytes(made)


if __name__ == "__main__":
    main()
