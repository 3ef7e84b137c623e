"""Labelled magnetic tape sets (ECMA-13, label standard version 4), for Python: the proved library, called
through ctypes alone.

    >>> import tardorelga
    >>> ledger = tardorelga.File("LEDGER", "F", 20, 10, [b"0123456789"])
    >>> image = tardorelga.write("SET001", [ledger], 1, ["GATE01"])
    >>> tardorelga.check(image)
    Verdict(number=0, item=0, byte=0)
    >>> for file in tardorelga.files(image):
    ...     print(file.sequence, file.identifier, len(file.records), *file.records)
    1 LEDGER 1 b'0123456789'

items() takes any bytes apart, whether they are a set or not, and fields() tells what stands where in a label.

Images and records are bytes, or any object that lends its bytes. What the library refuses raises Refused; a value
of a wrong type raises TypeError, and one that a field or a number of 64 bits can't hold ValueError.

The shared object is looked for as TARDORELGA_LIBRARY names it, else beside this file, in the lib folder that
this file is installed in, and where the system's loader looks for libtardorelga.so.0.

Everything here is annotated. mypy reads that where the folder of this file is on MYPYPATH; a module of one
file has no place for the mark (py.typed) by which it would take an installed one.
"""

import array
import collections.abc
import ctypes
import dataclasses
import functools
import itertools
import operator
import os
import typing

__all__ = [
    "HIGHEST_QUOTA",
    "LONGEST_IMAGE",
    "LONGEST_RECORD",
    "MOST_FILES",
    "MOST_REELS",
    "Field",
    "File",
    "Item",
    "Records",
    "Refused",
    "TapeFile",
    "Verdict",
    "check",
    "field",
    "fields",
    "file",
    "files",
    "from_simh",
    "items",
    "listing",
    "record",
    "records",
    "reel_names",
    "rewrite",
    "to_simh",
    "write",
]
__version__ = "0.1.0"

# Limits: bytes of an image and of a record, files and reels of a set, data blocks that a reel may be allowed.
LONGEST_IMAGE = 16_777_215
LONGEST_RECORD = 99_999
MOST_FILES = 64
MOST_REELS = 16
HIGHEST_QUOTA = 999_999

_LONGEST_LISTING = 4_096
_LABEL = 80
_FIRST_ITEM = 5
_ROW = 256

_WORDS = {
    0: "accepted, or done",
    1: "this is no image of a tape set",
    2: "an item is torn, or there are not 1 to 16 reels with an end each",
    3: "an item stands where the order of a reel forbids it",
    4: "a label field has a wrong content",
    5: "access to the volume or file is restricted",
    6: "labels, counts or names do not agree with each other",
    7: "a data block is too long, or cannot be cut into records",
    8: "the segments of a record are out of turn or have no end, or it is too long",
    9: "over a limit: 16777215 bytes, 64 files, 16 reels",
    10: "a buffer is too short",
    11: "the order sheet is illegal",
    12: "more reels are needed than are named",
    13: "there is no such file or record",
    14: "the image would be longer than 16777215 bytes",
    15: "no good record, tape mark or end of the medium stands there, or bytes follow the end",
}
# These say nothing of a place.
_WITHOUT_PLACE = range(10, 15)

# In the order of the library's numbers of kinds; the name of a numbered label goes on with its number.
_KINDS = (
    *("no label", "VOL", "UVL", "HDR", "UHL", "EOF", "EOV", "UTL"),
    *("data block", "tape mark", "end of reel", "end", "torn"),
)
_END, _TORN = _KINDS.index("end"), _KINDS.index("torn")
_NUMBERED = ("VOL", "UVL", "HDR", "EOF", "EOV")

_CHARACTERS, _DIGITS, _POSITIVE, _SPACES = "a-characters", "digits", "a number, 1 or more", "SPACEs"
_DATE, _ANY = "a date (SPACE or 0, year, day)", "any bytes"
_LABEL_NAME = (1, "label name", "the name of its kind")
# Of each field the position of its first byte, its name, and what must stand there.
_VOL1 = (
    _LABEL_NAME,
    (5, "volume identifier", _CHARACTERS),
    (11, "accessibility", _CHARACTERS),
    (12, "reserved field", _SPACES),
    (25, "implementation", _CHARACTERS),
    (38, "owner", _CHARACTERS),
    (52, "reserved field", _SPACES),
    (80, "label standard version", "4"),
)


def _first(block_count: str) -> tuple:
    """The fields of a first label, with what its block count must be."""
    return (
        _LABEL_NAME,
        (5, "file identifier", _CHARACTERS),
        (22, "set identifier", _CHARACTERS),
        (28, "section number", _DIGITS),
        (32, "sequence number", _DIGITS),
        (36, "generation number", _POSITIVE),
        (40, "version number", _DIGITS),
        (42, "creation date", _DATE),
        (48, "expiration date", _DATE),
        (54, "accessibility", _CHARACTERS),
        (55, "block count", block_count),
        (61, "implementation", _CHARACTERS),
        (74, "reserved field", _SPACES),
    )


_SECOND = (
    _LABEL_NAME,
    (5, "record format", "F, D or S"),
    (6, "block length", _POSITIVE),
    (11, "record length", "a number that suits format, block length and offset length"),
    (16, "free field", _ANY),
    (51, "offset length", _DIGITS),
    (53, "reserved field", _SPACES),
)
_USER = (_LABEL_NAME, (4, "label number", _CHARACTERS), (5, "user's text", _ANY))
_FIELDS = {
    "VOL1": _VOL1,
    "HDR1": _first("ZEROs"),
    **dict.fromkeys(("EOV1", "EOF1"), _first(_DIGITS)),
    **dict.fromkeys(("HDR2", "EOV2", "EOF2"), _SECOND),
    **dict.fromkeys(("UHL", "UTL"), _USER),
}

_BytesLike = typing.Union[bytes, bytearray, memoryview]
_Text = typing.Union[str, bytes]


class Verdict(typing.NamedTuple):
    """The answer on an image: number 0 where it is accepted, else why and where it is not. It is true exactly
    where the image is accepted."""

    number: int
    item: int
    byte: int

    def __bool__(self) -> bool:
        return self.number == 0

    @property
    def accepted(self) -> bool:
        """Every rule holds."""
        return self.number == 0

    @property
    def words(self) -> str:
        """The sentence of its number."""
        return _WORDS.get(self.number, "an unknown number")


class Refused(Exception):
    """The library refused: verdict has the number and the place, words the sentence of the number."""

    def __init__(self, verdict: Verdict) -> None:
        # What the exception was made of is what makes it again in another process.
        super().__init__(verdict)
        self.verdict = Verdict(*verdict)
        self.number, self.item, self.byte = self.verdict

    @property
    def words(self) -> str:
        """The sentence of its number."""
        return self.verdict.words

    def __str__(self) -> str:
        place = "" if self.number in _WITHOUT_PLACE else f" at item {self.item} byte {self.byte}"
        return f"refused {self.number}{place}: {self.words}"


@dataclasses.dataclass
class File:
    """A file as it is ordered. Texts are filled up with SPACEs behind them, numbers with ZEROs before them; the
    format is "F", "D" or "S"; a date is its six characters, such as " 85335" for day 335 of the year 85. Records that
    come from an iterator are taken from it at once."""

    identifier: _Text
    record_format: _Text
    block_length: int
    record_length: int
    records: typing.Iterable[_BytesLike]
    generation: int = 1
    version: int = 0
    created: _Text = " 00000"
    expires: _Text = " 00000"

    def __post_init__(self) -> None:
        # An iterator would have no records any more at a second writing.
        if isinstance(self.records, collections.abc.Iterator):
            self.records = [*self.records]

    def entry(self) -> bytes:
        """Its fields as the library takes them, 46 bytes."""
        fields = [
            _text(self.identifier, 17, "identifier"),
            _digits(self.generation, 4, "generation"),
            _digits(self.version, 2, "version"),
            _text(self.created, 6, "created"),
            _text(self.expires, 6, "expires"),
            _text(self.record_format, 1, "record_format"),
            _digits(self.block_length, 5, "block_length"),
            _digits(self.record_length, 5, "record_length"),
        ]
        return b"".join(fields)


class Records:
    """The records of a file that was read, one after the other, as often as they are asked for; len() tells how many
    they are, and byte_count how many bytes they have together. Two are equal where they hold the same records."""

    def __init__(self, image: bytes, walk: "_Walk") -> None:
        self._image, self._walk = _bytes(image, "image"), walk
        facts = _call("count", self._image, len(self._image), walk)
        self._count: int = facts.records
        self.byte_count: int = facts.bytes

    def __len__(self) -> int:
        return self._count

    def __iter__(self) -> typing.Iterator[bytes]:
        return _walked(self._image, self._walk)

    def __eq__(self, other: object) -> bool:
        if not isinstance(other, Records):
            return NotImplemented
        return len(self) == len(other) and all(map(operator.eq, self, other))

    def __repr__(self) -> str:
        return f"<Records: {self._count}, bytes: {self.byte_count}>"


@dataclasses.dataclass
class TapeFile(File):
    """A file as it was read: its fields without what fills them up, and its records. Its sequence is its number in the
    set, from 1. It can be ordered again."""

    identifier: str
    record_format: str
    records: Records
    created: str = " 00000"
    expires: str = " 00000"
    sequence: int = 1
    set_identifier: str = ""

    @property
    def byte_count(self) -> int:
        """The bytes of all its records."""
        return self.records.byte_count


class Item(typing.NamedTuple):
    """An item of an image. Its kind is the name of a label, such as "HDR1" or "UHL", or "data block", "tape mark", "end
    of reel", "no label" for a block where a label is due, "end" for the end of the image, or "torn" for a bad
    length or an item cut short. Its number counts from 0 over the whole image. Its content, at place at of the image,
    is the bytes of a block, or all that is left of a torn image; behind is the place behind the item."""

    kind: str
    number: int
    at: int
    content: bytes
    behind: int

    def __repr__(self) -> str:
        # Without its content, which may be long.
        return f"<Item {self.number}: {self.kind}, {len(self.content)} bytes at {self.at}>"


class Field(typing.NamedTuple):
    """A field of a label: the position of its first byte, from 1, how many bytes it has, its name, and what must
    stand there, in words."""

    first: int
    length: int
    name: str
    holds: str

    @property
    def last(self) -> int:
        """The position of its last byte, from 1."""
        return self.first + self.length - 1

    def of(self, label: _BytesLike) -> bytes:
        """The bytes of the field in a label of its kind."""
        label = _bytes(label, "label")
        if len(label) != _LABEL:
            raise ValueError(f"a label has {_LABEL} bytes, and this has {len(label)}")
        return label[self.first - 1 : self.last]


def check(image: _BytesLike) -> Verdict:
    """The verdict on an image, whatever its bytes."""
    image = _bytes(image, "image")
    verdict: Verdict = _call("check", image, len(image)).verdict()
    return verdict


def listing(image: _BytesLike) -> str:
    """The listing: a heading, and a line for each file with its number, identifier, format, records and bytes."""
    image = _bytes(image, "image")
    _call("check", image, len(image)).raise_refused()
    return _written("listing", _LONGEST_LISTING, image, len(image)).decode("ascii")


def file(image: _BytesLike, number: int) -> TapeFile:
    """File number number, from 1."""
    image = _bytes(image, "image")
    return _tape_file(image, _begun(image, number))


def files(image: _BytesLike) -> typing.Iterator[TapeFile]:
    """The files of a set, one after the other. The set is checked once, at the call."""
    image = _bytes(image, "image")
    return _following(image, _begun(image, 1))


def record(image: _BytesLike, file_number: int, number: int) -> bytes:
    """Record number number of file number file_number, both from 1."""
    image = _bytes(image, "image")
    wanted = _number(file_number, "file_number"), _number(number, "number")
    join = ctypes.create_string_buffer(LONGEST_RECORD)
    found = _call("record", image, len(image), *wanted, join, LONGEST_RECORD)
    found.verdict.raise_refused()
    return _part(image, join, found)


def records(image: _BytesLike, file_number: int) -> typing.Iterator[bytes]:
    """The records of file number file_number, from 1, one after the other. The set is checked at the call."""
    image = _bytes(image, "image")
    return _walked(image, _begun(image, file_number, "file_number").walk)


def write(set_identifier: _Text, files: typing.Iterable[File], quota: int, reels: typing.Iterable[_Text]) -> bytes:
    """The image of an order sheet: a set identifier, files, how many data blocks a reel may hold, 1 to HIGHEST_QUOTA,
    and the names of reels, 1 to MOST_REELS, of which as many as needed are written."""
    entries, counts, lengths, data = b"", array.array("Q"), array.array("Q"), bytearray()
    for ordered in _several(files, "files"):
        if not isinstance(ordered, File):
            raise TypeError(f"files is a row of File, and this is {_kind(ordered)}")
        entries += _bytes(ordered.entry(), "an entry")
        before = len(lengths)
        for content in _several(ordered.records, "records"):
            content = _bytes(content, "a record")
            lengths.append(len(content))
            data += content
        counts.append(len(lengths) - before)
    sheet = _lent(_text(set_identifier, 6, "set_identifier"), entries, counts, lengths, bytes(data))
    return _written("write", LONGEST_IMAGE, *sheet, _number(quota, "quota"), *_lent(_names(reels)))


def rewrite(image: _BytesLike, quota: int, reels: typing.Iterable[_Text]) -> bytes:
    """The normal form of a set, the same for all sets of one meaning, with this quota on these reels, as in write()."""
    image = _bytes(image, "image")
    return _written("rewrite", LONGEST_IMAGE, *_lent(image), _number(quota, "quota"), *_lent(_names(reels)))


def from_simh(reels: typing.Iterable[_BytesLike]) -> bytes:
    """The image of a set whose reels are tape files of SIMH, each as its bytes. Labels are not looked at."""
    tapes = [_bytes(reel, "a reel") for reel in _several(reels, "reels")]
    tape, lengths = b"".join(tapes), array.array("Q", map(len, tapes))
    longest = min(5 + len(tape), LONGEST_IMAGE)
    return _written("from_simh", longest, *_lent(tape, lengths))


def to_simh(image: _BytesLike) -> typing.List[bytes]:
    """The reels of an image as tape files of SIMH, the bytes of each. Labels are not looked at."""
    image = _bytes(image, "image")
    longest = min(len(image), LONGEST_IMAGE) * 5 // 2
    out, lengths = ctypes.create_string_buffer(longest or 1), (_u64 * MOST_REELS)()
    tapes = _call("to_simh", image, len(image), out, longest, lengths, MOST_REELS)
    tapes.verdict.raise_refused()
    tape, ends = ctypes.string_at(out, tapes.len), itertools.accumulate(lengths[: tapes.files])
    return [tape[end - length : end] for end, length in zip(ends, lengths)]


def items(image: _BytesLike) -> typing.Iterator[Item]:
    """The items of any bytes whatever, accepted or not, one after the other, and at last the end or what is torn.
    Nothing is asked of the head, the first five bytes.

    >>> [(item.kind, item.at) for item in items(b"TGI\\0\\1" b"\\0\\0\\0" b"\\0\\0\\2A")]
    [('tape mark', 8), ('torn', 8)]
    """
    return _items(_bytes(image, "image"))


def field(kind: str, byte: int) -> typing.Optional[Field]:
    """The field of a label of this kind in which byte position byte, from 1, stands. There is none behind position 80,
    and none in an item of which the standard knows no fields.

    >>> field("EOF1", 57)
    Field(first=55, length=6, name='block count', holds='digits')
    """
    family = _family(kind)
    first = _call("field_at", *family, _number(byte, "byte", 32))
    if not first:
        return None
    length = sum(_call("field_at", *family, at) == first for at in range(first, _LABEL + 1))
    ((name, holds),) = (words for begin, *words in _FIELDS[kind] if begin == first)
    return Field(first, length, name, holds)


def fields(kind: str) -> typing.List[Field]:
    """All fields of a label of this kind, in order.

    >>> [field.name for field in fields("UHL")]
    ['label name', 'label number', "user's text"]
    """
    _family(kind)
    return [*_fields(kind)]


def reel_names(image: _BytesLike) -> typing.List[str]:
    """The names of the reels of a set, the volume identifiers of its VOL1 labels, without the SPACEs behind them."""
    image = _bytes(image, "image")
    _call("check", image, len(image)).raise_refused()
    volumes = [item for item in _items(image) if item.kind == "VOL1"]
    return [_texts(volume.kind, image, volume.at)["volume identifier"].rstrip(" ") for volume in volumes]


# ---- values as the library takes them


def _kind(value: object) -> str:
    return type(value).__name__


def _bytes(value: _BytesLike, what: str) -> bytes:
    """The bytes themselves: a class over bytes could say another length than they have."""
    if type(value) is bytes:
        return value
    try:
        return bytes(memoryview(value))
    except TypeError:
        raise TypeError(f"{what} is bytes, not {_kind(value)}") from None


def _several(values: typing.Iterable[typing.Any], what: str) -> typing.Iterator[typing.Any]:
    """A text is a row of characters to Python, and bytes are a row of numbers; nobody means that here."""
    if isinstance(values, (str, bytes, bytearray, memoryview)):
        raise TypeError(f"{what} is a list or another row of values, not one {_kind(values)}")
    try:
        return iter(values)
    except TypeError:
        raise TypeError(f"{what} is a list or another row of values, not {_kind(values)}") from None


def _whole(value: int, what: str) -> int:
    if isinstance(value, bool):
        raise TypeError(f"{what} is a whole number, not bool")
    try:
        return operator.index(value)
    except TypeError:
        raise TypeError(f"{what} is a whole number, not {_kind(value)}") from None


def _short(value: int) -> str:
    """Python prints no number of very many digits."""
    return str(value) if value.bit_length() < 100 else f"one of {value.bit_length()} bits"


def _number(value: int, what: str, bits: int = 64) -> int:
    value = _whole(value, what)
    if not 0 <= value < 2**bits:
        raise ValueError(f"{what} is a number from 0 to 2**{bits} - 1, not {_short(value)}")
    return value


def _digits(value: int, width: int, what: str) -> bytes:
    value = _whole(value, what)
    if not 0 <= value < 10**width:
        raise ValueError(f"{what} is a number of at most {width} digits, not {_short(value)}")
    return b"%0*d" % (width, value)


def _encoded(value: str, what: str) -> bytes:
    """A byte a character; the library judges which of them a label may hold."""
    try:
        return str.encode(value, "latin-1")
    except UnicodeEncodeError as trouble:
        raise ValueError(f"{what} has a character that no label holds, at index {trouble.start}") from None


def _text(value: _Text, width: int, what: str) -> bytes:
    if not isinstance(value, (str, bytes)):
        raise TypeError(f"{what} is str or bytes, not {_kind(value)}")
    text = _encoded(value, what) if isinstance(value, str) else _bytes(value, what)
    if len(text) > width:
        raise ValueError(f"{what} has at most {width} characters, and this has {len(text)}")
    return text.ljust(width)


def _item_kind(family: int, number: int) -> str:
    """The name of the library's two numbers of a kind."""
    name = _KINDS[family]
    return f"{name}{number}" if name in _NUMBERED else name


_FAMILIES = {
    _item_kind(family, number): (family, number)
    for family, name in enumerate(_KINDS)
    for number in (range(1, 10) if name in _NUMBERED else [0])
}


def _family(kind: str) -> typing.Tuple[int, int]:
    """The library's two numbers of a kind; the second is 0 where labels of the kind have none."""
    if not isinstance(kind, str):
        raise TypeError(f"kind is str, not {_kind(kind)}")
    if kind not in _FAMILIES:
        raise ValueError("kind is that of an item, such as 'HDR1', 'UHL' or 'tape mark', and this is none")
    return _FAMILIES[kind]


def _names(reels: typing.Iterable[_Text]) -> bytes:
    return b"".join(_text(name, 6, "a reel name") for name in _several(reels, "reels"))


# ---- the library's own structs and functions, as include/tardorelga.h has them

_u8, _u32, _u64, _size, _bytes_at = ctypes.c_uint8, ctypes.c_uint32, ctypes.c_uint64, ctypes.c_size_t, ctypes.c_char_p


class _Verdict(ctypes.Structure):
    _fields_ = [("number", _u32), ("item", _u32), ("byte", _u32)]

    def verdict(self) -> Verdict:
        return Verdict(self.number, self.item, self.byte)

    def raise_refused(self) -> None:
        if self.number:
            raise Refused(self.verdict())


class _Walk(ctypes.Structure):
    _fields_ = [("format", _u32), ("size", _u32), ("offset", _u64), ("at", _u64), ("left", _u64)]


class _Found(ctypes.Structure):
    _fields_ = [("verdict", _Verdict), ("joined", _u32), ("start", _u64), ("len", _u64)]


class _Begun(ctypes.Structure):
    _fields_ = [("verdict", _Verdict), ("first", _u64), ("second", _u64), ("walk", _Walk)]


class _Stepped(ctypes.Structure):
    _fields_ = [("number", _u32), ("joined", _u32), ("start", _u64), ("len", _u64), ("walk", _Walk)]


class _Row(ctypes.Structure):
    _fields_ = [("count", _u64), ("walk", _Walk)]


class _Facts(ctypes.Structure):
    _fields_ = [("records", _u64), ("bytes", _u64)]


class _Written(ctypes.Structure):
    _fields_ = [("verdict", _Verdict), ("len", _u64)]


class _Tapes(ctypes.Structure):
    _fields_ = [("verdict", _Verdict), ("len", _u64), ("files", _u64)]


class _Item(ctypes.Structure):
    _fields_ = [("kind", _u32), ("number", _u32), ("group", _u32), ("start", _u64), ("len", _u64), ("behind", _u64)]


_slice, _out = (_bytes_at, _size), (ctypes.c_void_p, _size)
_words = (ctypes.c_void_p, _size)
_FUNCTIONS = {
    "check": (_Verdict, *_slice),
    "record": (_Found, *_slice, _u64, _u64, *_out),
    "begin": (_Begun, *_slice, _u64),
    "next_file": (_Begun, *_slice, _u64, _u64),
    "count": (_Facts, *_slice, _Walk),
    "step": (_Stepped, *_slice, _Walk, *_out),
    "steps": (_Row, *_slice, _Walk, *_words, *_words),
    "listing": (_Written, *_slice, *_out),
    "rewrite": (_Written, *_slice, _u64, *_slice, *_out),
    "write": (_Written, *_slice, *_slice, *_words, *_words, *_slice, _u64, *_slice, *_out),
    "from_simh": (_Written, *_slice, *_words, *_out),
    "to_simh": (_Tapes, *_slice, *_out, *_words),
    "item_at": (_Item, *_slice, _u64, _u32),
    "field_at": (_u32, _u32, _u32, _u32),
}

_SHARED_OBJECT = "libtardorelga.so.0"


def _places() -> typing.List[str]:
    """Where the shared object may be, the first place first. A name without a folder is the system loader's."""
    named = os.environ.get("TARDORELGA_LIBRARY")
    if named:
        return [named]
    here = os.path.dirname(os.path.abspath(__file__))
    beside = os.path.join(here, "libtardorelga.so")
    # An installed module stands in lib/python3/dist-packages or the like.
    installed = os.path.join(os.path.dirname(os.path.dirname(here)), _SHARED_OBJECT)
    return [*filter(os.path.exists, [beside, installed]), _SHARED_OBJECT]


def _load() -> typing.Dict[str, typing.Any]:
    place = _places()[0]
    try:
        library = ctypes.CDLL(place)
        functions = {name: getattr(library, "tardorelga_" + name) for name in _FUNCTIONS}
    except (OSError, AttributeError) as trouble:
        raise ImportError(
            f"tardorelga can't use its library {place} ({trouble}): make it with bindings/python/build, "
            "install it with ./install, or name it in TARDORELGA_LIBRARY"
        ) from None
    for name, (result, *parameters) in _FUNCTIONS.items():
        functions[name].restype, functions[name].argtypes = result, parameters
    return functions


_LIBRARY = _load()


def _call(name: str, *words: typing.Any) -> typing.Any:
    return _LIBRARY[name](*words)


def _begun(image: bytes, number: int, what: str = "number") -> _Begun:
    begun: _Begun = _call("begin", image, len(image), _number(number, what))
    begun.verdict.raise_refused()
    return begun


def _next_file(image: bytes, first: int, second: int) -> _Begun:
    """The file behind the one whose HDR1 and HDR2 stand at these places, or 13."""
    begun: _Begun = _call("next_file", image, len(image), first, second)
    return begun


def _following(image: bytes, begun: _Begun) -> typing.Iterator[TapeFile]:
    while not begun.verdict.number:
        yield _tape_file(image, begun)
        begun = _next_file(image, begun.first, begun.second)


def _tape_file(image: bytes, begun: _Begun) -> TapeFile:
    first, second = _texts("HDR1", image, begun.first), _texts("HDR2", image, begun.second)
    return TapeFile(
        identifier=first["file identifier"].rstrip(" "),
        record_format=second["record format"],
        block_length=int(second["block length"]),
        record_length=int(second["record length"]),
        records=Records(image, begun.walk),
        generation=int(first["generation number"]),
        version=int(first["version number"]),
        created=first["creation date"],
        expires=first["expiration date"],
        sequence=int(first["sequence number"]),
        set_identifier=first["set identifier"].rstrip(" "),
    )


def _texts(kind: str, image: bytes, at: int) -> typing.Dict[str, str]:
    """What the label of this kind at a place holds, by the names of its fields."""
    label = image[at : at + _LABEL]
    return {field.name: field.of(label).decode("latin-1") for field in _fields(kind)}


def _walked(image: bytes, walk: _Walk) -> typing.Iterator[bytes]:
    """The records that stand whole come as many at a time as two lists hold; one that must be joined, by a step."""
    join = ctypes.create_string_buffer(walk.size or 1)
    starts, lens = (_u64 * _ROW)(), (_u64 * _ROW)()
    while True:
        row = _call("steps", image, len(image), walk, starts, _ROW, lens, _ROW)
        for start, length in zip(starts[: row.count], lens[: row.count]):
            yield image[start : start + length]
        walk = row.walk
        if row.count == _ROW:
            continue
        step = _call("step", image, len(image), walk, join, walk.size)
        if step.number:
            return
        yield _part(image, join, step)
        walk = step.walk


def _part(image: bytes, join: typing.Any, found: typing.Any) -> bytes:
    """A record of several segments was joined in the buffer; any other is a part of the image."""
    return ctypes.string_at(join, found.len) if found.joined else image[found.start : found.start + found.len]


@functools.lru_cache(maxsize=None)
def _fields(kind: str) -> typing.Tuple[Field, ...]:
    """They are the same at every call, and each of them takes many calls of the library."""
    found, following = [], field(kind, 1)
    while following:
        found.append(following)
        following = field(kind, following.last + 1)
    return tuple(found)


def _items(image: bytes) -> typing.Iterator[Item]:
    length, at, group = len(image), _FIRST_ITEM, 0
    for number in itertools.count():
        found = _call("item_at", image, length, at, group)
        kind, start, at, group = found.kind, found.start, found.behind, found.group
        content = image[start : start + found.len]
        # An image that is shorter than a head ends before the first item's place.
        behind = min(at, length)
        yield Item(_item_kind(kind, found.number), number, behind - len(content), content, behind)
        if kind in (_END, _TORN):
            return


def _written(name: str, longest: int, *words: typing.Any) -> bytes:
    out = ctypes.create_string_buffer(longest)
    written = _call(name, *words, out, longest)
    written.verdict.raise_refused()
    return ctypes.string_at(out, written.len)


def _lent(*parts: typing.Union[bytes, "array.array[int]"]) -> typing.Iterator[typing.Any]:
    """The place and the length of each part; numbers have a place even where there are none."""
    for part in parts:
        if isinstance(part, bytes):
            yield part
        else:
            yield (_u64 * max(len(part), 1)).from_buffer(part if part else array.array("Q", [0]))
        yield len(part)
