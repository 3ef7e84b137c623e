"""The Python binding on the samples: python3 -m unittest discover bindings/python"""

import builtins
import concurrent.futures
import copy
import dataclasses
import doctest
import inspect
import mmap
import multiprocessing
import os
import pathlib
import pickle
import shutil
import subprocess
import sys
import tempfile
import threading
import unittest
import unittest.mock

import tardorelga

HERE = pathlib.Path(__file__).resolve().parent
SAMPLES = HERE.parents[1] / "samples"


def sample(name):
    return (SAMPLES / f"{name}.tgi").read_bytes()


def expected():
    for line in (SAMPLES / "expected.txt").read_text().splitlines():
        if not line.startswith("#"):
            name, answer = line.split(None, 1)
            yield name, answer


def accepted():
    return [(SAMPLES / name).read_bytes() for name, answer in expected() if answer.startswith("accepted")]


LEDGER = tardorelga.File("LEDGER", "F", 20, 10, [b"0123456789"], created=" 85335")

# What takes an image, with words that are right behind it.
TAKES_IMAGE = [
    (tardorelga.check,),
    (tardorelga.items,),
    (tardorelga.listing,),
    (tardorelga.reel_names,),
    (tardorelga.file, 1),
    (tardorelga.files,),
    (tardorelga.record, 1, 1),
    (tardorelga.records, 1),
    (tardorelga.rewrite, 1, ["GATE01"]),
    (tardorelga.to_simh,),
]

# What takes a number, as a function of it alone.
TAKES_NUMBER = [
    lambda number: tardorelga.file(sample("ledger"), number),
    lambda number: tardorelga.record(sample("ledger"), number, 1),
    lambda number: tardorelga.record(sample("ledger"), 1, number),
    lambda number: tardorelga.records(sample("ledger"), number),
    lambda number: tardorelga.rewrite(sample("ledger"), number, ["GATE01"]),
    lambda number: tardorelga.write("SET001", [LEDGER], number, ["GATE01"]),
]

NO_NUMBERS = [1.0, "1", b"1", None, [1], True, False, float("inf")]


class Case(unittest.TestCase):
    def refuses(self, number, call, *words):
        with self.assertRaises(tardorelga.Refused) as raised:
            call(*words)
        self.assertEqual(raised.exception.number, number)
        return raised.exception


class Check(Case):
    def test_each_sample_has_its_expected_answer(self):
        for name, answer in expected():
            verdict = tardorelga.check((SAMPLES / name).read_bytes())
            said = "refused {} at item {} byte {}".format(*verdict)
            self.assertEqual("accepted" if verdict.accepted else said, answer.split(",")[0], name)

    def test_any_bytes_whatever(self):
        self.assertEqual(tardorelga.check(b""), (1, 0, 0))
        self.assertEqual(tardorelga.check(bytearray(b"TGI\0\1")), (2, 0, 0))
        self.assertEqual(tardorelga.check(memoryview(sample("ledger"))).number, 0)
        self.assertEqual(tardorelga.check(bytes(tardorelga.LONGEST_IMAGE + 1)), (9, 0, 0))

    def test_a_verdict_is_true_exactly_where_the_image_is_accepted(self):
        self.assertTrue(tardorelga.check(sample("ledger")))
        for name, answer in expected():
            verdict = tardorelga.check((SAMPLES / name).read_bytes())
            self.assertIs(bool(verdict), answer.startswith("accepted"), name)
            self.assertIs(verdict.accepted, bool(verdict), name)

    def test_a_verdict_has_words(self):
        self.assertEqual(tardorelga.check(b"").words, "this is no image of a tape set")
        self.assertEqual(tardorelga.Verdict(99, 0, 0).words, "an unknown number")


class Arguments(Case):
    def test_an_image_is_bytes_and_nothing_else(self):
        ledger = str(SAMPLES / "ledger.tgi")
        for wrong in [ledger, pathlib.Path(ledger), 5, 5.0, True, None, [84, 71, 73], open]:
            for call, *words in TAKES_IMAGE:
                with self.assertRaises(TypeError, msg=f"{call.__name__} {wrong!r}") as raised:
                    call(wrong, *words)
                self.assertEqual(str(raised.exception), f"image is bytes, not {type(wrong).__name__}")

    def test_whatever_lends_its_bytes_is_an_image(self):
        image = sample("messages")
        with (SAMPLES / "messages.tgi").open("rb") as file, mmap.mmap(file.fileno(), 0, prot=mmap.PROT_READ) as mapped:
            for lent in [bytearray(image), memoryview(image), memoryview(bytearray(image)), mapped]:
                self.assertEqual(len(list(tardorelga.files(lent))), 2)
                self.assertEqual(tardorelga.record(lent, 1, 1), b"LINE OPEN")

    def test_a_walk_keeps_an_image_that_is_changed_behind_it(self):
        image = bytearray(sample("messages"))
        records = tardorelga.records(image, 1)
        image[:] = bytes(len(image))
        self.assertEqual(len(list(records)), 4)

    def test_a_class_over_bytes_can_not_lie_about_its_length(self):
        class Liar(bytes):
            def __len__(self):
                return 2**40

        self.assertEqual(tardorelga.check(Liar(sample("refused-6"))), (6, 6, 55))
        self.assertEqual(tardorelga.from_simh([Liar(b"\xff\xff\xff\xff")]), b"TGI\0\1\xff\xff\xff")
        liar = dataclasses.replace(LEDGER, records=[Liar(b"0123456789")])
        self.assertEqual(tardorelga.write("SET001", [liar], 1, ["GATE01"]), sample("ledger"))

    def test_a_class_over_texts_can_not_lie_about_them(self):
        class Liar(bytes):
            def __len__(self):
                return 46

            def __radd__(self, other):
                return self

            def ljust(self, *words):
                return self

        class Text(str):
            def encode(self, *words):
                return Liar(b"A")

        class Lying(tardorelga.File):
            def entry(self):
                return Liar(LEDGER.entry())

        ledger = dataclasses.replace(LEDGER, identifier=Liar(b"LEDGER"), record_format=Text("F"))
        self.assertEqual(ledger.entry(), LEDGER.entry())
        for name in Liar(b"SET001"), Text("SET001"):
            self.assertEqual(tardorelga.write(name, [ledger], 1, [Liar(b"GATE01")]), sample("ledger"))
        ordered = [Lying(**vars(LEDGER)), LEDGER]
        two = tardorelga.write("SET001", ordered, 2, ["GATE01"])
        self.assertEqual(two, tardorelga.write("SET001", [LEDGER, LEDGER], 2, ["GATE01"]))

    def test_a_number_is_a_whole_number(self):
        for call in TAKES_NUMBER:
            for wrong in NO_NUMBERS:
                with self.assertRaises(TypeError, msg=repr(wrong)):
                    call(wrong)

    def test_no_number_wraps(self):
        for call in TAKES_NUMBER:
            for wrong in [-1, -(2**64) + 1, 2**64, 2**64 + 1, 2**200]:
                with self.assertRaises(ValueError, msg=repr(wrong)):
                    call(wrong)

    def test_what_is_said_of_a_wrong_value_is_short(self):
        cases = [
            ("number is a number from 0 to 2**64 - 1, not -1", lambda: tardorelga.file(b"", -1)),
            ("number is a number from 0 to 2**64 - 1, not one of 16610 bits", lambda: tardorelga.file(b"", 10**5000)),
            ("version is a number of at most 2 digits, not 100", dataclasses.replace(LEDGER, version=100).entry),
            (
                "version is a number of at most 2 digits, not one of 16610 bits",
                dataclasses.replace(LEDGER, version=10**5000).entry,
            ),
            (
                "identifier has at most 17 characters, and this has 1000000",
                dataclasses.replace(LEDGER, identifier="X" * 1_000_000).entry,
            ),
            (
                "created has a character that no label holds, at index 1",
                dataclasses.replace(LEDGER, created=" \N{EURO SIGN}").entry,
            ),
        ]
        for message, call in cases:
            with self.assertRaises(ValueError) as raised:
                call()
            self.assertEqual(str(raised.exception), message)

    def test_the_library_judges_numbers_of_64_bits(self):
        for call in TAKES_NUMBER[:4]:
            self.refuses(13, call, 0)
            self.refuses(13, call, 2**64 - 1)
        for call in TAKES_NUMBER[4:]:
            self.refuses(11, call, 0)
            self.refuses(11, call, 2**64 - 1)

    def test_fields_of_a_file(self):
        for name in "generation", "version", "block_length", "record_length":
            for wrong in NO_NUMBERS:
                with self.assertRaises(TypeError, msg=f"{name} {wrong!r}"):
                    dataclasses.replace(LEDGER, **{name: wrong}).entry()
            for wrong in -1, 100_000, 2**64 + 1:
                with self.assertRaises(ValueError, msg=f"{name} {wrong!r}"):
                    dataclasses.replace(LEDGER, **{name: wrong}).entry()
        for name in "identifier", "record_format", "created", "expires":
            for wrong in 5, None, 1.5, [], SAMPLES:
                with self.assertRaises(TypeError, msg=f"{name} {wrong!r}"):
                    dataclasses.replace(LEDGER, **{name: wrong}).entry()
            for wrong in "X" * 18, b"X" * 18, "\N{EURO SIGN}":
                with self.assertRaises(ValueError, msg=f"{name} {wrong!r}"):
                    dataclasses.replace(LEDGER, **{name: wrong}).entry()

    def test_records_are_a_row_of_bytes(self):
        for wrong in b"0123456789", "0123456789", ["0123456789"], [10], [None], 5, None:
            with self.assertRaises(TypeError, msg=repr(wrong)):
                tardorelga.write("SET001", [dataclasses.replace(LEDGER, records=wrong)], 1, ["GATE01"])
        lent = [bytearray(b"0123456789"), memoryview(b"0123456789")]
        image = tardorelga.write("SET001", [dataclasses.replace(LEDGER, records=lent)], 1, ["GATE01"])
        self.assertEqual([*tardorelga.records(image, 1)], [b"0123456789"] * 2)

    def test_a_memory_of_longer_numbers_is_its_bytes(self):
        numbers = memoryview(b"0123456789ABCDEF").cast("Q")
        wide = tardorelga.File("WIDE", "F", 20, 16, [numbers])
        self.assertEqual(tardorelga.record(tardorelga.write("S", [wide], 1, ["R"]), 1, 1), b"0123456789ABCDEF")

    def test_one_name_is_no_list_of_reels(self):
        for wrong in "GATE01", b"GATE01", 5, None, [5], [None], [SAMPLES]:
            with self.assertRaises(TypeError, msg=repr(wrong)):
                tardorelga.rewrite(sample("ledger"), 1, wrong)
            with self.assertRaises(TypeError, msg=repr(wrong)):
                tardorelga.write("SET001", [LEDGER], 1, wrong)
        with self.assertRaises(ValueError):
            tardorelga.rewrite(sample("ledger"), 1, ["GATE012"])

    def test_an_order_is_files(self):
        for wrong in LEDGER, "LEDGER", [b"LEDGER"], [None], 5:
            with self.assertRaises(TypeError, msg=repr(wrong)):
                tardorelga.write("SET001", wrong, 1, ["GATE01"])
        for wrong in 5, None, ["SET001"]:
            with self.assertRaises(TypeError, msg=repr(wrong)):
                tardorelga.write(wrong, [LEDGER], 1, ["GATE01"])
        with self.assertRaises(ValueError):
            tardorelga.write("SEVENTY", [LEDGER], 1, ["GATE01"])

    def test_reels_of_simh_are_a_row_of_bytes(self):
        for wrong in b"\xff\xff\xff\xff", "reel", ["reel"], [5], 5, None, [SAMPLES]:
            with self.assertRaises(TypeError, msg=repr(wrong)):
                tardorelga.from_simh(wrong)


class Refusals(Case):
    def test_a_refusal_has_the_words_of_the_program(self):
        refused = self.refuses(6, tardorelga.records, sample("refused-6"), 1)
        self.assertEqual(refused.verdict, (6, 6, 55))
        self.assertEqual(refused.words, "labels, counts or names do not agree with each other")
        self.assertEqual(str(refused), f"refused 6 at item 6 byte 55: {refused.words}")
        none = self.refuses(13, tardorelga.file, sample("ledger"), 2)
        self.assertEqual(str(none), "refused 13: there is no such file or record")
        self.assertEqual(str(tardorelga.Refused((13, 0, 0))), str(none))

    def test_a_refusal_is_kept_and_brought_back(self):
        refused = self.refuses(6, tardorelga.listing, sample("refused-6"))
        kept = [pickle.loads(pickle.dumps(refused, protocol)) for protocol in range(pickle.HIGHEST_PROTOCOL + 1)]
        for again in [*kept, copy.copy(refused), copy.deepcopy(refused)]:
            self.assertIsInstance(again, tardorelga.Refused)
            self.assertIsInstance(again.verdict, tardorelga.Verdict)
            self.assertEqual((again.verdict, str(again)), (refused.verdict, str(refused)))
            self.assertEqual((again.number, again.item, again.byte), (6, 6, 55))

    def test_a_refusal_crosses_a_process_pool(self):
        for start in "fork", "spawn":
            context = multiprocessing.get_context(start)
            with concurrent.futures.ProcessPoolExecutor(1, context) as pool:
                self.assertTrue(pool.submit(tardorelga.check, sample("ledger")).result())
                refused = self.refuses(4, pool.submit(tardorelga.rewrite, sample("refused-4"), 1, ["A"]).result)
                self.assertEqual(refused.verdict, (4, 1, 42))
                self.assertEqual(pool.submit(tardorelga.reel_names, sample("ledger")).result(), ["GATE01"])


class Files(Case):
    def test_a_file_has_its_fields_by_name(self):
        file = tardorelga.file(sample("messages"), 2)
        fields = dataclasses.asdict(dataclasses.replace(file, records=None))
        self.assertEqual(
            fields,
            {
                "identifier": "INDEX",
                "record_format": "D",
                "block_length": 64,
                "record_length": 20,
                "records": None,
                "generation": 1,
                "version": 0,
                "created": " 86014",
                "expires": " 86365",
                "sequence": 2,
                "set_identifier": "NIGHT7",
            },
        )
        self.assertEqual((len(file.records), file.byte_count), (2, 15))
        self.assertEqual(repr(file.records), "<Records: 2, bytes: 15>")

    def test_records_of_a_file_come_as_often_as_they_are_asked_for(self):
        file = tardorelga.file(sample("messages"), 2)
        self.assertEqual([*file.records], [b"NIGHT SHIFT", b"DONE"])
        self.assertEqual([*file.records], [*tardorelga.records(sample("messages"), 2)])

    def test_files_are_equal_where_fields_and_records_are(self):
        first, second = tardorelga.files(sample("messages"))
        self.assertEqual(first, tardorelga.file(sample("messages"), 1))
        self.assertNotEqual(first, second)
        self.assertNotEqual(first, dataclasses.replace(first, records=second.records))
        self.assertNotEqual(first.records, [*first.records])

    def test_a_file_crosses_a_process_pool(self):
        with concurrent.futures.ProcessPoolExecutor(1) as pool:
            file = pool.submit(tardorelga.file, sample("messages"), 1).result()
        self.assertEqual(file, tardorelga.file(sample("messages"), 1))

    def test_the_files_of_a_set_are_its_files_by_number(self):
        for image in accepted():
            files = [*tardorelga.files(image)]
            self.assertEqual([file.sequence for file in files], [*range(1, len(files) + 1)])
            for number, file in enumerate(files, 1):
                self.assertEqual(file.entry(), tardorelga.file(image, number).entry())
                self.assertEqual([*file.records], [*tardorelga.records(image, number)])
                self.assertEqual(sum(map(len, file.records)), file.byte_count)
            self.refuses(13, tardorelga.file, image, len(files) + 1)

    def test_files_are_refused_at_the_call(self):
        for name, answer in expected():
            if answer.startswith("refused"):
                image = (SAMPLES / name).read_bytes()
                self.refuses(tardorelga.check(image).number, tardorelga.files, image)

    def test_files_that_were_read_can_be_ordered_again(self):
        reels = [f"REEL{number}" for number in range(9)]
        for image in accepted():
            name = tardorelga.file(image, 1).set_identifier
            again = tardorelga.write(name, tardorelga.files(image), 2, reels)
            self.assertEqual(again, tardorelga.rewrite(image, 2, reels))

    def test_sixty_four_files(self):
        image = tardorelga.write("MANY", [LEDGER] * 64, 64, ["GATE01"])
        self.assertEqual([file.sequence for file in tardorelga.files(image)], [*range(1, 65)])

    def test_the_files_of_a_set_take_one_check(self):
        image = tardorelga.write("MANY", [LEDGER] * 64, 64, ["GATE01"])
        begin = unittest.mock.Mock(wraps=tardorelga._LIBRARY["begin"])
        with unittest.mock.patch.dict(tardorelga._LIBRARY, begin=begin, check=None, record=None):
            self.assertEqual(len([*tardorelga.files(image)]), 64)
        begin.assert_called_once()

    def test_free_fields_of_labels_may_hold_any_bytes(self):
        image = bytearray(sample("ledger"))
        for label in b"HDR2", b"EOF2":
            free = image.index(label) + 15
            image[free : free + 35] = bytes(range(221, 256))
        self.assertTrue(tardorelga.check(image))
        self.assertEqual([file.identifier for file in tardorelga.files(image)], ["LEDGER"])

    def test_spaces_before_an_identifier_stay(self):
        image = tardorelga.write(" A", [dataclasses.replace(LEDGER, identifier="  A B ")], 1, ["GATE01"])
        file = tardorelga.file(image, 1)
        self.assertEqual((file.identifier, file.set_identifier), ("  A B", " A"))


LABELS = ["VOL1", "HDR1", "HDR2", "EOV1", "EOV2", "EOF1", "EOF2", "UHL", "UTL"]


class Items(Case):
    def test_the_items_of_a_sample(self):
        items = [*tardorelga.items(sample("ledger"))]
        kinds = ["VOL1", "HDR1", "HDR2", "tape mark", "data block", "tape mark", "EOF1", "EOF2"]
        kinds += ["tape mark", "tape mark", "end of reel", "end"]
        self.assertEqual([item.kind for item in items], kinds)
        self.assertEqual([item.number for item in items], [*range(12)])
        self.assertEqual((items[4].at, items[4].content, items[4].behind), (260, b"0123456789", 270))
        self.assertEqual((items[11].at, items[11].content, items[11].behind), (448, b"", 448))

    def test_items_cover_all_that_is_behind_the_head_whatever_the_bytes(self):
        whole = sample("options")
        short = [whole[:length] for length in range(len(whole))]
        wrong = [whole[:at] + b"\xfe" + whole[at + 1 :] for at in range(0, len(whole), 7)]
        for image in [*short, *wrong, b"\0" * 5 + b"\xff" * 99]:
            at = min(5, len(image))
            for item in tardorelga.items(image):
                self.assertLessEqual(at, item.at)
                self.assertEqual(image[item.at : item.behind], item.content)
                at = item.behind
            self.assertEqual((at, item.kind in ("end", "torn")), (len(image), True))

    def test_the_items_of_a_refused_set_lead_to_the_wrong_field(self):
        for name, byte, due in ("refused-4", 42, "creation date"), ("refused-6", 55, "block count"):
            image = sample(name)
            verdict = tardorelga.check(image)
            label = [*tardorelga.items(image)][verdict.item]
            field = tardorelga.field(label.kind, verdict.byte)
            self.assertEqual((field.first, field.name), (byte, due))
            self.assertEqual(field.of(label.content), label.content[byte - 1 :][:6])

    def test_an_item_is_shown_without_its_content_and_kept(self):
        item = next(tardorelga.items(sample("ledger")))
        self.assertEqual(repr(item), "<Item 0: VOL1, 80 bytes at 8>")
        for again in pickle.loads(pickle.dumps(item)), copy.copy(item), copy.deepcopy(item):
            self.assertIsInstance(again, tardorelga.Item)
            self.assertEqual((again, hash(again)), (item, hash(item)))
        with self.assertRaises(AttributeError):
            item.number = 1

    def test_items_keep_an_image_that_is_changed_behind_them(self):
        image = bytearray(sample("ledger"))
        items = tardorelga.items(image)
        image[:] = bytes(len(image))
        self.assertEqual(len([*items]), 12)

    def test_fields_follow_each_other_and_have_names(self):
        for kind in LABELS:
            fields, at = tardorelga.fields(kind), 1
            for field in fields:
                self.assertEqual(field.first, at, kind)
                self.assertTrue(field.name and field.holds, kind)
                at = field.last + 1
            self.assertEqual(at, 81, kind)
            of_each_byte = [tardorelga.field(kind, byte) for byte in range(1, 81)]
            self.assertEqual(of_each_byte, [field for field in fields for _ in range(field.length)])

    def test_there_is_no_field_elsewhere(self):
        for kind in "VOL2", "UVL1", "HDR9", "EOF3", "data block", "tape mark", "end of reel", "end", "torn", "no label":
            self.assertEqual((tardorelga.fields(kind), tardorelga.field(kind, 1)), ([], None))
        for byte in 0, 81, 2**32 - 1:
            self.assertIsNone(tardorelga.field("HDR1", byte))

    def test_arguments(self):
        for wrong in [*NO_NUMBERS]:
            with self.assertRaises(TypeError, msg=repr(wrong)):
                tardorelga.field("HDR1", wrong)
        for wrong in -1, 2**32 + 5, 2**64 + 5:
            with self.assertRaises(ValueError, msg=repr(wrong)):
                tardorelga.field("HDR1", wrong)
        for call in tardorelga.fields, lambda kind: tardorelga.field(kind, 1):
            for wrong in 3, None, b"HDR1", ["HDR1"]:
                with self.assertRaises(TypeError) as raised:
                    call(wrong)
                self.assertEqual(str(raised.exception), f"kind is str, not {type(wrong).__name__}")
            for wrong in "", "HDR", "HDR0", "HDR10", "hdr1", "UHL1", "HDR1 ":
                with self.assertRaises(ValueError, msg=repr(wrong)):
                    call(wrong)
        name = tardorelga.field("VOL1", 5)
        for wrong in b"", b"VOL1GATE01", bytes(81):
            with self.assertRaises(ValueError):
                name.of(wrong)
        with self.assertRaises(TypeError):
            name.of("VOL1GATE01")

    def test_the_names_of_reels(self):
        self.assertEqual(tardorelga.reel_names(sample("messages")), ["GATE01", "GATE02", "GATE03"])
        image = tardorelga.write("SET001", [LEDGER], 1, [" A"])
        self.assertEqual(tardorelga.reel_names(image), [" A"])
        self.assertEqual(tardorelga.rewrite(image, 1, tardorelga.reel_names(image)), image)
        self.refuses(6, tardorelga.reel_names, sample("refused-6"))


class Records(Case):
    def test_records_come_in_order_and_joined(self):
        messages = [b"LINE OPEN", b"FLOOD AT THE LOWER GATE, SEND HELP", b"", b"LINE CLOSED"]
        self.assertEqual(list(tardorelga.records(sample("messages"), 1)), messages)
        self.assertEqual(list(tardorelga.records(sample("options"), 3)), [])

    def test_a_record_by_its_number(self):
        for image in accepted():
            for number, file in enumerate(tardorelga.files(image), 1):
                for at, due in enumerate(file.records, 1):
                    self.assertEqual(tardorelga.record(image, number, at), due)
                self.refuses(13, tardorelga.record, image, number, len(file.records) + 1)
        self.refuses(6, tardorelga.record, sample("refused-6"), 1, 1)

    def test_the_longest_record(self):
        longest = bytes(range(256)) * 390 + b"A" * 159
        image = tardorelga.write("LONG", [tardorelga.File("LONG", "S", 2048, 99999, [longest])], 9, [*"ABCDEFG"])
        self.assertEqual(len(longest), 99_999)
        self.assertEqual(tardorelga.record(image, 1, 1), longest)
        self.assertEqual([*tardorelga.records(image, 1)], [longest])

    def test_two_walks_do_not_disturb_each_other(self):
        one, other = (tardorelga.records(sample("messages"), 1) for _ in range(2))
        pairs = list(zip(one, other))
        self.assertEqual([a for a, _ in pairs], [b for _, b in pairs])
        self.assertEqual(len(pairs), 4)

    def test_refusals_are_raised_at_once(self):
        self.refuses(13, tardorelga.records, sample("messages"), 3)
        self.refuses(6, tardorelga.records, sample("refused-6"), 1)


class Write(Case):
    def test_the_ledger(self):
        self.assertEqual(tardorelga.write("SET001", [LEDGER], 1, ["GATE01"]), sample("ledger"))
        by_name = tardorelga.write(set_identifier="SET001", files=[LEDGER], quota=1, reels=iter([b"GATE01"]))
        self.assertEqual(by_name, sample("ledger"))

    def test_records_of_an_iterator_are_there_at_every_writing(self):
        two = [b"0123456789"] * 2
        for records in iter(two), (record for record in two), map(bytes, two):
            ordered = dataclasses.replace(LEDGER, block_length=10, records=records)
            self.refuses(12, tardorelga.write, "SET001", [ordered], 1, ["GATE01"])
            image = tardorelga.write("SET001", [ordered], 2, ["GATE01"])
            self.assertEqual([*tardorelga.records(image, 1)], two)
            self.assertEqual(pickle.loads(pickle.dumps(ordered)), copy.deepcopy(ordered))

    def test_what_is_written_reads_back(self):
        records = [b"", bytes(range(256)), b"A" * 9995, b"\n"]
        files = [tardorelga.File(f"FILE {kind}", kind, 99999, 9999, records) for kind in "DS"]
        image = tardorelga.write(b"SET001", files, 3, ["A", "B"])
        for number in 1, 2:
            self.assertEqual(list(tardorelga.records(image, number)), records)

    def test_many_records(self):
        records = [b"%d" % (i % 10) for i in range(300_000)]
        image = tardorelga.write("MANY", [tardorelga.File("MANY", "F", 99999, 1, records)], 999999, ["MANY01"])
        self.assertEqual(list(tardorelga.records(image, 1)), records)

    def test_refusals(self):
        cases = [
            (11, ("set001", [LEDGER], 1, ["GATE01"])),
            (11, ("SET001", [LEDGER], 0, ["GATE01"])),
            (11, ("SET001", [], 1, ["GATE01"])),
            (11, ("SET001", [LEDGER], 1, [])),
            (9, ("SET001", [LEDGER] * 65, 1, ["GATE01"])),
            (12, ("SET001", [LEDGER, LEDGER], 1, ["GATE01"])),
        ]
        for number, sheet in cases:
            self.refuses(number, tardorelga.write, *sheet)


class Listing(Case):
    def test_a_line_for_each_file(self):
        lines = tardorelga.listing(sample("messages")).splitlines()
        files = ["0001 MESSAGES          S 4 54", "0002 INDEX             D 2 15"]
        self.assertEqual(lines, ["SEQ FILE              FMT RECORDS BYTES", *files])

    def test_refusals(self):
        self.assertEqual(self.refuses(4, tardorelga.listing, sample("refused-4")).verdict, (4, 1, 42))


class Rewrite(Case):
    def test_a_normal_form_is_its_own(self):
        for name in "ledger", "messages", "options":
            image = sample(name)
            normal = tardorelga.rewrite(image, 2, [*"ABCDE"])
            self.assertEqual(tardorelga.rewrite(normal, 2, [*"ABCDE"]), normal)
            self.assertEqual(tardorelga.listing(normal), tardorelga.listing(image))

    def test_refusals(self):
        cases = [(12, "options", 1, "AB"), (11, "options", 1, "AA"), (11, "options", 0, "A"), (6, "refused-6", 0, "")]
        for number, name, quota, reels in cases:
            self.refuses(number, tardorelga.rewrite, sample(name), quota, [*reels])


class Simh(Case):
    def test_each_image_with_good_items_comes_back_from_its_reels(self):
        converted = 0
        for name, answer in expected():
            image = (SAMPLES / name).read_bytes()
            if answer.startswith(("refused 1 ", "refused 2 ")):
                with self.assertRaises(tardorelga.Refused) as raised:
                    tardorelga.to_simh(image)
                self.assertEqual(raised.exception.verdict, tardorelga.check(image))
            else:
                reels = tardorelga.to_simh(image)
                self.assertEqual(tardorelga.from_simh(reels), image, name)
                self.assertEqual(tardorelga.to_simh(tardorelga.from_simh(reels)), reels, name)
                converted += 1
        self.assertGreater(converted, 10)

    def test_the_reels_of_a_sample(self):
        files = [(SAMPLES / f"messages-{number}.tap").read_bytes() for number in (1, 2, 3)]
        self.assertEqual(tardorelga.to_simh(sample("messages")), files)
        self.assertEqual(tardorelga.from_simh(map(memoryview, files)), sample("messages"))

    def test_the_smallest_reel(self):
        image = b"TGI\0\1\0\0\1A\0\0\0\xff\xff\xff"
        reel = b"\1\0\0\0A\0\1\0\0\0\0\0\0\0\xff\xff\xff\xff"
        self.assertEqual(tardorelga.to_simh(bytearray(image)), [reel])
        self.assertEqual(tardorelga.from_simh(iter([reel])), image)

    def test_the_longest_image(self):
        ones = (tardorelga.LONGEST_IMAGE - 5 - 3) // 4
        image = b"TGI\0\1" + b"\0\0\1A" * ones + b"\xff\xff\xff"
        (reel,) = tardorelga.to_simh(image)
        self.assertEqual(len(reel), 10 * ones + 4)
        self.assertEqual(tardorelga.from_simh([reel]), image)

    def test_refusals(self):
        end, mark = b"\xff\xff\xff\xff", b"\0\0\0\0"
        cases = [
            ((2, 0, 0), []),
            ((2, 0, 0), [end] * 17),
            ((15, 0, 0), [b""]),
            ((15, 1, 0), [mark]),
            ((15, 2, 0), [end, mark + b"\xfe\xff\xff\xff" + end]),
            ((15, 17, 0), [end] * 17 + [b"\1"]),
            ((14, 0, 0), [b"\1\0\0\0A\0\1\0\0\0" * 4_194_304 + end]),
        ]
        for verdict, reels in cases:
            self.assertEqual(self.refuses(verdict[0], tardorelga.from_simh, reels).verdict, verdict)
        cases = [((9, 0, 0), bytes(tardorelga.LONGEST_IMAGE + 1)), ((1, 0, 0), b""), ((2, 0, 0), b"TGI\0\1")]
        for verdict, image in cases:
            self.assertEqual(self.refuses(verdict[0], tardorelga.to_simh, image).verdict, verdict)


class Import(unittest.TestCase):
    """The module as it stands somewhere else, in a process of its own."""

    def setUp(self):
        holder = tempfile.TemporaryDirectory()
        self.addCleanup(holder.cleanup)
        self.root = pathlib.Path(holder.name)
        self.packages = self.root / "lib/python3/dist-packages"
        self.packages.mkdir(parents=True)
        shutil.copy(HERE / "tardorelga.py", self.packages)

    def said(self, **environment):
        """The last line that is printed, or of the trouble; with this environment and no other."""
        program = "import tardorelga; print(tardorelga.check(b'').number)"
        ran = subprocess.run(
            [sys.executable, "-B", "-c", program],
            env={"PATH": os.environ.get("PATH", ""), "PYTHONPATH": str(self.packages), **environment},
            cwd=self.root,
            stdout=subprocess.PIPE,
            stderr=subprocess.STDOUT,
            text=True,
        )
        return ran.stdout.splitlines()[-1]

    def put(self, place):
        shutil.copy(HERE / "libtardorelga.so", self.root / place)
        return str(self.root / place)

    def test_the_library_is_found_in_each_of_its_places(self):
        places = ["lib/python3/dist-packages/libtardorelga.so", "lib/libtardorelga.so.0"]
        for place in places:
            put = self.put(place)
            self.assertEqual(self.said(), "1", place)
            os.remove(put)
        other = self.put("libtardorelga.so.0")
        self.assertEqual(self.said(LD_LIBRARY_PATH=str(self.root)), "1")
        self.assertEqual(self.said(TARDORELGA_LIBRARY=other), "1")

    def test_a_library_that_is_named_goes_before_all_others(self):
        self.put("lib/python3/dist-packages/libtardorelga.so")
        said = self.said(TARDORELGA_LIBRARY="/none/libtardorelga.so")
        self.assertTrue(said.startswith("ImportError: tardorelga can't use its library /none/libtardorelga.so ("), said)

    def test_a_missing_library_is_told_with_what_to_do(self):
        # It is named, since one may be installed on this machine.
        said = self.said(TARDORELGA_LIBRARY=str(self.root / "libtardorelga.so.0"))
        self.assertTrue(said.startswith("ImportError: "), said)
        what_to_do = "make it with bindings/python/build, install it with ./install, or name it in TARDORELGA_LIBRARY"
        self.assertTrue(said.endswith(what_to_do), said)

    def test_a_file_that_is_no_library_is_told(self):
        (self.packages / "libtardorelga.so").write_text("no library")
        said = self.said()
        self.assertIn("ImportError: tardorelga can't use its library", said)
        self.assertIn(str(self.packages / "libtardorelga.so"), said)

    def test_a_library_without_our_functions_is_told(self):
        said = self.said(TARDORELGA_LIBRARY="libc.so.6")
        self.assertIn("ImportError: tardorelga can't use its library libc.so.6 (", said)
        self.assertIn("tardorelga_check", said)


class Module(unittest.TestCase):
    def test_the_example_at_its_head(self):
        result = doctest.testmod(tardorelga)
        self.assertEqual(result.failed, 0)
        self.assertGreater(result.attempted, 3)

    def test_many_threads_at_once(self):
        image, found = sample("messages"), []
        threads = [
            threading.Thread(target=lambda: found.append(list(tardorelga.records(image, 1)))) for _ in range(8)
        ]
        for thread in threads:
            thread.start()
        for thread in threads:
            thread.join()
        self.assertEqual(found, [found[0]] * 8)

    def public(self):
        """The functions, classes and own methods that a user may call, by name."""
        for name in tardorelga.__all__:
            value = getattr(tardorelga, name)
            if callable(value):
                yield name, value
            if inspect.isclass(value):
                own = [(key, method) for key, method in vars(value).items() if not key.startswith("_")]
                methods = [(key, method.fget if isinstance(method, property) else method) for key, method in own]
                yield from ((f"{name}.{key}", method) for key, method in methods if inspect.isfunction(method))

    def test_no_name_shadows_a_builtin(self):
        words = dir(builtins)
        for name, value in self.public():
            self.assertNotIn(name.split(".")[-1], words)
            for parameter in inspect.signature(value).parameters:
                self.assertNotIn(parameter, words, name)
        for kind in [getattr(tardorelga, name) for name in tardorelga.__all__ if name[0].isupper()]:
            fields = [name for name in dir(kind) if not name.startswith("_")]
            self.assertEqual({*fields} & {*words}, set(), kind)

    def test_everything_public_is_annotated_and_described(self):
        described = 0
        for name, value in self.public():
            self.assertTrue(inspect.getdoc(value), name)
            described += 1
            if inspect.isfunction(value):
                hints = value.__annotations__
                due = {*inspect.signature(value).parameters, "return"} - {"self"}
                self.assertEqual({*hints}, due, name)
        self.assertGreater(described, 12)

    def test_all_that_has_no_underscore_is_public(self):
        own = [
            name
            for name, value in vars(tardorelga).items()
            if not name.startswith("_") and not inspect.ismodule(value)
        ]
        self.assertEqual(sorted(own), sorted(tardorelga.__all__))


if __name__ == "__main__":
    unittest.main()
