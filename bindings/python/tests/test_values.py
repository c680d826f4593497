"""Values, faults and answers that the Instructions and docs/ARCHIVE.md ask for."""

import doctest
import random
import subprocess
import sys
import tempfile
import threading
import unittest
from datetime import datetime, timezone
from pathlib import Path

import warn_codes
from warn_codes import (
    ArgumentError,
    Frame,
    FrameError,
    Hvtec,
    Minute,
    NotHvtec,
    NotVtec,
    Reader,
    ReaderClosed,
    Ugc,
    UgcError,
    ValueOutOfRange,
    Vtec,
    Zone,
    products,
    products_of_file,
)

VTEC = "/O.NEW.KLWX.WS.W.0001.180103T1530Z-180104T0000Z/"
HVTEC = "/FREV2.1.ER.180103T1530Z.180104T0000Z.000000T0000Z.NO/"
PRODUCT = f"""WWUS41 KLWX 031530 COR
WSWLWX

URGENT
1030 AM EST Wed Jan 3 2018

MDZ003>005-VAC013-032330-
{VTEC}
/O.NEW.KLWX.FL.W.0002.180103T1530Z-180104T0000Z/
{HVTEC}
Frederick-

$$
"""


def products_of(text):
    return list(products(text))


class Codes(unittest.TestCase):
    def test_vtec(self):
        vtec = Vtec.read(VTEC)
        self.assertEqual(vtec, Vtec("O", "NEW", "KLWX", "WS", "W", 1, vtec.begin, vtec.end))
        self.assertEqual(vtec.begin.datetime(), datetime(2018, 1, 3, 15, 30, tzinfo=timezone.utc))
        self.assertEqual(str(vtec), VTEC)
        for text in (
            "",
            VTEC[:-1],
            VTEC + " ",
            VTEC.replace("NEW", "NEE"),
            VTEC.replace("T15", "T25"),
            "\u2603" * 48,
        ):
            with self.assertRaises(NotVtec):
                Vtec.read(text)

    def test_hvtec(self):
        hvtec = Hvtec.read(HVTEC)
        self.assertEqual(
            (hvtec.location, hvtec.severity, hvtec.cause, hvtec.end), ("FREV2", "1", "ER", None)
        )
        self.assertEqual(str(hvtec), HVTEC)
        with self.assertRaises(NotHvtec):
            Hvtec.read(VTEC)

    def test_values_without_a_text(self):
        vtec = Vtec.read(VTEC)
        for other in (
            {"number": 10000},
            {"number": -1},
            {"office": "KLW"},
            {"action": "nEW"},
            {"vtec_class": "Q"},
        ):
            with self.assertRaises(ValueOutOfRange):
                Vtec(**{**vtec.__dict__, **other}).write()

    def test_ugc(self):
        ugc = Ugc.read("MDZ003>005-VAC013-031500-\nWashington-")
        self.assertEqual(ugc.zones[3], Zone("VA", "C", 13))
        self.assertEqual((str(ugc.expires), ugc.used, len(ugc.zones)), ("031500", 25, 4))
        self.assertEqual(len(Ugc.read("MDZ001>999-VAC001>999-031500-").zones), 1998)
        with self.assertRaises(UgcError) as caught:
            Ugc.read("MDZ003-04-031500-")
        self.assertEqual((caught.exception.reason, caught.exception.at), ("NotACode", 7))

    def test_minutes(self):
        for count in range(0, 52_596_000, 99_991):
            minute = Minute(count)
            self.assertEqual(Minute.of_stamp(str(minute)), minute)
            self.assertEqual(Minute.of_datetime(minute.datetime()), minute)
        for wrong in ("180229T0000Z", "000000T0000Z", "18"):
            with self.assertRaises(ValueOutOfRange):
                Minute.of_stamp(wrong)


class Products(unittest.TestCase):
    def test_frame(self):
        frame = Frame.read(PRODUCT)
        self.assertEqual((frame.heading, frame.office, frame.bbb), ("WWUS41", "KLWX", "COR"))
        self.assertEqual(
            (frame.identifier, str(frame.issue), str(frame.day)),
            ("WSWLWX", "180103T1530Z", "031530"),
        )
        self.assertEqual(
            [str(line.vtec)[:11] for line in frame.segments[0].lines], ["/O.NEW.KLWX"] * 2
        )
        self.assertEqual(str(frame.segments[0].lines[1].hvtec), HVTEC)

    def test_faults(self):
        with self.assertRaises(FrameError) as caught:
            Frame.read(PRODUCT.replace("$$", ""))
        self.assertEqual((caught.exception.reason, caught.exception.line), ("NoSegmentEnd", 7))
        self.assertEqual(str(caught.exception), "line 7: the segment that begins here has no end")
        with self.assertRaises(FrameError) as caught:
            Frame.read(b"")
        self.assertEqual((caught.exception.reason, caught.exception.line), ("NoHeading", None))

    def test_bytes_of_any_kind(self):
        drawn = random.Random(1)
        for _ in range(300):
            bytes_ = bytearray(PRODUCT.encode())
            for _ in range(drawn.randrange(4)):
                bytes_[drawn.randrange(len(bytes_))] = drawn.randrange(256)
            try:
                Frame.read(bytes_)
            except FrameError as fault:
                self.assertTrue(fault.reason)

    def test_file(self):
        with tempfile.NamedTemporaryFile() as file:
            file.write(b"ABC\n" + PRODUCT.encode() * 3)
            file.flush()
            self.assertEqual(
                [len(product) for product in products_of_file(file.name)], [len(PRODUCT)] * 3
            )
            done = subprocess.run(
                [sys.executable, "-m", "warn_codes", file.name],
                capture_output=True,
                text=True,
                check=True,
            )
            self.assertEqual(done.stdout.count("WSWLWX 180103T1530Z"), 3)


class Archives(unittest.TestCase):
    def test_reader(self):
        reader = Reader("KLWX")
        for at in range(0, len(PRODUCT), 11):
            reader.push(PRODUCT[at : at + 11])
        self.assertEqual(reader.lives(), [])
        reader.end()
        found = reader.all(Minute.of_stamp("180103T1600Z"))
        self.assertEqual(str(found.lives[4]), "WS.W.0001.2018 MDZ003 NEW@180103T1530Z")
        self.assertEqual((found.gaps[0].wanted, found.gaps[0].event.number), (1, 2))
        self.assertEqual(len(found.shown), 8)
        self.assertEqual(found.lives, reader.lives())
        self.assertEqual(found.shown, reader.shown(Minute.of_stamp("180103T1600Z")))
        self.assertEqual((found.breaches, reader.breaches()), ([], []))
        reader.take(PRODUCT.replace("1030 AM", "1045 AM").replace("031530", "031545"))
        self.assertEqual({found.breach for found in reader.breaches()}, {"Reopened"})
        self.assertEqual(reader.breaches()[0].product, 2)

    def test_arguments(self):
        for wrong in (None, 5, 1.5, [1]):
            for call in (Vtec.read, Ugc.read, Frame.read, products_of, Reader, Reader("KLWX").push):
                with self.assertRaises(TypeError):
                    call(wrong)
        for text in ("", "\u2603", b"\xff\xfe\0" * 16, bytearray(b"/O"), memoryview(b"MDZ003-")):
            for call, error in ((Vtec.read, NotVtec), (Ugc.read, UgcError), (Frame.read, FrameError)):
                with self.assertRaises(error):
                    call(text)
            self.assertEqual(products_of(text), [])
            Reader("KLWX").take(text)
        for office, vtec_class in (
            ("KLW", "O"),
            ("klwx", "O"),
            ("K\0WX", "O"),
            ("\u2603" * 4, "O"),
            ("KLWX", "Q"),
            ("KLWX", "\xe9"),
            ("KLWX", ""),
        ):
            with self.assertRaises(ArgumentError):
                Reader(office, vtec_class)

    def test_threads(self):
        alone = self.lives()
        found = []
        threads = [threading.Thread(target=lambda: found.append(self.lives())) for _ in range(8)]
        for thread in threads:
            thread.start()
        for thread in threads:
            thread.join()
        self.assertEqual(found, [alone] * 8)

    def lives(self):
        reader = Reader("KLWX")
        reader.take(PRODUCT * 20)
        return reader.lives()

    def test_closed(self):
        with Reader("KLWX") as reader:
            reader.take(PRODUCT)
            self.assertEqual(len(reader.lives()), 8)
        reader.close()
        for call in (reader.end, reader.lives, lambda: reader.push("a"), lambda: reader.take("")):
            with self.assertRaises(ReaderClosed):
                call()

    def test_shared_between_threads(self):
        reader = Reader("KLWX")
        threads = [threading.Thread(target=reader.take, args=(PRODUCT,)) for _ in range(8)]
        for thread in threads:
            thread.start()
        for thread in threads:
            thread.join()
        products = {found.product for found in reader.breaches()}
        self.assertEqual(products, set(range(2, 9)))

    def test_no_products(self):
        self.assertEqual(list(products(b"nothing")), [])
        self.assertEqual(Reader("KLWX").lives(), [])


def load_tests(loader, tests, pattern):
    tests.addTests(doctest.DocTestSuite(warn_codes))
    tests.addTests(doctest.DocTestSuite(warn_codes.reader))
    return tests


if __name__ == "__main__":
    unittest.main()
