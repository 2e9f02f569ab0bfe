"""Tests of the package, for `python3 -m unittest`: the rows that `checks/embed_rows FILE` writes, where HPR_ROWS names that file, and what
no row shows. Where HPR_ANSWERS names a file, what is told as data of these rows is written there, as `checks/embed_data` reads it."""
import doctest
import json
import os
import pathlib
import threading
import unittest

import hpr

MEAN = pathlib.Path(__file__).resolve().parents[2] / "examples" / "mean_and_product"


class Rows:
    """What a file of rows still has."""

    def __init__(self, data):
        self.data, self.at = data, 0

    def take(self, count):
        self.at += count
        return self.data[self.at - count : self.at]

    def number(self):
        return int.from_bytes(self.take(8), "little")

    def bytes(self):
        return self.take(self.number())

    def texts(self):
        return self.bytes().decode().split("\0")[:-1]

    def __iter__(self):
        """The words, the files as they stand there and by name, and the answer, of each row."""
        while self.at < len(self.data):
            words, names = self.texts(), self.texts()
            listed, files = [self.bytes() for _ in names], {}
            for name, text in zip(names, listed):
                files.setdefault(name, text)
            yield words, listed, files, hpr.Answer(hpr.Status(self.number()), self.bytes(), self.bytes())


def as_row(status, told):
    """A status and what is told as data, as checks/embed_data reads them."""
    text = json.dumps(told, sort_keys=True, separators=(",", ":"), ensure_ascii=False).encode() + b"\n"
    return int(status).to_bytes(8, "little") + len(text).to_bytes(8, "little") + text


class TestHpr(unittest.TestCase):
    def named(self, *variables):
        """The files that these variables name."""
        if not all(map(os.environ.get, variables)):
            self.skipTest(f"{' and '.join(variables)} name no file")
        return [pathlib.Path(os.environ[variable]) for variable in variables]

    def test_rows(self):
        calls = 0
        for words, _, files, wanted in Rows(self.named("HPR_ROWS")[0].read_bytes()):
            self.assertEqual(hpr.call(words, files), wanted, words)
            calls += 1
        self.assertGreater(calls, 500)

    def test_data(self):
        named, answers = self.named("HPR_ROWS", "HPR_ANSWERS")
        with answers.open("wb") as out:
            for words, listed, files, wanted in Rows(named.read_bytes()):
                if words[:1] in (["integrate"], ["affected"], ["graph"], ["run"], ["verify"]):
                    told = hpr.data(words, files)
                    self.assertEqual(told.status, wanted.status, words)
                    out.write(as_row(*told))
                for status, places, refusal in map(hpr.places, listed):
                    out.write(as_row(status, refusal or [place._asdict() for place in places]))

    def test_threads(self):
        texts = [(MEAN / name).read_bytes() for name in ("base.hpr", "a.hpr", "b.hpr")]
        wanted, other = hpr.integrate(*texts), []

        def work():
            other.extend(answer for answer in (hpr.integrate(*texts) for _ in range(50)) if answer != wanted)

        threads = [threading.Thread(target=work) for _ in range(4)]
        for thread in threads:
            thread.start()
        for thread in threads:
            thread.join()
        self.assertEqual(wanted.status, hpr.Status.DONE)
        self.assertEqual(other, [])

    def test_other_forms(self):
        self.assertEqual(hpr.call(["run\0f"]), hpr.Answer(hpr.Status.FORM, b"", b""))
        self.assertEqual(hpr.call(["run", "f"]), hpr.Answer(hpr.Status.ABSENT, b"", b"hpr: cannot read f\n"))
        self.assertEqual(hpr.call([]).status, hpr.Status.WORDS)
        self.assertEqual(hpr.integrate(b"", b"", b"").status, hpr.Status.REFUSED)
        self.assertEqual(hpr.data(["run\0f"]), hpr.Data(hpr.Status.FORM, {}))
        self.assertEqual(hpr.data(["run", "f"]), hpr.Data(hpr.Status.ABSENT, {"file": "f", "status": "absent"}))
        self.assertEqual(hpr.data(["sample", "7", "40"]), hpr.Data(hpr.Status.WORDS, {"status": "words"}))
        refused = hpr.places(b"program")
        self.assertEqual((refused.status, refused.places, refused.refusal["byte"]), (hpr.Status.REFUSED, [], 7))

    def test_long_data(self):
        parts = "".join(f"1.{number}:x:=1;" for number in range(1, 200))
        told = hpr.places(f"program {parts}end(x)".encode())
        self.assertEqual((told.status, len(told.places)), (hpr.Status.DONE, 199))
        self.assertEqual(told.places[9], hpr.Place(89, 10, "1.10"))

    def test_version(self):
        text = (pathlib.Path(__file__).resolve().parents[2] / "VERSION").read_text().strip()
        self.assertEqual(hpr.version(), tuple(map(int, text.split("."))))

    def test_page(self):
        self.assertEqual(doctest.testmod(hpr).failed, 0)


if __name__ == "__main__":
    unittest.main()
