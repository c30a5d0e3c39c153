"""Refused texts: the line, the place, and what is said of it."""

import pickle
import re
import unittest

from support import DATA, ROOT, SimCase

import buszlogem
from buszlogem.advice import BYTES, CODE, TYPES, WORDS, advice_for
from buszlogem.faults import kernel_error
from buszlogem.kernels import read_kernel, whole

ROWS = (*BYTES, *WORDS, *TYPES)
EXPECTED = re.compile(r"( *)\^ ((?:lex|type) \w+|syntax): (.*)")


def mistakes():
    """The rows of mistakes.rows: (name, text, line, column, kind, beginning of the advice)."""
    blocks = re.split(r"^# (.*)\n", (DATA / "mistakes.rows").read_text(), flags=re.M)[1:]
    for name, block in zip(blocks[::2], blocks[1::2]):
        text, found = [], None
        for line in block.rstrip("\n").split("\n"):
            expected = EXPECTED.fullmatch(line)
            if expected:
                found = (len(text), len(expected[1]) + 1, expected[2], expected[3])
            else:
                text.append(line)
        yield (name, "\n".join([*text, ""]), *found)


class Mistakes(SimCase):
    def test_each_mistake_is_told_at_its_place(self):
        rows = list(mistakes())
        for name, text, line, column, kind, advice in rows:
            with self.subTest(name):
                with self.assertRaises(buszlogem.KernelError) as raised:
                    buszlogem.run(text)
                error = raised.exception
                self.assertEqual((error.line, error.column, error.kind), (line, column, kind), error)
                self.assertTrue(error.advice.startswith(advice), error)
                self.assertEqual(error.source, text.split("\n")[line - 1])
                self.assertEqual(len(error.caret), column)
        self.assertGreaterEqual(len({advice for *_, advice in rows}), 20)

    def test_each_row_of_the_advice_is_what_the_program_says(self):
        for row in ROWS:
            with self.subTest(row.text):
                with self.assertRaises(buszlogem.KernelError) as raised:
                    buszlogem.check(as_text(row.text))
                self.assertEqual(raised.exception.told, row.told)
                self.assertEqual(raised.exception.advice, row.why)
                buszlogem.check(as_text(row.mended))

    def test_a_program_that_is_too_large(self):
        with self.assertRaises(buszlogem.KernelError) as raised:
            buszlogem.check("def main():\n" + "    pass\n" * 16384)
        self.assertEqual((raised.exception.kind, raised.exception.told), ("code", "code 16385"))
        self.assertEqual(raised.exception.advice, CODE)


def as_text(text):
    """A text of whatever lines."""
    return whole(text.encode(), "<kernel>")


class Advices(unittest.TestCase):
    """What needs no program."""

    def test_errors_has_the_same_table(self):
        page = (ROOT / "docs" / "ERRORS.md").read_text()
        told = []
        for table in re.findall(r"^\| line \| text \| mended \| why \|\n\|[-|]+\n((?:\|.*\n)*)", page, re.M):
            for line in table.splitlines():
                cells = [cell.strip() for cell in line.strip("| ").split(" | ")]
                texts = [cell.strip("`").replace("\\n", "\n").replace("\\t", "\t") for cell in cells[:3]]
                told.append((*texts, cells[3]))
        self.assertEqual(told, [(row.told, row.text, row.mended, row.why) for row in ROWS])
        self.assertTrue(f"`code NODES` says that {CODE}." in page)

    def test_each_row_is_chosen_for_its_own_text(self):
        for row in ROWS:
            with self.subTest(row.text):
                error = kernel_error(row.told, as_text(row.text))
                self.assertEqual(error.advice, row.why)
                self.assertEqual(error.example, (row.text, row.mended) if row.is_shown else None)

    def test_each_kind_has_one_row_for_all_else(self):
        kinds = {row.kind for row in ROWS}
        general = [row.kind for row in ROWS if not row.pattern]
        self.assertEqual(sorted(general), sorted(kinds))
        self.assertIsNone(advice_for("code", "", "", 1))

    def test_a_place_is_counted_in_letters_and_lines_end_as_they_do(self):
        text = "# Messung für µ\r\ndef main(): x = 1 # ü\r\n    é\r\n"
        at = text.encode().index("é".encode())
        error = kernel_error(f"lex {at} Byte", read_kernel(text))
        self.assertEqual((error.line, error.column, error.source), (3, 5, "    é"))
        error = kernel_error("syntax 4 11", read_kernel("def main()\r\n    ttl0.on()\r\n"))
        self.assertEqual((error.line, error.column, error.source), (1, 11, "def main()"))

    def test_an_error_is_shown_with_its_line_and_caret(self):
        error = kernel_error("syntax 17 42", read_kernel("def main():\n    at_mu(1000)\n\ndef shutter()\n    ttl0.on()\n"))
        self.assertEqual(
            str(error).splitlines()[:3],
            ["<kernel>:4:14: syntax: a colon is missing before it", "def shutter()", " " * 13 + "^"],
        )

    def test_an_error_comes_back_whole_from_another_process(self):
        error = kernel_error("type 1 NoMain", read_kernel("def mian(): pass"))
        again = pickle.loads(pickle.dumps(error))
        self.assertEqual((str(again), again.line, again.kind), (str(error), 1, "type NoMain"))


if __name__ == "__main__":
    unittest.main()
