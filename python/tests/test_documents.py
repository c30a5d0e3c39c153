"""What docs/PYTHON.md shows is what the package does: its blocks are run, as docs/check_documents.py runs those of each page."""

import contextlib
import io
import os
import pathlib
import sys
import tempfile
import unittest

from support import ROOT, SimCase

from buszlogem import programs

sys.path.insert(0, str(ROOT / "docs"))
import check_documents  # noqa: E402  (it lies in another folder)

PAGE = ROOT / "docs" / "PYTHON.md"


class Documents(SimCase):
    needed = programs.PROGRAMS

    def test_what_the_page_shows(self):
        used = {name: programs.find(name) for name in self.needed}
        with tempfile.TemporaryDirectory() as folder, contextlib.redirect_stdout(io.StringIO()) as told:
            checker = check_documents.Checker(used, pathlib.Path(folder))
            python = pathlib.Path(folder) / "bin" / "python3"
            python.write_text(f'#!/bin/sh\nexec "{sys.executable}" "$@"\n')
            python.chmod(0o755)
            checker.environment["PATH"] = f"{folder}/bin:{os.environ['PATH']}"
            checker.page(PAGE)
        self.assertEqual(checker.wrong, 0, told.getvalue())
        self.assertGreater(checker.tried, 8)


if __name__ == "__main__":
    unittest.main()
