#!/usr/bin/env python3
"""Has GTKWave's own converter read the waveform of each example.

    python3 docs/accepted_by_gtkwave.py [--program PATH]

Run where GTKWave's `vcd2fst` is installed; `docs/check_documents.py` runs it there. Each kernel of examples/ is run by `dump`
with the words that stand beside it, `vcd` makes its waveform, and the converter has to accept it. Ends with 1 where one is
refused.
"""

import pathlib
import shutil
import subprocess
import sys
import tempfile

from check_documents import ROOT, programs_named


def words_of(example):
    """Returns the options that stand beside an example."""
    words = example.with_suffix(".words")
    return words.read_text().split() if words.exists() else []


def is_accepted(program, example, folder):
    """Whether the converter reads the waveform of an example."""
    dump = subprocess.run([program, "dump", *words_of(example)], input=example.read_bytes(), capture_output=True, check=False)
    waveform = subprocess.run([program, "vcd"], input=dump.stdout, capture_output=True, check=False)
    if waveform.returncode != 0:
        return False
    text = pathlib.Path(folder) / "waveform.vcd"
    text.write_bytes(waveform.stdout)
    converted = pathlib.Path(folder) / "waveform.fst"
    converted.unlink(missing_ok=True)
    run = subprocess.run(["vcd2fst", text, converted], capture_output=True, check=False)
    return run.returncode == 0 and converted.exists()


def main():
    program = programs_named(__doc__)["artiq_sim"]
    if shutil.which("vcd2fst") is None:
        sys.exit("vcd2fst of GTKWave isn't installed")
    examples, refused = sorted((ROOT / "examples").glob("*.py")), []
    with tempfile.TemporaryDirectory() as folder:
        for example in examples:
            if not is_accepted(program, example, folder):
                refused.append(example.name)
    print(f"{len(examples)} waveforms, {len(refused)} refused", *refused)
    return 1 if refused else 0


if __name__ == "__main__":
    sys.exit(main())
