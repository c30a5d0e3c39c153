"""Sweeps: each row is that of its point, whoever starts the program; what fails is a row; what is kept isn't run again."""

import concurrent.futures
import csv
import io
import logging
import os
import pathlib
import sqlite3
import tempfile
import unittest
import warnings
from unittest import mock

from installed import needs
from support import SimCase

from buszlogem import KernelError, OptionError, grid, int32, int64, kernel, programs, sweep
from buszlogem.shells import ShellThreads
from buszlogem.store import Kept, Store, as_text

# A pause and a pulse in each turn: it is `wait + pulses * (200 + wait)` long.
TRAIN = """\
def train(wait: int64, pulses: int32):
    core.reset()
    delay_mu(wait)
    for i in range(pulses):
        ttl0.pulse_mu(200)
        delay_mu(wait)
    set_dataset("length", now_mu() - 125_000)

def main():
    train(8, 1)
"""
POINTS = grid(wait=[100, 300], pulses=[1, 2, 3])
LENGTHS = [400, 700, 1000, 800, 1300, 1800]


@kernel
def two(first: int64, second: int32):
    both = [first, second]
    set_dataset("both", both)


class Grid(unittest.TestCase):
    def test_the_last_name_turns_fastest(self):
        self.assertEqual(
            grid(a=[1, 2], b=range(2)), [{"a": 1, "b": 0}, {"a": 1, "b": 1}, {"a": 2, "b": 0}, {"a": 2, "b": 1}]
        )

    def test_no_values_make_no_points(self):
        self.assertEqual(grid(a=[1], b=[]), [])
        self.assertEqual(grid(), [{}])


class Sweeps(SimCase):
    def lengths(self, table):
        return [row.report.values["length"] for row in table]

    def test_arguments_by_name(self):
        table = sweep(TRAIN, POINTS, progress=False, call="train")
        self.assertEqual(self.lengths(table), LENGTHS)
        self.assertEqual([row.point for row in table], POINTS)
        self.assertTrue(table.ok)

    def test_arguments_in_their_order(self):
        table = sweep(TRAIN, [(100, 3), [300, 1]], progress=False, call="train")
        self.assertEqual(self.lengths(table), [1000, 800])

    def test_the_only_argument(self):
        table = sweep("def shot(wait: int64):\n    set_dataset(\"w\", wait)\n", [5, -6], progress=False, call="shot")
        self.assertEqual([row.report.values["w"] for row in table], [5, -6])

    def test_options_of_the_run(self):
        # The second output of a pulse of 200 mu is asked for when the counter may read 2 * cost after the reset's cost.
        table = sweep(TRAIN, [{"cost": 8}, {"cost": 100_000}], progress=False)
        self.assertEqual([row.report.end for row in table], ["ok", "raised RTIOUnderflow"])
        self.assertEqual([row.ok for row in table], [True, False])

    def test_options_of_all_points(self):
        table = sweep(TRAIN, POINTS[:2], progress=False, call="train", cost=100_000)
        self.assertEqual({row.report.end for row in table}, {"raised RTIOUnderflow"})

    def test_kernels_of_points(self):
        points = [{"kernel": f"def main():\n    at_mu({stamp})\n    ttl0.on()\n"} for stamp in (8, 16)]
        table = sweep(None, points, progress=False)
        self.assertEqual([row.report.outs[0].stamp for row in table], [8, 16])

    def test_a_python_function(self):
        table = sweep(two, [{"second": 2, "first": 1}, (3, 4)], progress=False)
        self.assertEqual([row.report.values["both"] for row in table], [[1, 2], [3, 4]])

    def test_a_point_that_fails_is_a_row(self):
        refused = "def train(wait: int64, pulses: int32):\n    tll0.on()\n"
        points = [
            POINTS[0],
            {"wait": 1, "pulses": 1, "kernel": refused},
            {"wait": 1, "pulses": 1, "cost": -1},
            {"wait": 1},
            {"wait": 1, "pulses": 1.5},
            {"wait": 1, "pulses": 1, "kernel": "nothing.py"},
            POINTS[1],
        ]
        table = sweep(TRAIN, points, progress=False, call="train")
        kinds = [type(row.error) for row in table]
        self.assertEqual(kinds[:5], [type(None), KernelError, OptionError, OptionError, OptionError])
        self.assertEqual(kinds[5:], [FileNotFoundError, type(None)])
        self.assertEqual(table[1].error.line, 2)
        self.assertEqual(table[2].error.option, "cost")
        self.assertEqual((table[0].report.values, table[6].report.values), ({"length": 400}, {"length": 700}))
        self.assertEqual(table.failed, [*table[1:6]])

    def test_an_option_that_run_does_not_have(self):
        with self.assertRaises(OptionError) as raised:
            sweep(TRAIN, POINTS, progress=False, call="train", cots=8)
        self.assertEqual(raised.exception.option, "cots")

    def test_no_points(self):
        self.assertEqual(len(sweep(TRAIN, [], progress=False)), 0)

    def test_executors(self):
        for executor in (ShellThreads, concurrent.futures.ThreadPoolExecutor, concurrent.futures.ProcessPoolExecutor):
            with self.subTest(executor.__name__), executor(2) as pool:
                self.assertEqual(self.lengths(sweep(TRAIN, POINTS, pool, False, call="train")), LENGTHS)

    def test_a_worker_without_the_program(self):
        with tempfile.TemporaryDirectory() as folder, mock.patch.dict(os.environ, {programs.FOLDER_VARIABLE: folder}):
            row = sweep(TRAIN, POINTS[:1], progress=False, call="train")[0]
        self.assertIsNone(row.report)
        self.assertIn("there is no program artiq_sim", str(row.error))

    @needs("distributed")
    def test_a_cluster_of_dask(self):
        from distributed import Client, LocalCluster

        self.enterContext(warnings.catch_warnings())
        warnings.simplefilter("ignore", DeprecationWarning)
        quiet = {"dashboard_address": None, "silence_logs": logging.CRITICAL}
        settings = {"n_workers": 2, "threads_per_worker": 1, **quiet}
        with LocalCluster(**settings) as cluster, Client(cluster) as client:
            table = sweep(TRAIN, [*POINTS, {"wait": 1}], client.get_executor(), False, call="train")
        self.assertEqual(self.lengths(table[:-1]), LENGTHS)
        self.assertIsInstance(table[-1].error, OptionError)

    @needs("tqdm")
    def test_a_bar_of_tqdm(self):
        told = io.StringIO()
        with mock.patch("sys.stderr", told):
            sweep(TRAIN, POINTS[:2], call="train")
        self.assertIn("2/2", told.getvalue())


class Resumed(SimCase):
    def setUp(self):
        self.file = pathlib.Path(self.enterContext(tempfile.TemporaryDirectory())) / "points.db"

    def test_what_is_kept_is_not_run_again(self):
        first = sweep(TRAIN, POINTS, progress=False, resume=self.file, call="train")
        empty = self.enterContext(tempfile.TemporaryDirectory())
        with mock.patch.dict(os.environ, {programs.FOLDER_VARIABLE: empty}):
            second = sweep(TRAIN, POINTS, progress=False, resume=self.file, call="train")
        self.assertEqual([row.kept for row in first], [False] * 6)
        self.assertEqual([row.kept for row in second], [True] * 6)
        for before, after in zip(first, second):
            self.assertEqual(
                (before.report.text, before.report.status, before.report.words, before.report.kernel_sha256),
                (after.report.text, after.report.status, after.report.words, after.report.kernel_sha256),
            )

    def test_it_goes_by_kernel_words_and_point(self):
        def kept(kernel, points, **options):
            return [row.kept for row in sweep(kernel, points, progress=False, resume=self.file, call="train", **options)]

        self.assertEqual(kept(TRAIN, POINTS[:2]), [False, False])
        self.assertEqual(kept(TRAIN, POINTS[1:3]), [True, False])
        self.assertEqual(kept(TRAIN, POINTS[:2], cost=8), [False, False])
        self.assertEqual(kept(TRAIN.replace("200", "208"), POINTS[:2]), [False, False])
        self.assertEqual(kept(TRAIN, [(100, 1)]), [False])

    def test_a_point_with_an_error_is_run_again(self):
        point = {"wait": 1, "pulses": 1, "kernel": "def train(wait: int64, pulses: int32):\n    tll0.on()\n"}
        for _ in range(2):
            row = sweep(TRAIN, [point], progress=False, resume=self.file, call="train")[0]
            self.assertEqual((row.kept, type(row.error)), (False, KernelError))

    def test_a_run_that_an_exception_ended_is_kept(self):
        point = {"cost": 100_000}
        rows = [sweep(TRAIN, [point], progress=False, resume=self.file)[0] for _ in range(2)]
        self.assertEqual([(row.kept, row.report.status) for row in rows], [(False, 6), (True, 6)])

    def test_a_file_of_another_kind(self):
        self.file.write_text("no database, but long enough to be asked whether it is one" * 20)
        with self.assertRaises(sqlite3.DatabaseError):
            sweep(TRAIN, POINTS[:1], progress=False, resume=self.file, call="train")

    def test_points_as_texts(self):
        self.assertEqual(as_text({"b": 1, "a": (2, 3)}), '{"a": [2, 3], "b": 1}')
        store = Store(self.file)
        store.put("sum", ("sim",), {"a": 1}, Kept(0, "end ok\n"))
        self.assertEqual(store.get("sum", ("sim",), {"a": 1}), Kept(0, "end ok\n"))
        self.assertIsNone(store.get("sum", ("sim", "--cost", "8"), {"a": 1}))
        store.close()

    @needs("numpy")
    def test_points_with_arrays(self):
        import numpy

        point = {"edges": {"in0": numpy.array([1, 2])}, "n": numpy.int64(3)}
        self.assertEqual(as_text(point), '{"edges": {"in0": [1, 2]}, "n": 3}')


class Tables(SimCase):
    def setUp(self):
        bad = {"wait": 1, "pulses": 1, "cost": -1}
        self.table = sweep(TRAIN, [*POINTS[:2], bad], progress=False, call="train")

    def test_csv(self):
        told = io.StringIO()
        self.table.write_csv(told)
        rows = list(csv.DictReader(io.StringIO(told.getvalue())))
        self.assertEqual([row["length"] for row in rows], ["400", "700", ""])
        self.assertEqual([row["pulses"] for row in rows], ["1", "2", "1"])
        self.assertEqual([row["ok"] for row in rows], ["True", "True", "False"])
        self.assertTrue(rows[2]["error"].startswith("cost=-1: "))

    def test_a_column_that_is_not_there(self):
        with self.assertRaises(KeyError):
            self.table["lenght"]

    @needs("numpy")
    def test_columns_as_arrays(self):
        import numpy

        numpy.testing.assert_array_equal(self.table["length"], [400, 700, numpy.nan])
        numpy.testing.assert_array_equal(self.table["wait"], [100, 100, 1])
        self.assertEqual(self.table["wait"].dtype.kind, "i")

    def test_columns_without_numpy(self):
        with mock.patch.dict("sys.modules", {"numpy": None}):
            self.assertEqual(self.table["length"], [400, 700, None])


if __name__ == "__main__":
    unittest.main()
