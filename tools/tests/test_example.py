"""The example is remade from its dump byte for byte, and its report has the dump's own sums."""
from __future__ import annotations

import pathlib
import unittest

from pfs_dumps.ledger import Ledger
from pfs_dumps.report import report_of
from pfs_dumps.script import made_of
from pfs_dumps.selection import Slice
from pfs_dumps.server import beside
from pfs_dumps.sums import checked, differences

EXAMPLE = pathlib.Path(__file__).resolve().parents[2] / "examples" / "from_server"


class Example(unittest.TestCase):
    def setUp(self) -> None:
        self.ledger = Ledger()
        self.made = made_of(EXAMPLE, Slice(), self.ledger)
        self.report = report_of(EXAMPLE / "script.report")

    def test_script(self) -> None:
        self.assertEqual(self.made.text(), (EXAMPLE / "script.pfs").read_text())

    def test_sums(self) -> None:
        self.assertEqual(differences(self.made, self.report), [])

    def test_comparison(self) -> None:
        lines = [*checked(self.made, self.report), *beside(EXAMPLE, self.made, self.ledger, self.report)]
        self.assertEqual(lines, (EXAMPLE / "beside").read_text().splitlines())
