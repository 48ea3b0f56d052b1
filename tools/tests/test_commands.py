"""The words of the tools, their streams and exit statuses."""
from __future__ import annotations

import pathlib
import subprocess

from .dumps import DumpTest, wait

TOOLS = pathlib.Path(__file__).resolve().parents[1]


class Commands(DumpTest):
    def ran(self, tool: str, *words: str) -> tuple[int, str, str]:
        """The exit status, and what stands on standard output and standard error."""
        run = subprocess.run([str(TOOLS / tool), *words], capture_output=True, text=True)
        return run.returncode, run.stdout, run.stderr

    def test_script_and_what_is_said_of_it(self) -> None:
        self.events("waits", wait(7, 1, 10, 5), wait(9, 1, 10, 5))
        status, script, said = self.ran("from_server", "--to", "1ns", str(self.folder))
        self.assertEqual((status, script[:2], script[-5:]), (0, "# ", "\nend\n"))
        self.assertIn("from_server: brought in: 1 events (1 waits) of 1 classes in 1 sessions; 7 lines, ", said)
        self.assertIn("from_server: left out: 1 waits: its thread is not in threads.tsv", said)

    def test_faulty_dump(self) -> None:
        (self.folder / "events_waits_history_long.tsv").write_text("7\t1\n")
        status, script, said = self.ran("from_server", str(self.folder))
        self.assertEqual((status, script), (1, ""))
        self.assertTrue(said.startswith("from_server: events_waits_history_long.tsv:1: no heading"))

    def test_no_dump(self) -> None:
        status, script, said = self.ran("from_server", str(self.folder / "nowhere"))
        self.assertEqual((status, script), (1, ""))
        self.assertIn("threads.tsv", said)

    def test_faulty_words(self) -> None:
        for words in (["--from", "2"], ["--to", "-1s"], ["--phase", "0s"], ["--threads", "1,"], ["--fr", "2s"]):
            self.assertEqual(self.ran("from_server", *words, str(self.folder))[:2], (2, ""))

    def test_report_of_another_dump(self) -> None:
        self.events("waits", wait(7, 1, 10, 5))
        report = self.folder / "report"
        report.write_text("pfs-report 1\nphase 1\nfinal\nend\n")
        status, said, _ = self.ran("beside_server", str(self.folder), str(report))
        self.assertEqual((status, said.count("the report differs from the events brought in")), (1, 2))
