"""What is read of the memory of processes."""
import os
import shutil
import sys
import tempfile
import unittest

from lib.bench.memory import Peak, Run, bytes_in, least, run_in, status_of
from lib.bench.timing import Took

STATUS = "Name:\topcmds\nVmPeak:\t   9000 kB\nVmHWM:\t    5000 kB\nVmRSS:\t    4000 kB\n"


class Memory(unittest.TestCase):
    def test_fields_of_a_process(self) -> None:
        self.assertEqual((bytes_in(STATUS, "VmRSS"), bytes_in(STATUS, "VmHWM")), (4_096_000, 5_120_000))
        self.assertEqual(bytes_in("Name:\topcmds\nState:\tZ (zombie)\n", "VmRSS"), 0)
        self.assertGreater(status_of(os.getpid(), "VmHWM"), 1_000_000)

    def test_a_note_of_a_run(self) -> None:
        self.assertEqual(run_in("2000 1500000 250000\n"), Run(Took(1.5, 0.25), 2_048_000))

    def test_the_least_of_runs(self) -> None:
        runs = [Run(Took(2, 0.5), 300), Run(Took(1, 0.75), 200)]
        self.assertEqual(least(runs), Run(Took(1, 0.5), 200))

    @unittest.skipUnless(shutil.which(os.environ.get("CC", "cc")), "no C compiler")
    def test_the_most_that_a_child_had(self) -> None:
        with tempfile.TemporaryDirectory() as folder:
            peak, most = Peak(folder), "x = bytearray(80_000_000); x[::4096] = b'1' * len(x[::4096]); del x"
            nothing, run = peak.of(["true"]), peak.of([sys.executable, "-c", most])
            self.assertLess(nothing.most, 8_000_000)
            self.assertGreater(run.most, 80_000_000)
            self.assertLess(run.most, 130_000_000)
            with self.assertRaises(SystemExit):
                peak.of(["false"], most_status=0)


if __name__ == "__main__":
    unittest.main()
