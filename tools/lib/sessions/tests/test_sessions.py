"""Sessions and jobs are found in a page, and run as a reader types them."""
import os
import tempfile
import unittest

from lib.sessions.jobs import faults_of
from lib.sessions.pages import Run, files_in, jobs_in, runs_in
from lib.sessions.shell import Shell

PAGE = """\
Write `day.csv`:

```
kind,class
group,,DAY
```

A block that is no session:

```
tools/build
```

1. In a list:

   ```
   $ cat day.csv
   kind,class
   group,,DAY
   $ printf '%s\\n' a \\
   > b
   a
   b
   ```

```
$ program < tour.script
```

| The script | The answers | What happens |
|---|---|---|
| `1 * JOBIN A JOB` | `1 DONE -` | a job starts |
| `2 C1 D U` | `2 REFUSED E12` | nobody is on |

And `another.csv` is not shown.

| To | Type |
|---|---|
| look | `program who < day.csv` |
| write | `(umask 077; program export > day.csv)` |

| To | Run |
|---|---|
| build | `tools/build` |
"""


class Sessions(unittest.TestCase):
    def test_runs(self) -> None:
        self.assertEqual(
            runs_in(PAGE),
            [
                Run(17, "cat day.csv", ["kind,class", "group,,DAY"]),
                Run(20, "printf '%s\\n' a \\\nb", ["a", "b"]),
                Run(27, "program < tour.script", ["1 DONE -", "2 REFUSED E12"]),
            ],
        )

    def test_files(self) -> None:
        self.assertEqual(files_in(PAGE), {"day.csv": "kind,class\ngroup,,DAY\n"})

    def test_jobs(self) -> None:
        self.assertEqual(jobs_in(PAGE), ["program who < day.csv", "(umask 077; program export > day.csv)"])

    def test_faults_of_jobs(self) -> None:
        good = ["true", "cat no-such-file", "echo LISTENING here; sleep 60", "echo a > b", "cat b; read line"]
        bad = ["echo no; exit 2", "exit 3", "no-such-command"]
        with tempfile.TemporaryDirectory() as folder:
            self.assertEqual(faults_of(good, folder, folder), [])
            found = faults_of(bad, folder, folder)
            self.assertEqual(os.listdir(folder), ["b"])
        self.assertEqual([fault.partition(", ")[0] for fault in found], [
            "echo no; exit 2: status 2", "exit 3: status 3", "no-such-command: status 127",
        ])

    def test_a_shell(self) -> None:
        with tempfile.TemporaryDirectory() as folder, Shell(folder, folder) as shell:
            for command, printed in (
                ("echo a; echo b >&2", ["a", "b"]),
                ("x=5; true", []),
                ("printf $x", ["5"]),
                ("printf '\\n\\n'", ["", ""]),
                ("(echo c; sleep 60) &", ["c"]),
                ("kill %1; wait", []),
            ):
                with self.subTest(command):
                    self.assertEqual(shell.printed(Run(1, command, printed)), printed)


if __name__ == "__main__":
    unittest.main()
