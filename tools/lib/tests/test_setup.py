"""What a command does if something that it needs is missing."""
import os
import shutil
import subprocess
import sys
import tempfile
import unittest

LIB = os.path.dirname(os.path.dirname(os.path.abspath(__file__)))
# notes its words, and installs a command
APT_GET = """#!/bin/sh
echo "$@" >> {folder}/asked
echo '#!/bin/sh' > {folder}/{command}
/bin/chmod 755 {folder}/{command}
"""
SUDO = "" if os.geteuid() == 0 else "sudo "
BY_THEMSELVES = "(with OPCMDS_INSTALL=1, the tools install by themselves as root)\n"
# how a need is looked for by a command that is written in Python, and Python by one that is written in bash
PYTHON = [sys.executable, f"{LIB}/setup.py"]
BASH = ["/bin/bash", "-c", f". {LIB}/setup.sh && needs"]


class Missing(unittest.TestCase):
    def setUp(self) -> None:
        """A folder that is the whole path."""
        room = tempfile.TemporaryDirectory()
        self.addCleanup(room.cleanup)
        self.folder = room.name

    def ran(self, *words: str, **environment: str) -> subprocess.CompletedProcess[str]:
        how = {"env": {"PATH": self.folder, **environment}, "capture_output": True, "text": True}
        return subprocess.run(words, **how)

    def has_apt_get(self, command: str) -> None:
        with open(f"{self.folder}/apt-get", "w", encoding="utf-8") as file:
            file.write(APT_GET.format(folder=self.folder, command=command))
        os.chmod(f"{self.folder}/apt-get", 0o755)

    def asked(self) -> list[str]:
        """What apt-get was asked for."""
        if not os.path.exists(f"{self.folder}/asked"):
            return []
        with open(f"{self.folder}/asked", encoding="utf-8") as file:
            return file.read().splitlines()

    def test_nothing_is_needed(self) -> None:
        ran = self.ran(*PYTHON)
        self.assertEqual((ran.returncode, ran.stderr), (0, ""))

    def test_one_command_for_all_that_is_missing(self) -> None:
        ran = self.ran(*PYTHON, "curl", "sqlite3.h", "cc")
        command = f"{SUDO}apt-get install -y curl gcc libc6-dev libsqlite3-dev"
        wanted = f"setup: not found: curl, sqlite3.h, cc. On Debian: {command} {BY_THEMSELVES}"
        self.assertEqual((ran.returncode, ran.stderr), (3, wanted))

    def test_nothing_is_installed_unasked(self) -> None:
        self.has_apt_get("curl")
        for value in ({}, {"OPCMDS_INSTALL": ""}, {"OPCMDS_INSTALL": "0"}):
            ran = self.ran(*PYTHON, "curl", **value)
            wanted = f"setup: not found: curl. On Debian: {SUDO}apt-get install -y curl {BY_THEMSELVES}"
            self.assertEqual((ran.returncode, ran.stderr, self.asked()), (3, wanted, []))

    def test_python_is_not_installed_unasked(self) -> None:
        self.has_apt_get("python3")
        for value in ({}, {"OPCMDS_INSTALL": ""}, {"OPCMDS_INSTALL": "0"}):
            ran = self.ran(*BASH, **value)
            wanted = f"setup: not found: python3. On Debian: {SUDO}apt-get install -y python3 {BY_THEMSELVES}"
            self.assertEqual((ran.returncode, ran.stderr, self.asked()), (3, wanted, []))

    @unittest.skipUnless(os.geteuid() == 0, "only root installs")
    def test_what_is_asked_for_is_installed(self) -> None:
        for words, command in (([*PYTHON, "curl"], "curl"), (BASH, "python3")):
            with self.subTest(command):
                self.has_apt_get(command)
                ran = self.ran(*words, OPCMDS_INSTALL="1")
                said = f"setup: not found: {command}; installing by: apt-get install -y {command}\n"
                self.assertEqual((ran.returncode, ran.stderr), (0, said))
                self.assertIn("install", self.asked()[-1])

    def test_ci_lets_the_tools_install(self) -> None:
        os.makedirs(f"{self.folder}/.ci")
        os.makedirs(f"{self.folder}/tools")
        os.symlink(LIB, f"{self.folder}/tools/lib")
        shutil.copy(f"{LIB}/../../.ci/run", f"{self.folder}/.ci/run")
        with open(f"{self.folder}/tools/test", "w", encoding="utf-8") as file:
            file.write('#!/bin/sh\necho "$OPCMDS_INSTALL $*"\n')
        os.chmod(f"{self.folder}/tools/test", 0o755)
        ran = self.ran(f"{self.folder}/.ci/run", PATH=os.environ["PATH"])
        self.assertEqual((ran.returncode, ran.stdout), (0, "1 --minutes 150\n"))

    @unittest.skipIf(os.geteuid() == 0, "root installs")
    def test_nobody_else_installs(self) -> None:
        for words, command in (([*PYTHON, "curl"], "curl"), (BASH, "python3")):
            with self.subTest(command):
                self.has_apt_get(command)
                ran = self.ran(*words, OPCMDS_INSTALL="1")
                self.assertEqual((ran.returncode, self.asked()), (3, []))


if __name__ == "__main__":
    unittest.main()
