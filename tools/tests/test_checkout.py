"""What ./opcmds says in a checkout that is another user's."""
import os
import shutil
import stat
import subprocess
import tempfile
import unittest

TOP = os.path.dirname(os.path.dirname(os.path.dirname(os.path.abspath(__file__))))
NOBODY = 65534  # the number of the user, and of its group, that owns nothing


def copied(room: str) -> str:
    """A checkout with the program's own crate alone, which was never compiled, and in which nobody may write."""
    top = f"{room}/checkout"
    os.makedirs(f"{top}/crates")
    for name in ("opcmds", "crates.txt", "VERSION"):
        shutil.copy(f"{TOP}/{name}", f"{top}/{name}")
    leave = shutil.ignore_patterns("out", "__pycache__")
    for name in ("tools", "crates/opcmds"):
        shutil.copytree(f"{TOP}/{name}", f"{top}/{name}", ignore=leave)
    for folder, _, names in os.walk(room):
        os.chmod(folder, 0o555)
        for name in names:
            path = f"{folder}/{name}"
            os.chmod(path, stat.S_IMODE(os.stat(path).st_mode) & 0o555 | 0o444)
    return top


class Checkout(unittest.TestCase):
    def test_of_another_user(self) -> None:
        room = tempfile.mkdtemp()
        try:
            top = copied(room)
            how = {"user": NOBODY, "group": NOBODY, "extra_groups": ()} if os.geteuid() == 0 else {}
            words = [f"{top}/opcmds", "check"]
            ran = subprocess.run(words, stdin=subprocess.DEVNULL, capture_output=True, text=True, **how)
            self.assertEqual((ran.returncode, ran.stdout), (3, ""))
            said = f"unproved: opcmds has to be compiled from these sources first, and you cannot write to {top}/"
            self.assertTrue(ran.stderr.startswith(said), ran.stderr)
            self.assertEqual(ran.stderr.count("\n"), 1, ran.stderr)
        finally:
            for folder, _, _ in os.walk(room):
                os.chmod(folder, 0o755)
            shutil.rmtree(room)


if __name__ == "__main__":
    unittest.main()
