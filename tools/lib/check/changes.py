"""What changed since a commit: crates, and files outside of them."""
import subprocess
from typing import NamedTuple

from lib.clone import Lines, lines_in, lines_of

CRATES = "crates.txt"


class BadCommit(Exception):
    """Why nothing can be compared with a commit."""


class Changes(NamedTuple):
    commit: str  # as it was named
    crates: list[str]  # in the order of crates.txt, so each after what it stands on
    files: list[str]  # of crates, too

    def others(self) -> list[str]:
        """The files outside of the crates."""
        return [path for path in self.files if not path.startswith("crates/")]

    def has_code(self) -> bool:
        """Whether code or definitions changed."""
        return any(path.split("/")[2:3] in (["src"], ["specs"]) for path in self.files if path.startswith("crates/"))


def git(top: str, *words: str) -> str:
    how = {"cwd": top, "stdin": subprocess.DEVNULL, "capture_output": True, "text": True, "errors": "replace"}
    ran = subprocess.run(["git", *words], **how)
    if ran.returncode:
        raise BadCommit(ran.stderr.strip() or f"git {words[0]} failed")
    return ran.stdout


def rows_of(lines: Lines) -> dict[str, str]:
    """What each line says, without its remark."""
    return {name: " ".join(row.partition("#")[0].split()) for name, (row, _) in lines.items()}


def changes_since(top: str, named: str) -> Changes:
    """What differs from a commit: staged or not, new and not ignored, or gone."""
    try:
        commit = git(top, "rev-parse", "--verify", "--quiet", "--end-of-options", f"{named}^{{commit}}").strip()
    except BadCommit:
        raise BadCommit(f"git knows no commit {named}") from None
    differing = git(top, "diff", "--name-only", "--no-renames", "-z", commit, "--")
    new = git(top, "ls-files", "-o", "--exclude-standard", "-z")
    files = sorted({*differing.split("\0"), *new.split("\0")} - {""})
    # (a README is a document)
    changed = {path.split("/")[1] for path in files if path.startswith("crates/") and not path.endswith("/README.md")}
    known = lines_of(top)
    if CRATES in files:
        has_rows = git(top, "ls-tree", "--name-only", commit, CRATES)
        before = rows_of(lines_in(git(top, "show", f"{commit}:{CRATES}"))) if has_rows else {}
        changed |= {name for name, row in rows_of(known).items() if before.get(name) != row}
    return Changes(named, [name for name in known if name in changed], files)
