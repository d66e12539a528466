#!/usr/bin/env python3
"""What a command needs of the computer: looked for before any work.

  setup.py NEED..     for commands that are not written in Python; a NEED is a word of PACKAGES, or kit

If something is missing, the command stops, and prints the one command to type. With OPCMDS_INSTALL=1 in the
environment, `apt-get` installs it as root on Debian, and one line on standard error says so: .ci/run sets the variable,
since its computer is made for that. The Rattle kit is never installed: the command says where it looked for it."""
import os
import shutil
import subprocess
import sys

HERE = os.path.dirname(os.path.abspath(__file__))
# The Debian packages that give what is needed.
PACKAGES = {
    "git": "git",
    "cc": "gcc libc6-dev",
    "curl": "curl",
    "jq": "jq",
    "sqlite3": "sqlite3",
    "sqlite3.h": "gcc libc6-dev libsqlite3-dev",
    "valgrind": "valgrind",
    "bash": "bash",
    "zsh": "zsh",
    "mandoc": "mandoc",
    "make": "make",
    "dpkg-shlibdeps": "dpkg-dev",
    "deb-systemd-invoke": "init-system-helpers",
    "lintian": "lintian",
    "systemd-analyze": "systemd",
    "strace": "strace",
    "nginx": "nginx",
    "openssl": "openssl",
    "ansible-playbook": "ansible-core",
    "wasm-opt": "binaryen",
    "node": "nodejs",
}
# If this variable is 1, what is missing is installed. tools/lib/setup.sh names it, too.
VARIABLE = "OPCMDS_INSTALL"
# Where the kit is looked for, if `rt` is not on the path.
KIT = "/opt/rattle/bin"


def compiles(header: str) -> bool:
    compiler = os.environ.get("CC", "cc")
    if not shutil.which(compiler):
        return False
    words = [compiler, "-fsyntax-only", "-x", "c", "-"]
    return subprocess.run(words, input=f"#include <{header}>\n".encode(), stderr=subprocess.DEVNULL).returncode == 0


def is_here(need: str) -> bool:
    if need == "cc":
        return compiles("stdlib.h")
    # (services are programs of folders that are not on everybody's path)
    return compiles(need) if need.endswith(".h") else bool(shutil.which(need) or shutil.which(need, path="/usr/sbin"))


def said(text: str) -> None:
    print(f"setup: {text}", file=sys.stderr, flush=True)


def installed(packages: list[str]) -> str | None:
    """Installs Debian packages, after a look at what there is if the lists are missing or old; returns why that
    failed."""
    how = {
        "stdin": subprocess.DEVNULL, "stdout": subprocess.PIPE, "stderr": subprocess.STDOUT, "text": True,
        "errors": "replace",
    }
    # (offline, systemd starts no service of a package that is installed for a test)
    how["env"] = {**os.environ, "DEBIAN_FRONTEND": "noninteractive", "SYSTEMD_OFFLINE": "1"}
    install = ["apt-get", "install", "-y", "-q", "--no-install-recommends", *packages]
    for words in (install, ["apt-get", "update", "-q"], install):
        ran = subprocess.run(words, **how)
        if words is install and ran.returncode == 0:
            return None
    return ran.stdout.strip().rpartition("\n")[2]


def may_install() -> bool:
    return os.environ.get(VARIABLE) == "1" and os.geteuid() == 0 and bool(shutil.which("apt-get"))


def lacking(*wanted: str) -> list[str]:
    """What of this is missing, after the command to type, or after it was installed, if that is allowed."""
    missing = [need for need in wanted if not is_here(need)]
    if not missing:
        return []
    packages = list(dict.fromkeys(package for need in missing for package in PACKAGES[need].split()))
    command = f"apt-get install -y {' '.join(packages)}"
    if not may_install():
        sudo = "" if os.geteuid() == 0 else "sudo "
        typed = f"On Debian: {sudo}{command} (with {VARIABLE}=1, the tools install by themselves as root)"
        said(f"not found: {', '.join(missing)}. {typed}")
        return missing
    said(f"not found: {', '.join(missing)}; installing by: {command}")
    why = installed(packages)
    missing = [need for need in missing if not is_here(need)]
    if missing:
        said(f"not installed: {', '.join(missing)}: {why or 'apt-get says that it is, but it is not on the path'}")
    return missing


def needs(*wanted: str) -> None:
    """Goes on only if all of this is there."""
    if "kit" in wanted:
        needs_kit()
    if lacking(*(need for need in wanted if need != "kit")):
        sys.exit(3)


def kit_line() -> str:
    """The name of the kit that is found."""
    ran = subprocess.run(["rt", "version"], stdin=subprocess.DEVNULL, stdout=subprocess.PIPE, text=True)
    return (ran.stdout.split() or ["a kit without a name"])[0]


def needs_kit() -> None:
    """Puts the kit on the path if it lies in its usual place, and warns if it is another one than the proofs were
    made with."""
    if not shutil.which("rt"):
        os.environ["PATH"] = f"{os.environ.get('PATH', os.defpath)}:{KIT}"
    rt = shutil.which("rt")
    if not rt:
        said(f"the Rattle kit was not found: `rt` is neither on the path nor in {KIT}")
        sys.exit(3)
    with open(f"{HERE}/../kit-line", encoding="utf-8") as file:
        wanted = file.read().split()[0]
    found = kit_line()
    if found != wanted:
        made = f"the proofs were made with {wanted}, and may not hold up with another kit"
        said(f"{os.path.realpath(rt)} is of {found}; {made}")


if __name__ == "__main__":
    needs(*sys.argv[1:])
