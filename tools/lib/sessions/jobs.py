"""The commands of a page's table, typed one after another: none may be a mistake, or fail."""
import os
import signal
import subprocess

LISTENS = b"LISTENING "
SECONDS = 60  # of patience
GOOD = (0, 1)  # done, and refused


def fault_of(command: str, folder: str, environment: dict[str, str]) -> str:
    """What is wrong with a command, or nothing. A service is stopped as soon as it listens."""
    words = ["bash", "-c", command]
    streams = {"stdin": subprocess.DEVNULL, "stdout": subprocess.PIPE, "stderr": subprocess.STDOUT, "bufsize": 0}
    with subprocess.Popen(words, cwd=folder, env=environment, start_new_session=True, **streams) as process:
        first = process.stdout.readline()
        if first.startswith(LISTENS):
            os.killpg(process.pid, signal.SIGTERM)
        rest, _ = process.communicate(timeout=SECONDS)
    if first.startswith(LISTENS) or process.returncode in GOOD:
        return ""
    return f"{command}: status {process.returncode}, {(first + rest).decode(errors='replace')!r}"


def faults_of(commands: list[str], folder: str, path: str) -> list[str]:
    environment = {**os.environ, "PATH": f"{path}:{os.environ['PATH']}"}
    found = [fault_of(command, folder, environment) for command in commands]
    return [fault for fault in found if fault]
