"""What examples/fleet/send and the playbook do with files of gates and policies of all kinds, and with answers that are
none of opcmds. No service is needed: one server stands for all gates."""
import http.server
import os
import subprocess
import threading
from typing import NamedTuple

from lib.tally import Tally
from .gates import NUMBER
from .sending import FLEET, playbook

POLICY = "kind,class,name\ngroup,,DAY\n"
KEPT = b'{"lines":["BATCH %d KEPT"],"rule":"-","status":"done"}' % NUMBER
ANSWERS = {
    "took": (200, KEPT),
    "hostile": (409, b'{"code":"E56\x1b]0;pwned\x07","rule":"-","text":"Batch\xe2\x80\xaeChanged"}'),
    "long": (409, b'{"code":"E56","rule":"-","status":"refused","text":"' + b"x" * 9_000 + b'"}'),
    "another": (200, b"<html>a page of another server</html>"),
    "denied": (401, KEPT),
}


class Case(NamedTuple):
    title: str
    gates: str | None  # what the file has, URL for that of the server; there is none
    status: int
    printed: str
    asked: list[str]  # by the last word of the path


CASES = (
    Case("a last line without its end", "a URL/took\nb URL/took", 0, "a took it\nb took it\n", ["took", "took"]),
    Case("lines that end with CR LF", "a URL/took\r\n\r\n", 0, "a took it\n", ["took"]),
    Case("comments and blank lines", "# one\n\n#two URL/took\n  \na URL/took\n", 0, "a took it\n", ["took"]),
    Case("two of one name", "a URL/took\na URL/another\n", 1, "a took it\na refused: HTTP 200\n", ["another", "took"]),
    Case("a name with a slash", "../a/b URL/took\n", 0, "../a/b took it\n", ["took"]),
    Case("no file", None, 2, "", []),
    Case("an empty file", "", 2, "", []),
    Case("a file of comments", "# a URL/took\n\n", 2, "", []),
    Case("a line without its URL", "a URL/took\nb\n", 2, "", []),
    Case("a line of three words", "a URL/took b\n", 2, "", []),
    Case("escapes in an answer", "a URL/hostile\n", 1, "a refused: E56?]0;pwned? Batch???Changed\n", ["hostile"]),
    Case("a long answer", "a URL/long\n", 1, f"a refused: E56 {'x' * 187}\n", ["long"]),
    Case("another server", "a URL/another\n", 1, "a refused: HTTP 200\n", ["another"]),
    Case("a status that is not 200", "a URL/denied\n", 1, "a refused: HTTP 401\n", ["denied"]),
)


class Gate(http.server.BaseHTTPRequestHandler):
    """Answers by the first word of the path, and keeps what it was asked; `busy` answers only when asked again."""

    def do_POST(self) -> None:
        word = self.path.split("/")[1]
        body = self.rfile.read(int(self.headers["Content-Length"] or 0)).decode()
        is_busy = word == "busy" and not self.server.asked
        self.server.asked.append((word, body))
        status, answer = (503, b"") if is_busy else ANSWERS.get(word, (200, KEPT))
        self.send_response(status)
        self.send_header("Content-Type", "application/json")
        self.send_header("Content-Length", str(len(answer)))
        self.end_headers()
        self.wfile.write(answer)

    def log_message(self, *_: object) -> None:
        pass


class Server(http.server.ThreadingHTTPServer):
    def __init__(self) -> None:
        super().__init__(("127.0.0.1", 0), Gate)
        self.asked: list[tuple[str, str]] = []
        self.url = f"http://127.0.0.1:{self.server_port}"
        threading.Thread(target=self.serve_forever, daemon=True).start()

    def took(self) -> list[tuple[str, str]]:
        """What was asked since this was last called, in order."""
        found, self.asked = sorted(self.asked), []
        return found


def sent(folder: str, *words: str, command: str = 'exec "$0" "$@"') -> tuple[int, str, str]:
    """How `send` ends with these words, by a shell, and what it prints and says."""
    ran = subprocess.run(
        ["bash", "-c", command, f"{FLEET}/send", *words], stdin=subprocess.DEVNULL, capture_output=True, cwd=folder,
        env={**os.environ, "ROUNDS": "2", "PAUSE": "0", "CURL": "--noproxy *"},
    )
    return ran.returncode, ran.stdout.decode("latin-1"), ran.stderr.decode("latin-1")


def write(path: str, text: str) -> str:
    with open(path, "w", encoding="utf-8", newline="") as file:
        file.write(text)
    return path


def check(folder: str, tally: Tally) -> None:
    policy = write(f"{folder}/day.csv", POLICY)
    with Server() as server:
        for case in CASES:
            path = f"{folder}/gates of {case.title}"
            if case.gates is not None:
                write(path, case.gates.replace("URL", server.url))
            status, printed, said = sent(folder, path, str(NUMBER), policy)
            found = (status, printed, [word for word, _ in server.took()])
            tally.equal(f"listed: {case.title}", found, (case.status, case.printed, case.asked))
            tally.equal(f"listed: {case.title}: a reason", said.count("send: "), case.status == 2)
        gates = write(f"{folder}/gates", f"a {server.url}/busy\n")
        for title, words in (
            ("no policy", (gates, str(NUMBER), f"{folder}/none")),
            ("a folder as the policy", (gates, str(NUMBER), folder)),
            ("a number that is none", (gates, "7/..", policy)),
            ("a word is missing", (gates, policy)),
        ):
            status, printed, said = sent(folder, *words)
            found = (status, printed, said.count("send: "), server.took())
            tally.equal(f"listed: {title}", found, (2, "", 1, []))
        status, printed, _ = sent(folder, gates, str(NUMBER), policy, command='"$0" <(cat "$1") $2 <(cat "$3")')
        wanted = (0, "a took it\n", [("busy", POLICY)] * 2)
        tally.equal("listed: pipes, sent again", (status, printed, server.took()), wanted)
        status, printed, _ = sent(folder, gates, str(NUMBER), policy, command='CURL=--none exec "$0" "$@"')
        tally.equal("listed: curl does not run", (status, printed, server.took()), (3, "a no answer\n", []))
        found = playbook(folder, {"a": f"{server.url}/another", "b": f"{server.url}/took"}, policy)
        tally.equal("listed: another server, by Ansible", found, (2, {"a": "refused: HTTP 200 ", "b": "took it"}))
