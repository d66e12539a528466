"""How the bytes of requests and of logs are read, and what words come to."""
import sqlite3
import tempfile
import unittest

from lib.fuzz import heads, logs, words

LINE = b"POST /a HTTP/1.1\r\n"


class Heads(unittest.TestCase):
    def test_good(self) -> None:
        sent = heads.sent(b"\r\n\n" + LINE + b"X:\t y \r\nContent-Length: 2\n\r\nab")
        self.assertEqual((sent.method, sent.target, sent.version, sent.body), ("POST", "/a", "1.1", b"ab"))
        self.assertEqual(sent.fields, (("X", "\t y "), ("Content-Length", " 2")))
        self.assertIsNone(sent.size)

    def test_high_bytes(self) -> None:
        self.assertEqual(heads.sent(b"GET /\xc3\xa9 HTTP/1.0\r\nX: \xff\r\n\r\n").target, "/é")
        self.assertEqual(heads.sent(b"GET /\xff HTTP/1.0\r\n\r\n"), heads.UNREAD)

    def test_limits(self) -> None:
        rest = len(LINE) + len(b"X: \r\n\r\n")
        for size, is_good in ((8_192, True), (8_193, False)):
            data = LINE + b"X: " + b"y" * (size - rest) + b"\r\n\r\n"
            self.assertEqual(heads.sent(data) != heads.UNREAD, is_good)
        for count, is_good in ((32, True), (33, False)):
            self.assertEqual(heads.sent(LINE + b"X: y\r\n" * count + b"\r\n") != heads.UNREAD, is_good)

    def test_bad(self) -> None:
        bad = (
            b"", LINE, LINE + b"X: y\r\n", b" " + LINE + b"\r\n", b"POST  /a HTTP/1.1\r\n\r\n",
            b"POST /a HTTP/1.2\r\n\r\n", b"POST /a\x00 HTTP/1.1\r\n\r\n", LINE + b"X y\r\n\r\n",
            LINE + b"X : y\r\n\r\n", LINE + b": y\r\n\r\n",
            LINE + b"X: y\r\n z\r\n\r\n", LINE + b"X: \x00\r\n\r\n", LINE + b"X: a\rb\r\n\r\n",
            b"P\xc3 /a HTTP/1.1\r\n\r\n",
        )
        for data in bad:
            self.assertEqual(heads.sent(data), heads.UNREAD, data)


class Logs(unittest.TestCase):
    def setUp(self) -> None:
        folder = tempfile.TemporaryDirectory()
        self.addCleanup(folder.cleanup)
        base = sqlite3.connect(f"{folder.name}/db", isolation_level=None)
        self.addCleanup(base.close)
        base.execute("PRAGMA page_size = 1024")
        base.execute("PRAGMA journal_mode = WAL")
        for number in range(3):
            base.execute(f"CREATE TABLE t{number} (x)")
        with open(f"{folder.name}/db-wal", "rb") as file:
            self.data = file.read()
        self.count = (len(self.data) - logs.HEADER) // (logs.FRAME + 1_024)

    def test_all_pages(self) -> None:
        self.assertGreater(self.count, 5)
        self.assertEqual(len(logs.pages(self.data)), self.count)
        self.assertEqual(logs.pages(self.data + b"\0" * 9), logs.pages(self.data))

    def test_what_is_cut_or_turned(self) -> None:
        whole = logs.pages(self.data)
        self.assertEqual(logs.pages(b""), [])
        self.assertEqual(logs.pages(self.data[:logs.HEADER]), [])
        for at in (0, 4, 8, 16, 24, logs.HEADER, logs.HEADER + 8, logs.HEADER + 100):
            data = bytearray(self.data)
            data[at] ^= 1
            self.assertEqual(logs.pages(bytes(data)), [])
        cut = logs.pages(self.data[:-1])
        self.assertLess(len(cut), self.count)
        self.assertEqual(cut, whole[:len(cut)])


class Words(unittest.TestCase):
    def test_known(self) -> None:
        explain = ["explain", "--user", "ANNA", "--resource=MVS.VARY.DEV", "--level", "UPDATE"]
        self.assertEqual(words.comes_to(explain)[0], 0)
        self.assertEqual(words.comes_to([*explain, "--console", "9X"]), (2, "", None))
        self.assertEqual(words.comes_to(explain[:-2]), (2, "", None))
        self.assertEqual(words.comes_to([*explain, "--user", "BERT"]), (2, "", None))
        self.assertEqual(words.comes_to([*explain, "--policy", words.FILE]), words.comes_to(explain))
        self.assertEqual(words.comes_to([*explain, "--policy", "/no/such"]), (3, "", "E91 Store"))
        self.assertEqual(words.comes_to([*explain, "--db", "/"]), (3, "", "E91 Store"))
        self.assertEqual(words.comes_to([*explain, "--db", "/", "--policy", words.FILE]), (2, "", None))
        self.assertEqual(words.comes_to(["run", "--policy", words.FILE])[0], 0)
        self.assertEqual(words.comes_to(["export", "--db", "/"]), (3, "", "E91 Store"))
        self.assertEqual(words.comes_to(["import", "--db", "/", "--batch", "0"]), (2, "", None))
        self.assertEqual(words.comes_to(["import", "--db", "/", "--batch", "007"]), (3, "", "E91 Store"))
        self.assertEqual(words.comes_to(["serve", "--db", "/", "--port", "65536"]), (2, "", None))
        self.assertEqual(words.comes_to(["decide", "--policy", "/", "--port", "0"]), (3, "", "E91 Store"))
        self.assertEqual(words.comes_to(["decide", "--policy", "/", "--port", "0", "--base", "a b"]), (2, "", None))
        self.assertEqual(words.comes_to([b"\xff"]), (2, "", None))
        self.assertEqual(words.comes_to([]), (2, "", None))

    def test_not_known(self) -> None:
        self.assertIsNone(words.comes_to(["run", "--help"]))
        self.assertIsNone(words.comes_to(["explain", "--user", "-x"]))
        self.assertIsNone(words.comes_to(["run", "--db", "elsewhere"]))


if __name__ == "__main__":
    unittest.main()
