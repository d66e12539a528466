"""The configuration that is tested is that of examples, and requests and answers are what they seem."""
import unittest

from lib.nginx.front import GATE, PAGE, Answer, answer_in, head, site
from lib.nginx.page import NO, YES
from lib.places import TOP


class Front(unittest.TestCase):
    def changed(self, example: str) -> list[str]:
        """The lines of an example that a test changes."""
        made = site("/folder", 18443, "unix:/folder/http.sock", example)
        with open(f"{TOP}/examples/{example}", encoding="utf-8") as file:
            pairs = list(zip(file.read().split("\n"), made.split("\n"), strict=True))
        return [new.strip() for old, new in pairs if old != new]

    def test_the_site_is_the_example(self) -> None:
        wanted = [
            "server unix:/folder/http.sock;",
            "listen 127.0.0.1:18443 ssl;",
            "ssl_certificate /folder/certificate.pem;",
            "ssl_certificate_key /folder/key.pem;",
            "auth_basic_user_file /folder/logins;",
        ]
        self.assertEqual(self.changed(GATE), wanted)
        self.assertEqual(self.changed(PAGE), [*wanted, "root /folder/page;"])

    def test_the_length_is_that_of_a_yes(self) -> None:
        with open(f"{TOP}/examples/{PAGE}", encoding="utf-8") as file:
            text = file.read()
        answers = [YES.partition(b"\r\n\r\n")[2].decode(), NO.partition(b"\r\n\r\n")[2].decode()]
        self.assertIn("".join(f"#   {answer}\n" for answer in reversed(answers)), text)
        self.assertIn(f'    "{len(answers[0])}"    "";\n', text)

    def test_logins(self) -> None:
        self.assertIn(b"Authorization: Basic YW5uYTpvZiBhbm5h\r\n", head("GET", "/", None, "anna"))
        self.assertIn(b"Authorization: Basic YW5uYTp3cm9uZw==\r\n", head("GET", "/", None, "anna:wrong"))
        self.assertNotIn(b"Authorization", head("GET", "/", None, None))

    def test_answers(self) -> None:
        self.assertEqual(answer_in(b"HTTP/1.1 403 Forbidden\r\nA: b\r\n\r\nno").status, 403)
        self.assertEqual(answer_in(b""), Answer(0, "", b""))


if __name__ == "__main__":
    unittest.main()
