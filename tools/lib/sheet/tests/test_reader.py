"""How a page is taken apart."""
import unittest

from lib.sheet.reader import BadPage, Page, Users, named_in, row_of, users_in

HEAD = "<html><head><title>A &amp; B</title><style>b{}</style></head><body><h1>Who</h1>"
TABLE = (
    "<h2>Commands</h2><table><thead><tr><th>Command</th><th>Decided by</th><th>Who</th></tr></thead><tbody>"
    "<tr><td><span>C JOB</span>, <span>Z</span></td><td><code>MVS.**</code> WARNING</td>"
    "<td><p><b>UACC</b>, with a warning (2): all but ANNA</p></td></tr>"
    "<tr><td><span>R</span></td><td>no profile</td><td><p>the authority of the console decides</p></td></tr>"
    "<tr><td>Z</td><td><code>MVS.HALT.EOD</code></td><td><p class=\"none\">nobody</p></td></tr></tbody></table>"
)
EVERYBODY = ["ANNA", "BERT", "CARL"]


class Reader(unittest.TestCase):
    def test_rows(self) -> None:
        page = Page(f"{HEAD}{TABLE}</body></html>")
        rows = [row_of(cells, EVERYBODY) for cells in page.rows("Commands")]
        self.assertEqual(page.title, "A & B")
        self.assertEqual(rows[0], (("C JOB, Z",), "MVS.**", [Users("UACC", True, ("BERT", "CARL"))]))
        self.assertEqual(rows[1], (("R",), None, None))
        self.assertEqual(rows[2], (("Z",), "MVS.HALT.EOD", []))

    def test_items(self) -> None:
        page = Page(f"{HEAD}<h2>Notes</h2><ul>\n<li>BERT&#39;s READ\n<li>N09\n</ul></body></html>")
        self.assertEqual(page.texts["Notes"], [("li", "BERT's READ\n"), ("li", "N09\n")])

    def test_users(self) -> None:
        self.assertEqual(users_in("OWN AT C1: ANNA", EVERYBODY), Users("OWN AT C1", False, ("ANNA",)))
        self.assertEqual(users_in("UACC: everybody", EVERYBODY), Users("UACC", False, tuple(EVERYBODY)))
        for bad in ("OWN (2): ANNA", "OWN: DORA", "ANNA"):
            with self.subTest(bad), self.assertRaises(BadPage):
                users_in(bad, EVERYBODY)

    def test_rights(self) -> None:
        self.assertEqual(named_in("SPECIAL: nobody", EVERYBODY), ("SPECIAL", []))
        found = named_in("SPECIAL or AUDITOR (2): all but BERT", EVERYBODY)
        self.assertEqual(found, ("SPECIAL or AUDITOR", ["ANNA", "CARL"]))

    def test_bad_pages(self) -> None:
        for bad in ("<script></script>", "<b>", "<p onclick=\"x()\"></p>", "<img src=\"x\">", "</i>"):
            with self.subTest(bad), self.assertRaises(BadPage):
                Page(f"{HEAD}{bad}</body></html>")


if __name__ == "__main__":
    unittest.main()
