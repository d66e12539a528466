"""The module of a program in the place of the library's."""
import unittest

from lib.embedded.making import seen, watched
from lib.unproved.compiling import Failed


class MakingTest(unittest.TestCase):
    def test_call_is_seen(self) -> None:
        for name in ("opcmds_ask", '"opc_c::opcmds_ask"'):
            with self.subTest(name):
                found = seen(f"define internal i32 @{name}(ptr %0) {{\n", ["opcmds_ask"])
                self.assertEqual(found, "define i32 @opcmds_ask(ptr %0) {\n")

    def test_all_calls_are_seen(self) -> None:
        module = "define internal i32 @opcmds_ask(ptr %0) {\n}\ndefine internal void @opcmds_ask_kept(ptr %0) {\n}\n"
        found = seen(module, ["opcmds_ask", "opcmds_ask_kept"])
        self.assertEqual(found, module.replace("internal ", ""))

    def test_program_is_not(self) -> None:
        module = "define internal i32 @opcmds_ask(ptr %0) {\n}\ndefine i32 @main() #0 {\n"
        self.assertIn("define internal i32 @main() #0 {\n", seen(module, ["opcmds_ask"]))

    def test_functions_are_watched(self) -> None:
        module = "define i32 @f(ptr align(8) %0) unnamed_addr #12 !dbg !3 {\ndeclare ptr @g() #1\n"
        found = "define i32 @f(ptr align(8) %0) unnamed_addr sanitize_address #12 !dbg !3 {\ndeclare ptr @g() #1\n"
        self.assertEqual(watched(module), found)

    def test_no_call(self) -> None:
        for module in ("", "define internal i32 @opcmds_asked(ptr %0) {\n"):
            with self.subTest(module), self.assertRaises(Failed):
                seen(module, ["opcmds_ask"])


if __name__ == "__main__":
    unittest.main()
