"""How a module for x86-64 becomes one for WebAssembly."""
import unittest

from lib.embedded.webassembly import LAYOUT, retargeted
from lib.unproved.compiling import Failed

MODULE = """target datalayout = "e-m:e"
target triple = "x86_64-unknown-linux-gnu"
define i32 @opcmds_ask(ptr %0, i64 %1) #0 {
  ret i32 0
}
declare i64 @"rattle_alloc"(ptr, i64) #1
declare ptr @memcpy(ptr, ptr, i64)
declare void @llvm.trap()
attributes #0 = { nounwind "target-cpu"="x86-64" "probe-stack"="inline-asm" }
"""


class WebAssemblyTest(unittest.TestCase):
    def test_target(self) -> None:
        text = retargeted(MODULE, "opcmds_ask")
        self.assertIn(f'target datalayout = "{LAYOUT}"', text)
        self.assertIn('target triple = "wasm64-unknown-unknown"', text)

    def test_names(self) -> None:
        text = retargeted(MODULE, "opcmds_ask")
        self.assertIn('@opcmds_ask(ptr %0, i64 %1) "wasm-export-name"="opcmds_ask" #0 {', text)
        imported = '@"rattle_alloc"(ptr, i64) "wasm-import-module"="env" "wasm-import-name"="rattle_alloc" #1\n'
        self.assertIn(f"declare i64 {imported}", text)
        self.assertIn("declare ptr @memcpy(ptr, ptr, i64)\n", text)
        self.assertIn("declare void @llvm.trap()\n", text)

    def test_names_nobody_compares(self) -> None:
        module = MODULE.replace("i64) #", "i64) local_unnamed_addr #").replace("%1) #", "%1) unnamed_addr #")
        text = retargeted(module, "opcmds_ask")
        self.assertIn('@opcmds_ask(ptr %0, i64 %1) unnamed_addr "wasm-export-name"="opcmds_ask" #0 {', text)
        self.assertIn('@"rattle_alloc"(ptr, i64) local_unnamed_addr "wasm-import-module"="env"', text)

    def test_processor(self) -> None:
        self.assertIn("attributes #0 = { nounwind }", retargeted(MODULE, "opcmds_ask"))

    def test_no_export(self) -> None:
        with self.assertRaises(Failed):
            retargeted(MODULE, "opcmds_other")

    def test_other_instructions(self) -> None:
        with self.assertRaisesRegex(Failed, "llvm.x86.ssse3.pshuf.b.128"):
            retargeted(f"{MODULE}declare <16 x i8> @llvm.x86.ssse3.pshuf.b.128(<16 x i8>)\n", "opcmds_ask")


if __name__ == "__main__":
    unittest.main()
