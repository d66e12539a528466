"""The quick test: what can be tried without a proof, of the program that tools/unproved compiles."""
import concurrent.futures
import subprocess
import threading
import time

from lib import kit
from .steps import Step

# What needs no program is tried while it is compiled.
WITHOUT_PROGRAM = {
    "layout": ["tools/layout"],
    "selftest": ["tools/selftest"],
}
# Those that take longest come first.
WITH_PROGRAM = {
    "serve": ["tools/serve"],
    "model": ["tools/model"],
    "stops": ["tools/stops", "--most", "2"],
    "decide": ["tools/decide"],
    "fuzz": ["tools/fuzz", "--count", "2000"],
    "databases": ["tools/databases"],
    "cases": ["tools/cases"],
    "scripts": ["tools/scripts"],
    "manual": ["tools/manual"],
    "packages": ["tools/packages"],
    "sessions": ["tools/sessions"],
    "sheet": ["tools/sheet"],
    "nginx": ["tools/nginx"],
    "fleet": ["tools/fleet"],
    "program": ["tools/program"],
}


class Quick:
    def __init__(self, top: str, left_out: dict[str, str]) -> None:
        self.top, self.left_out, self.passed, self.failed = top, left_out, 0, 0
        self.program = f"{top}/crates/opcmds/out/unproved/opcmds"
        self.turn, self.began, self.failures = threading.Lock(), time.monotonic(), []

    def step(self, title: str, words: list[str]) -> None:
        """Runs a tool, and prints all that it printed at its end, since others run beside it."""
        lines = []
        ran = Step(words, self.top, lines.append, {"OPCMDS": self.program})
        with self.turn:
            self.passed, self.failed = self.passed + ran.passed, self.failed + ran.failed
            self.failures += [f"{title}: {line}" for line in ran.failures()]
            print(f"{''.join(lines)}{title}: {ran.counts()}, in {ran.seconds:.0f} seconds", flush=True)

    def compiled(self) -> bool:
        """Compiles the program if it is not that of these sources; says whether it is there."""
        began = time.monotonic()
        is_made = subprocess.run(["tools/unproved", "--whole"], cwd=self.top, stdin=subprocess.DEVNULL).returncode == 0
        with self.turn:
            print(f"{'compiled' if is_made else 'not compiled'}, in {time.monotonic() - began:.0f} seconds", flush=True)
        return is_made

    def run(self) -> int:
        """Runs as many steps side by side as there are processors."""
        with concurrent.futures.ThreadPoolExecutor(kit.processors()) as pool:
            compiling = pool.submit(self.compiled)
            running = [pool.submit(self.step, *step) for step in WITHOUT_PROGRAM.items()]
            if compiling.result():
                steps = [step for step in WITH_PROGRAM.items() if step[0] not in self.left_out]
                running += [pool.submit(self.step, *step) for step in steps]
            else:
                self.failed += 1
            for step in running:
                step.result()
        for tool, lacks in self.left_out.items():
            print(f"not tried: tools/{tool}, which needs {lacks}")
        print(f"nothing was proved: tools/test proves everything. {(time.monotonic() - self.began) / 60:.1f} minutes")
        print("".join(f"failed: {line}\n" for line in self.failures), end="")
        print(f"{self.passed} passed, {self.failed} failed", flush=True)
        return 1 if self.failed else 0
