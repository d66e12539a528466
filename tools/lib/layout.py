"""Which files of a crate are not in the layout of `rt fmt`."""
import os
import re
import tempfile

from lib import kit
from lib.places import TOP

OTHER = re.compile(r"(?m)^.* is not in the layout$")


def fault_of(crate: kit.Crate) -> str:
    """The files that are not in the layout, and what to run; nothing if all are. Changes no file."""
    with tempfile.TemporaryFile("w+", errors="replace") as out, open(os.devnull, "w") as nothing:
        status = kit.rtlib().fmt(crate.folder, "--check", out, diff=nothing)
        out.seek(0)
        said = out.read()
    if status == 0:
        return ""
    files = [os.path.relpath(path, TOP) for path in OTHER.findall(said)]
    return "\n".join([*(files or [f"{crate.name}: {said}"]), f"  rt fmt in crates/{crate.name} lays them out"])
