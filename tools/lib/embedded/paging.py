"""The page: one file, of its parts in embedding/page."""
import base64
import gzip
import hashlib

from lib.files import bytes_of
from lib.places import TOP

HERE = f"{TOP}/embedding/page"
# the parts of the script; the first alone asks
SCRIPTS = ("asking.js", "meanings.js", "page.js")
MOST, MOST_UNPROVED = 600_000, 800_000  # bytes
RULES = (
    "default-src 'none'; script-src {script} 'wasm-unsafe-eval'; style-src {style}; base-uri 'none'; form-action 'none'"
)


def text(name: str) -> str:
    return bytes_of(f"{HERE}/{name}").decode()


def digest(part: str) -> str:
    return f"'sha256-{base64.b64encode(hashlib.sha256(part.encode()).digest()).decode()}'"


def packed(module: bytes) -> str:
    return base64.b64encode(gzip.compress(module, 9, mtime=0)).decode()


def asking(module: bytes) -> str:
    """The part of the script that asks, for a test without a browser."""
    return text(SCRIPTS[0]).replace("{{module}}", packed(module))


def page(module: bytes, version: str) -> str:
    """The page with a module in it. A browser loads nothing, and runs nothing but what has these digests."""
    style = text("page.css")
    script = '"use strict";\n' + "\n".join([asking(module), *map(text, SCRIPTS[1:])])
    rules = RULES.format(script=digest(script), style=digest(style))
    made = text("page.html").replace("{{policy}}", rules).replace("{{version}}", version)
    return made.replace("{{style}}", style).replace("{{script}}", script)
