"""Reads the bytes of a request as the rules have it: a head by the grammar of RFC 9112 as `httparse` reads it by
default, and the body after it."""
import re

from lib.model.exchange import Sent

MOST, FIELDS = 8_192, 32  # bytes of a head, and its fields
TOKEN = rb"[A-Za-z0-9!#$%&'*+.^_`|~-]+"
END = rb"\r?\n"
FIELD = re.compile(rb"(%s):([\t\x20-\x7e\x80-\xff]*)%s" % (TOKEN, END))
HEAD = re.compile(
    rb"(?:%s)*(%s) ([\x21-\x7e\x80-\xff]+) HTTP/1\.([01])%s((?:%s:[\t\x20-\x7e\x80-\xff]*%s)*)%s"
    % (END, TOKEN, END, TOKEN, END, END)
)
UNREAD = Sent("GET", "/", size=0)  # what the model takes for a head that is none


def sent(data: bytes) -> Sent:
    """What was sent, for the model; an invalid head is one that is cut."""
    found = HEAD.match(data[:MOST])
    if not found:
        return UNREAD
    method, target, minor, section = found.groups()
    fields = tuple((name.decode(), value.decode("latin-1")) for name, value in FIELD.findall(section))
    try:
        text = target.decode()
    except UnicodeDecodeError:
        return UNREAD
    if len(fields) > FIELDS:
        return UNREAD
    return Sent(method.decode(), text, data[found.end():], fields, f"1.{minor.decode()}")
