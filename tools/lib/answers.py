"""The exact bytes of responses, by the rules of requests over HTTP."""
import json

PHRASES = {
    200: "OK", 400: "Bad Request", 403: "Forbidden", 404: "Not Found", 405: "Method Not Allowed", 409: "Conflict",
    413: "Payload Too Large", 500: "Internal Server Error",
}


def response(status: int, body: dict[str, object], allow: str | None = None) -> bytes:
    text = json.dumps(body, separators=(",", ":"), ensure_ascii=False)
    fields = ["Content-Type: application/json", f"Content-Length: {len(text.encode())}"]
    fields += [f"Allow: {allow}"] if allow else []
    head = "\r\n".join([f"HTTP/1.1 {status} {PHRASES[status]}", *fields, "Connection: close", "", ""])
    return (head + text).encode()


def done(*lines: str, rule: str = "-") -> bytes:
    return response(200, {"lines": list(lines), "rule": rule, "status": "done"})


def status_of(code: str) -> int:
    """The status of a fault, by its number."""
    number = int(code[1:])
    if number == 10:
        return 404
    if 11 <= number <= 21 or number in (50, 51):
        return 403
    if 30 <= number <= 45 or 52 <= number <= 56:
        return 409
    return 500 if number in (90, 91) else 400


def refused(code: str, text: str, rule: str = "-") -> bytes:
    """A refusal by the gate, with its code, the text of the fault, and the rule."""
    return response(status_of(code), {"code": code, "rule": rule, "status": "refused", "text": text})


def unread(status: int, allow: str | None = None) -> bytes:
    """A refusal of what is no valid request."""
    return response(status, {"code": f"H{status}", "rule": "-", "status": "refused", "text": PHRASES[status]}, allow)
