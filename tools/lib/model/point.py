"""Requests to `decide` over HTTP: what one comes to, and the exact bytes of its response."""
from . import counting, decide, exchange
from .decide import Present
from .exchange import PHRASES, Sent, Unread
from .told import Told

PATHS = {
    "evaluation": "/access/v1/evaluation", "evaluations": "/access/v1/evaluations",
    "subject": "/access/v1/search/subject", "action": "/access/v1/search/action",
    "resource": "/access/v1/search/resource",
}
CONFIGURATION = "/.well-known/authzen-configuration"
ROUTES = {
    **{kind: ("POST", path) for kind, path in PATHS.items()},
    "configuration": ("GET", CONFIGURATION.replace(".", r"\.")),
}
LONGEST_ID = 128
SOCKET_BASE = "http://localhost"


def local_base(port: int) -> str:
    return f"http://127.0.0.1:{port}"


def configuration(base: str) -> dict[str, str]:
    """Where questions are asked."""
    return {
        "access_evaluation_endpoint": base + PATHS["evaluation"],
        "access_evaluations_endpoint": base + PATHS["evaluations"],
        "policy_decision_point": base,
        "search_action_endpoint": base + PATHS["action"],
        "search_resource_endpoint": base + PATHS["resource"],
        "search_subject_endpoint": base + PATHS["subject"],
    }


def id_of(sent: Sent) -> str | None:
    """The id that the response repeats."""
    found = [value.strip(" \t") for name, value in sent.fields if name.lower() == "x-request-id"]
    is_id = len(found) == 1 and 1 <= len(found[0]) <= LONGEST_ID and all("!" <= it <= "~" for it in found[0])
    return found[0] if is_id else None


def exchanged(held: Present | None, base: str, sent: Sent, strict: int | None = None) -> tuple[bytes, Told]:
    """The response to what was sent, by the policy that is there, also by a strict service at this port; and what the
    log has of it."""
    more: list[str] = []
    try:
        exchange.wants_head(sent, None)
        more = [f"X-Request-ID: {id}"] if (id := id_of(sent)) else []
        exchange.wants_head(sent, strict)
        route, _ = exchange.routed(sent, ROUTES)
        body = exchange.body_of(sent)
    except Unread as unread:
        counting.met["decide", f"H{unread.status}"] += 1
        code = f"H{unread.status}"
        refusal = {"code": code, "rule": "-", "status": "refused", "text": PHRASES[unread.status]}
        return exchange.response(unread.status, refusal, unread.allow, more), Told(status=unread.status, verdict=code)
    if route == "configuration":
        return exchange.response(200, configuration(base), more=more), Told(status=200)
    reply = decide.reply(held, route, body)
    return exchange.response(reply.status, reply.value, more=more), reply.told
