#!/usr/bin/env python3
"""Asks `opcmds decide` whether a user may enter a command, before something does it:

  ask.py USER COMMAND CONSOLE      prints `may: RULE` and ends with 0, or `may not: WHY` and ends with 1

DECIDE is the address of the service, by default http://127.0.0.1:8012. Whatever is no answer means no."""
import http.client
import json
import os
import sys
import urllib.request

AT = os.environ.get("DECIDE", "http://127.0.0.1:8012")


def may(user, command, console, at=AT):
    """Whether the user may, and the rule or why there is none."""
    body = {"subject": {"type": "user", "id": user}, "action": {"name": "enter"},
            "resource": {"type": "command", "id": command}, "context": {"console": console}}
    try:
        request = urllib.request.Request(at + "/access/v1/evaluation", json.dumps(body).encode(),
                                         {"Content-Type": "application/json"})
        with urllib.request.urlopen(request, timeout=5) as response:  # (what is not 200 is an error)
            answer = json.load(response)
        return answer["decision"] is True, answer.get("context", {}).get("rule")
    except (OSError, ValueError, http.client.HTTPException, LookupError, TypeError, AttributeError) as error:
        return False, repr(error)


if __name__ == "__main__":
    allowed, why = may(*sys.argv[1:4])
    print(f"{'may' if allowed else 'may not'}: {why}")
    sys.exit(not allowed)
