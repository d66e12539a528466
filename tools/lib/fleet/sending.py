"""One batch for all gates, by each of the examples, and what they say of each gate."""
import os
import re
import subprocess

from lib.places import TOP
from .gates import NUMBER, Gates

FLEET = f"{TOP}/examples/fleet"
# how often a gate is asked, and the seconds between; Ansible needs more time for each
ROUNDS, PAUSE, ANSIBLE_ROUNDS = 40, 0.2, 15
SAID = re.compile(r'(?m)^(?:ok|fatal): \[(\w+)\].*?=> \{\n(?:    .*\n)*?    "msg": "(.*?)"')
MISSED = re.compile(r"(?m)^fatal: \[(\w+)\]: FAILED! => \{.*Status code was -1")


def by_send(gates: Gates, folder: str, policy: str) -> tuple[int, dict[str, str]]:
    """The status of the script, and what it says of each gate."""
    with open(f"{folder}/gates", "w", encoding="utf-8") as file:
        file.writelines(f"{name} {gates.url(number)}\n" for number, name in enumerate(gates.names()))
    ran = subprocess.run(
        [f"{FLEET}/send", f"{folder}/gates", str(NUMBER), policy], stdin=subprocess.DEVNULL, stdout=subprocess.PIPE,
        text=True, env={**os.environ, "ROUNDS": str(ROUNDS), "PAUSE": str(PAUSE), "CURL": "--noproxy *"},
    )
    return ran.returncode, dict(line.split(" ", 1) for line in ran.stdout.splitlines())


def by_playbook(gates: Gates, folder: str, policy: str) -> tuple[int, dict[str, str]]:
    """The status of Ansible, and what its last task says of each host."""
    return playbook(folder, {name: gates.url(at) for at, name in enumerate(gates.names())}, policy)


def playbook(folder: str, urls: dict[str, str], policy: str) -> tuple[int, dict[str, str]]:
    """The same of these hosts, each with its `gate_url`."""
    with open(f"{folder}/inventory.yml", "w", encoding="utf-8") as file:
        file.write("gates:\n  hosts:\n")
        file.writelines(f"    {name}: {{gate_url: '{url}'}}\n" for name, url in urls.items())
    words = ["ansible-playbook", "-i", f"{folder}/inventory.yml", "-f", "8", f"{FLEET}/playbook.yml"]
    for pair in (f"number={NUMBER}", f"policy={policy}", f"rounds={ANSIBLE_ROUNDS}", "pause=0"):
        words += ["-e", pair]
    environment = {**os.environ, "ANSIBLE_NOCOLOR": "1", "ANSIBLE_HOME": folder, "no_proxy": "*"}
    ran = subprocess.run(words, stdin=subprocess.DEVNULL, stdout=subprocess.PIPE, text=True, env=environment)
    return ran.returncode, said_in(ran.stdout)


def said_in(printed: str) -> dict[str, str]:
    """What the playbook says of each host in the end."""
    return {**dict(SAID.findall(printed)), **{name: "no answer" for name in MISSED.findall(printed)}}
