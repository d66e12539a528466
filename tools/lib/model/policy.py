"""The policy: who has which level in a profile, which profile decides, and what it says."""
import copy
from dataclasses import dataclass, field

from . import counting, names


@dataclass
class User:
    special: bool = False
    auditor: bool = False
    revoked: bool = False
    digest: str | None = None
    restricted: bool = False


@dataclass
class Profile:
    owner: str
    uacc: str
    warning: bool
    # the access list: levels by id and console, none for an entry that counts everywhere
    entries: dict = field(default_factory=dict)


@dataclass
class Policy:
    users: dict = field(default_factory=dict)
    groups: set = field(default_factory=set)
    connects: set = field(default_factory=set)  # user, group
    profiles: dict = field(default_factory=dict)  # by class and pattern
    active: set = field(default_factory=set)  # classes

    def copied(self) -> "Policy":
        profiles = {
            key: Profile(profile.owner, profile.uacc, profile.warning, dict(profile.entries))
            for key, profile in self.profiles.items()
        }
        users = {name: copy.copy(user) for name, user in self.users.items()}
        return Policy(users, set(self.groups), set(self.connects), profiles, set(self.active))


def source(policy: Policy, name: str, entries: dict[str, str]) -> str | None:
    """The level that the first source in these entries gives to a user, or none: the own entry, the highest of the
    connect groups, the entry for everybody, which a RESTRICTED user skips. A later source never raises an earlier
    one."""
    if name in entries:
        counting.met["level by", "own entry"] += 1
        return entries[name]
    of_groups = [entries[group] for user, group in policy.connects if user == name and group in entries]
    if of_groups:
        counting.met["level by", "group entry"] += 1
        return names.highest(of_groups)
    if "*" in entries and policy.users[name].restricted:
        counting.met["level by", "* skipped by a RESTRICTED user"] += 1
    elif "*" in entries:
        counting.met["level by", "* entry"] += 1
        return entries["*"]
    return None


def held(policy: Policy, profile: Profile, name: str, console: str | None) -> str:
    """The level that a user has in a profile at a console, or at none: the higher of what the entries that count
    everywhere give, with the universal access after them, and of what those for the console give."""
    plain = source(policy, name, {id: level for (id, when), level in profile.entries.items() if when is None})
    if plain is None:
        restricted = policy.users[name].restricted
        counting.met["level by", "universal access skipped" if restricted else "universal access"] += 1
        plain = "NONE" if restricted else profile.uacc
    at_console = {id: level for (id, when), level in profile.entries.items() if when is not None and when == console}
    raised = source(policy, name, at_console) or "NONE"
    if at_console:
        counting.met["level by", "entries at the console"] += 1
    if not names.is_at_least(plain, raised):
        counting.met["level by", "raised at the console"] += 1
    return names.highest([plain, raised])


def covering(policy: Policy, of: str, resource: str) -> list[str]:
    """The patterns of a class that cover a name, the most specific first."""
    return names.in_order(
        [pattern for own, pattern in policy.profiles if own == of and names.covers(pattern, resource)]
    )


def deciding(policy: Policy, of: str, resource: str) -> str | None:
    """The covering pattern that no other covering one is before, or none."""
    found = covering(policy, of, resource)
    least = [pattern for pattern in found if not any(names.before(other, pattern) for other in found)]
    assert len(least) == bool(found)
    return least[0] if found else None


def verdict(policy: Policy, of: str, resource: str, name: str, needed: str, console: str | None) -> tuple[str, str]:
    """ALLOWED, DENIED or UNDECIDED, with the rule: by the deciding profile alone."""
    pattern = deciding(policy, of, resource)
    if of not in policy.active or pattern is None:
        counting.met["verdict", "no profile" if of in policy.active else "inactive class"] += 1
        return "UNDECIDED", "NOPROFILE"
    profile = policy.profiles[of, pattern]
    has = held(policy, profile, name, console)
    rule = f"PROFILE {of} {pattern} HELD {has} NEEDED {needed}"
    if names.is_at_least(has, needed):
        counting.met["verdict", "allowed"] += 1
        return "ALLOWED", rule
    counting.met["verdict", "warned" if profile.warning else "denied"] += 1
    return ("ALLOWED", f"{rule} WARNED") if profile.warning else ("DENIED", rule)


def is_passed_by_warning(rule: str) -> bool:
    return rule.endswith(" WARNED")
