"""The register, the member lists and the judging of requests, as docs/RULES.md and docs/FAULTS.md state them.

Patterns are matched by Python's regular expressions, blocks by its ipaddress, windows by its datetime.
"""
import datetime
import re
from dataclasses import dataclass
from typing import Any

import cover
import notes

FIRST_DAY = datetime.datetime(2000, 1, 1)
LAST_INSTANT = 3_155_759_999
LAST_POLICY = 63
LAST_RULE_NUMBER = 1_023
MOST_ROWS = 256
MOST_TARGETS = 4_096
MOST_PAIRS = 8
MOST_LEAVERS = 16
MISSING = object()  # a part that a request does not have


# Refusals


class Refusal(Exception):
    """A fault of the register itself."""

    def __str__(self):
        return f"refused {self.args[0]} at 0 register"


class NoteRefusal(Exception):
    """The fault of a note, with the policy and the rule number of the addition."""

    def __str__(self):
        fault, policy, number = self.args
        return f"{fault} in policy {policy} rule {number}"


def require(condition, number):
    if not condition:
        raise Refusal(number)


def require_text(kind, text):
    require(notes.lawful_text(kind, text), 13)


def require_policy(policy):
    require(policy <= LAST_POLICY, 8)


def require_place(policy, number):
    require(policy <= LAST_POLICY and number <= LAST_RULE_NUMBER, 8)


def require_instant(instant):
    require(instant <= LAST_INSTANT, 14)


def require_country(country):
    require(country is MISSING or re.fullmatch("[A-Z][A-Z]", country), 15)


# Member lists: each answers whether an identity has a standing


class FlatRoll:
    """Rows with unlawful texts may stand here: they equal nothing that is asked for."""

    def __init__(self):
        self.rows = []

    def append(self, identity, standing):
        self.rows.append((identity, standing))

    def has(self, identity, standing):
        return (identity, standing) in self.rows


class TokenLayer:
    def __init__(self, below):
        self.below = below
        self.pairs = []

    def present(self, identity, standing):
        require_text("identity", identity)
        require_text("standing", standing)
        if (identity, standing) not in self.pairs:
            require(len(self.pairs) < MOST_PAIRS, 21)
            self.pairs.append((identity, standing))

    def clear(self):
        self.pairs.clear()

    def has(self, identity, standing):
        return (identity, standing) in self.pairs or self.below.has(identity, standing)


class LeaversLayer:
    def __init__(self, below):
        self.below = below
        self.leavers = []

    def leave(self, identity):
        require_text("identity", identity)
        if identity not in self.leavers:
            require(len(self.leavers) < MOST_LEAVERS, 21)
            self.leavers.append(identity)

    def readmit(self, identity):
        require_text("identity", identity)
        if identity in self.leavers:
            self.leavers.remove(identity)

    def has(self, identity, standing):
        return identity not in self.leavers and self.below.has(identity, standing)


def member_lists():
    """The flat roll, the token layer over it, the leavers layer over that."""
    roll = FlatRoll()
    tokens = TokenLayer(roll)
    return roll, tokens, LeaversLayer(tokens)


# Requests


@dataclass(frozen=True)
class Target:
    kind: str  # target or policy
    number: int


@dataclass(frozen=True)
class Request:
    """Child type, address and country may be MISSING. A country is two characters, one for each byte."""

    target: Target
    identity: bytes
    authenticated: bool
    operation: str
    instant: int
    child_type: Any = MISSING
    address: Any = MISSING
    country: Any = MISSING


# Originator entries


def pattern_matches(pattern, identity, home):
    form = cover.full_form(pattern, home)
    return re.fullmatch(cover.expression(form), identity, re.DOTALL) is not None


def domain_matches(domain, identity):
    return identity.startswith(b"//" + domain + b"/")


def entry_matches(entry, identity, home, members):
    if entry.kind == "all":
        return True
    if entry.kind == "pattern":
        return pattern_matches(entry.text, identity, home)
    if entry.kind == "domain":
        return domain_matches(entry.text, identity)
    return members.has(identity, entry.text)


# Constraints


def calendar(instant):
    """The seven values of an instant, in the order of a window's sets."""
    time = FIRST_DAY + datetime.timedelta(seconds=instant)
    return time.second, time.minute, time.hour, time.day, time.month, time.isoweekday() % 7, time.year


def window_admits(window, instant):
    return all(value in members for value, members in zip(calendar(instant), window.sets))


def block_admits(block, address):
    return address in block


def country_admits(country, other):
    return country == other


def list_admits(items, value, admits):
    return not items or (value is not MISSING and any(admits(item, value) for item in items))


# The conditions under which a rule admits a request


def flag_admits(rule, request):
    return not rule.authenticated or request.authenticated


def operation_admits(rule, request):
    return request.operation in rule.operations


def types_admit(rule, request):
    return request.operation != "create" or not rule.types or request.child_type in rule.types


def context_admits(context, request):
    return (
        list_admits(context.windows, request.instant, window_admits)
        and list_admits(context.blocks, request.address, block_admits)
        and list_admits(context.countries, request.country, country_admits)
    )


def contexts_admit(rule, request):
    return not rule.contexts or any(context_admits(context, request) for context in rule.contexts)


def originators_admit(rule, request, home, members):
    return any(entry_matches(entry, request.identity, home, members) for entry in rule.originators)


def admits(rule, request, home, members):
    return (
        flag_admits(rule, request)
        and operation_admits(rule, request)
        and types_admit(rule, request)
        and contexts_admit(rule, request)
        and originators_admit(rule, request, home, members)
    )


# The register


@dataclass(frozen=True)
class Permit:
    """The admitting rule that is named, and how many admit."""

    policy: int
    number: int
    count: int


def permit(places):
    """A permit by the rules in these places, each a policy and a rule number; None if there is no rule."""
    if not places:
        return None
    policy, number = min(places)
    return Permit(policy, number, len(places))


class Register:
    def __init__(self, home, rows, targets):
        require_text("domain", home)
        self.home = home
        self.used_rows = min(rows, MOST_ROWS)
        self.used_targets = min(targets, MOST_TARGETS)
        self.rules = {}  # by policy and rule number
        self.links = set()  # of target number and policy

    def require_target(self, number):
        require(number < self.used_targets, 9)

    def require_link(self, target, policy):
        self.require_target(target)
        require_policy(policy)

    def add(self, policy, number, note):
        require_place(policy, number)
        try:
            rule = notes.read(note)
        except notes.Fault as fault:
            raise NoteRefusal(fault, policy, number)
        require((policy, number) not in self.rules, 10)
        require(len(self.rules) < self.used_rows, 12)
        self.rules[policy, number] = rule

    def withdraw(self, policy, number):
        require_place(policy, number)
        require((policy, number) in self.rules, 11)
        del self.rules[policy, number]

    def link(self, target, policy):
        self.require_link(target, policy)
        self.links.add((target, policy))

    def unlink(self, target, policy):
        self.require_link(target, policy)
        self.links.discard((target, policy))

    def require_request(self, request):
        require_text("identity", request.identity)
        if request.target.kind == "policy":
            require_policy(request.target.number)
        else:
            self.require_target(request.target.number)
        require_instant(request.instant)
        require_country(request.country)

    def eligible(self, target, policy, rule):
        if target.kind == "policy":
            return rule.side == "selfPrivileges" and policy == target.number
        return rule.side == "privileges" and (target.number, policy) in self.links

    def admitting(self, request, members):
        """The places of the eligible rules that admit."""
        return [
            (policy, number)
            for (policy, number), rule in self.rules.items()
            if self.eligible(request.target, policy, rule) and admits(rule, request, self.home, members)
        ]

    def judge(self, request, members):
        """A Permit, or None to deny."""
        self.require_request(request)
        return permit(self.admitting(request, members))
