#!/usr/bin/env python3
"""What the journal program has to answer.

  journal_expected.py            writes crates/journal/stdout, from the files named in crates/journal/args
  journal_expected.py FILE ...   prints the answers to these files

A reading of the journal's format of its own, with dates by Python's datetime, notes by notes.py, covering by cover.py,
and the register and the member lists by register.py.
"""
import datetime
import ipaddress
import pathlib
import re
import sys

sys.dont_write_bytecode = True  # leaves no tools/__pycache__
import cover
import notes
import register
from register import MISSING

CRATE = pathlib.Path(__file__).resolve().parent.parent / "crates" / "journal"


# Readers of words: each answers None to a word that it cannot read


def decimal(word, most):
    digits = re.fullmatch(rb"0*([0-9]{1,10})", word)
    if digits and int(digits[1]) <= most:
        return int(digits[1])


def number(word):
    return decimal(word, 2**32 - 1)


def table_length(word):
    return decimal(word, 100_000)


def any_word(word):
    return word or None


def row_text(word):
    return word if 1 <= len(word) <= 40 else None


def note(word):
    if word == b"-":
        return b""
    if re.fullmatch(rb"([0-9A-Fa-f]{2})+", word):
        return bytes.fromhex(word.decode())


def target(word):
    kind, colon, rest = word.partition(b":")
    if kind in (b"target", b"policy") and colon and number(rest) is not None:
        return register.Target(kind.decode(), number(rest))


def authentication(word):
    return {b"authenticated": True, b"unauthenticated": False}.get(word)


def operation(word):
    return {name.encode(): name for name in notes.OPERATIONS}.get(word)


def child_type(word):
    return MISSING if word == b"-" else decimal(word, 65_535)


def address(word):
    """A dotted tail and a zone, which ipaddress would read, are no part of an IPv6 address here."""
    if word == b"-":
        return MISSING
    try:
        if re.fullmatch(rb"[0-9.]+", word):
            return ipaddress.IPv4Address(word.decode())
        if re.fullmatch(rb"[0-9A-Fa-f:]+", word):
            return ipaddress.IPv6Address(word.decode())
    except ValueError:
        return None


def country(word):
    if word == b"-":
        return MISSING
    return word.decode("latin-1") if len(word) == 2 else None


# Each kind of word: its name in a reason, and its reader
KINDS = {
    "INSTANT": ("an instant (0 to 4294967295, in digits)", number),
    "HOME": ("a home domain", any_word),
    "LENGTH": ("a table length (0 to 100000, in digits)", table_length),
    "POLICY": ("a policy (0 to 4294967295, in digits)", number),
    "RULE": ("a rule number (0 to 4294967295, in digits)", number),
    "TARGETNO": ("a target number (0 to 4294967295, in digits)", number),
    "NOTE": ("a note (pairs of hexadecimal digits, or -)", note),
    "IDENTITY": ("an identity", any_word),
    "STANDING": ("a standing", any_word),
    "ROW-IDENTITY": ("an identity (at most 40 bytes)", row_text),
    "ROW-STANDING": ("a standing (at most 40 bytes)", row_text),
    "TARGET": ("a target (target: or policy:, and a number)", target),
    "AUTH": ("authenticated or unauthenticated", authentication),
    "OPERATION": ("an operation", operation),
    "TYPE": ("a resource type (0 to 65535, in digits, or -)", child_type),
    "ADDRESS": ("an address (IPv4, IPv6 or -)", address),
    "COUNTRY": ("a country (two bytes, or -)", country),
}

# Each call that is served, with the kinds of its words
CALLS = {
    "when": "INSTANT",
    "open": "HOME LENGTH LENGTH",
    "add": "POLICY RULE NOTE",
    "withdraw": "POLICY RULE",
    "link": "TARGETNO POLICY",
    "unlink": "TARGETNO POLICY",
    "member": "ROW-IDENTITY ROW-STANDING",
    "present": "IDENTITY STANDING",
    "clear": "",
    "leave": "IDENTITY",
    "readmit": "IDENTITY",
    "judge": "TARGET IDENTITY AUTH OPERATION INSTANT TYPE ADDRESS COUNTRY",
    "read": "NOTE",
    "write": "NOTE",
    "cover": "NOTE NOTE",
}
NOT_SERVED = ["role", "request"]
# Known here, and not served by the program yet: what is written for its test says so.
NOT_SERVED_BY_PROGRAM = "open add withdraw link unlink member present clear leave readmit judge cover".split()


class Unreadable(Exception):
    def __str__(self):
        return f"unreadable: {self.args[0]}"


def unexpected(expected, place, words):
    if place > len(words):
        found = "none"
    else:
        found = "another word" if words[place - 1] else "an empty word"
    return Unreadable(f"expected {expected} at word {place}, found {found}")


def values(words, kinds):
    """The values of the words after the name of a call."""
    values = []
    for place, (kind, reader) in enumerate(kinds, start=2):
        value = reader(words[place - 1]) if place <= len(words) else None
        if value is None:
            raise unexpected(kind, place, words)
        values.append(value)
    end = len(kinds) + 2
    if len(words) >= end:
        raise unexpected("the end of the line", end, words)
    return values


# Calls


class Program:
    """The calls that are served, and what one leaves to the next."""

    def __init__(self):
        self.home = None  # of the open register
        self.register = None
        self.roll, self.tokens, self.leavers = register.member_lists()

    def opened(self):
        if self.home is None:
            raise Unreadable("no register is open")
        return self.register

    def when(self, seconds):
        try:
            time = datetime.datetime(2000, 1, 1) + datetime.timedelta(seconds=seconds)
        except OverflowError:
            time = None
        if time is None or time.year > 2099:
            return "refused 14 at 0 register"
        return time.strftime("%Y-%m-%d %H:%M:%S weekday %w")

    def open(self, home, rows, targets):
        try:
            self.register = register.Register(home, rows, targets)
        except register.Refusal as refusal:
            return str(refusal)
        self.home = home
        return "accepted"

    def add(self, policy, rule_number, note):
        self.opened().add(policy, rule_number, note)
        return "accepted"

    def withdraw(self, policy, rule_number):
        self.opened().withdraw(policy, rule_number)
        return "accepted"

    def link(self, target, policy):
        self.opened().link(target, policy)
        return "accepted"

    def unlink(self, target, policy):
        self.opened().unlink(target, policy)
        return "accepted"

    def member(self, identity, standing):
        self.roll.append(identity, standing)
        return "accepted"

    def present(self, identity, standing):
        self.tokens.present(identity, standing)
        return "accepted"

    def clear(self):
        self.tokens.clear()
        return "accepted"

    def leave(self, identity):
        self.leavers.leave(identity)
        return "accepted"

    def readmit(self, identity):
        self.leavers.readmit(identity)
        return "accepted"

    def judge(self, *parts):
        permit = self.opened().judge(register.Request(*parts), self.leavers)
        return f"permit policy {permit.policy} rule {permit.number} of {permit.count}" if permit else "deny"

    def read(self, note):
        return notes.words(notes.read(note))

    def write(self, note):
        return "note " + notes.write(notes.read(note)).hex()

    def cover(self, first, second):
        self.opened()
        one = notes.read(first)
        other = notes.read(second)
        return "covers" if cover.covers(one, other, self.home) else "does not cover"

    def call(self, words):
        name = words[0].decode("latin-1")
        if name in NOT_SERVED:
            raise Unreadable(f"{name} is not served yet")
        if name not in CALLS:
            raise unexpected("the name of a call", 1, words)
        kinds = [KINDS[kind] for kind in CALLS[name].split()]
        return getattr(self, name)(*values(words, kinds))

    def answer(self, line):
        try:
            return self.call(line.split(b" "))
        except (Unreadable, notes.Fault, register.Refusal, register.NoteRefusal) as reason:
            return str(reason)


# Journals


def lines_of(path):
    lines = path.read_bytes().split(b"\n")
    return lines if lines[-1] else lines[:-1]


def answers(lines):
    """Each line with its answer; None for a line that is no call."""
    program = Program()
    for line in lines:
        yield line, program.answer(line) if line and not line.startswith(b"#") else None


# What an answer is counted as, by its first word
COUNTED = {
    "accepted": "accepted",
    "refused": "refused",
    "permit": "permitted",
    "deny": "denied",
    "unreadable:": "unreadable",
}


def output(lines):
    """The lines of the output, with the closing sum."""
    counts = dict.fromkeys(["calls", *COUNTED.values()], 0)
    for line, answer in answers(lines):
        if answer is None:
            yield line
            continue
        counts["calls"] += 1
        first = answer.split()[0]
        if first in COUNTED:
            counts[COUNTED[first]] += 1
        yield line + b" -> " + answer.encode()
    yield " ".join("%s %d" % pair for pair in counts.items()).encode()


def expected(paths):
    lines = [line for path in paths for line in lines_of(path)]
    return b"".join(line + b"\n" for line in output(lines))


def main(names):
    if names:
        sys.stdout.buffer.write(expected(map(pathlib.Path, names)))
    else:
        NOT_SERVED.extend(NOT_SERVED_BY_PROGRAM)
        names = (CRATE / "args").read_text().split()
        (CRATE / "stdout").write_bytes(expected(CRATE / "data" / name for name in names))


if __name__ == "__main__":
    main(sys.argv[1:])
