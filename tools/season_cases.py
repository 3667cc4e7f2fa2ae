#!/usr/bin/env python3
"""Writes crates/journal/data/season.journal: long seasons of random calls on registers and member lists.

Each call is drawn with a fixed seed. Many requests are aimed at a rule of the register, and some of these are then
broken in one part, so that about half of the requests are permitted and most denials have one reason only.
tools/season_check.py shows what the cases find.
"""
import collections
import ipaddress
import pathlib
import random
import sys
from dataclasses import replace

sys.dont_write_bytecode = True  # leaves no tools/__pycache__
import journal_expected
import notes
import register
from cover_rules import block, maybe, window
from notes import Context, Originator, Rule, Window
from register import MISSING, Request, Target

FILE = pathlib.Path(__file__).resolve().parent.parent / "crates/journal/data/season.journal"
SEED = 2096
CHAPTERS = 15
CALLS_OF_A_CHAPTER = 172

# Texts

HOMES = ("m2msp.org", "other.example", "d")
IDENTITIES = (
    "//m2msp.org/S988 //m2msp.org/myCSE7/C9886 //m2msp.org/mycse/C98 //m2msp.org/myCSE/C98 //m2msp.org/myCSE //m2msp.org/a //m2msp.org/ab "
    "//m2msp.org/ab/c //d/a //d/S988 //d/ab/c //d.e/ab/c //other.example/S988 //other.example/ab/c "
    "//m2msp.org.example/S988 //m2msp.org/s988 //D/a //other.example/myCSE //a-first-segment-of-26-bytes/S988"
).split() + ["//d/" + "a" * 36]
CROWD = [f"//crowd/{number}" for number in range(9)]
STANDINGS = ["s", "t", "S", "/obs/group7", "night-crew", "c" * 40]
DOMAINS = ("m2msp.org", "d", "d.e", "other.example", "m2msp", "org", "ab", "e", "a-domain-of-24-bytes-xxx")
PATTERNS = (
    "/S988 /S* /* /myCSE*/C98* /myCSE* /*/* //*/S988 //d/a* //d*/* //*/*/* //m2msp.org/*b /a* /*b* //d.e/ab/c "
    "//*.example/S988 /ab/c /** //d/ab/* //*/*S*8* /*Y*"
).split()
NO_IDENTITIES = ("S988", "/m2msp.org/S988", "//m2msp.org", "//a/b/c/d", "//a//b", "//m2msp.org/S9*", "//d/" + "a" * 37, "//d/a\xe9")
NO_STANDINGS = ("*", "s*", "c" * 41, "\t", "s\x7f")
NO_HOMES = ("*", "m2msp.org/", "d" * 25, "//d", "d\xe9")

# Numbers

POLICIES = (0, 1, 2, 3, 63)
RULE_NUMBERS = (0, 1, 2, 3, 4, 9, 10, 1023)
NO_POLICIES = (64, 65, 256, 4294967295)
NO_RULE_NUMBERS = (1024, 1025, 65536, 4294967295)
TYPES = (0, 0, 3, 4, 23, 65535)
COUNTRIES = ("CL", "PE", "CE", "LC")
NO_COUNTRIES = ("cl", "C1", "c\xc3", "--", "[A", "A[", "@Z", "A-")
LAST_INSTANT = 3_155_759_999
NO_INSTANTS = (3_155_760_000, 3_155_760_001, 4_294_967_295)
ADDRESSES = tuple(map(ipaddress.ip_address, "88.77.12.5 116.27.123.9 10.0.0.1 2001:db8:7::1 ::ffff:584d:c05 fe80::1:0:0:9".split()))
PREFIXES = {4: (0, 0, 1, 8, 15, 16, 17, 24, 31, 32), 6: (0, 0, 1, 10, 32, 48, 64, 96, 127, 128)}
# Notes with faults, by the number of the fault
NO_NOTES = {
    1: "- 11 1120 1120442f61 11210000 112800 112800040800 1128000141".split() + ["11280020" + "00" * 7],
    2: "1100 11a000 113800 112500 112001 112040 112069 112800a0 11280014 11280003".split(),
    3: ["11204161", "1120c12a", "112099" + "61" * 25],
    4: ["11280020" + "00" * 8, "11280020" + "ff" * 7 + "f0" + "00" * 8],
    5: ["112800041080", "11280004082c26800080"],
    6: ["112800016141", "112800014161"],
    7: ["11200000", "11280004082c26800001"],
}

# Words that cannot be read as their kind
NO_NUMBERS = ("-1", "+1", "4294967296", "0x1", "1.", "x", "-", "99999999999999999999", "1\r")
UNREADABLE = {
    "HOME": (),
    "IDENTITY": (),
    "STANDING": (),
    "INSTANT": NO_NUMBERS,
    "POLICY": NO_NUMBERS,
    "RULE": NO_NUMBERS,
    "TARGETNO": NO_NUMBERS,
    "LENGTH": ("100001", "-1", "x", "4294967296"),
    "NOTE": ("1", "112", "0x11", "1g", "--", "-00", "11-"),
    "ROW-IDENTITY": ("//d/" + "a" * 37, "a" * 41, "*" * 300),
    "ROW-STANDING": ("c" * 41, "c" * 42, "*" * 100),
    "TARGET": (
        "target policy target: policy: target:-1 Target:1 target:4294967296 policy:4294967296 rule:1 1 target:x "
        "target:1:1 target::1 policy:+1 POLICY:1 :1 target:-"
    ).split(),
    "AUTH": ("Authenticated", "auth", "-", "unauthenticate", "authenticatedd", "AUTHENTICATED"),
    "OPERATION": ("Create", "read", "creates", "-", "creat", "none", "NOTIFY"),
    "TYPE": ("65536", "65537", "100000", "131072", "--", "-1", "x", "4294967296", "all"),
    "ADDRESS": (
        "1.2.3 1.2.3.256 01.2.3.4 1.2.3.04 1.2.3.4.5 1.2.3. .1.2.3 1..2.3 ::ffff:88.77.0.1 fe80::1%eth0 1::2::3 "
        "1:2:3:4:5:6:7:8:9 12345:: ::: 1:2:3:4:5:6:7 ::1:2:3:4:5:6:7:8 1:2:3:4:5:6:7:8:: :1:2:3:4:5:6:7:8 "
        "1:2:3:4:5:6:7:8: 1:2:3:4::5:6:7:8 -- 1.2.3.4/8 ::/0 ::g 1.2.3.-4 x 1 : 1.2.3.0000 00.0.0.0 :1:: ::1: 1234"
    ).split(),
    "COUNTRY": ("C", "CLL", "---", "Chile", "c\xc3\xa9"),
}
# A line of each call that could be served
SAMPLES = {
    "open": "m2msp.org 8 8",
    "add": "1 9 112000",
    "withdraw": "1 9",
    "link": "1 1",
    "unlink": "1 1",
    "member": "//d/a s",
    "present": "//d/a s",
    "clear": "",
    "leave": "//d/a",
    "readmit": "//d/a",
    "judge": "target:1 //m2msp.org/S988 authenticated create 80100 4 88.77.12.5 CL",
    "cover": "112000 112000",
}


def unreadable_lines():
    """Lines that differ from a sample in one place: a word is missing, empty, unreadable or too many."""
    for name, sample in SAMPLES.items():
        words = [name, *sample.split()]
        for place, kind in enumerate(journal_expected.CALLS[name].split(), start=1):
            before, after = words[:place], words[place + 1 :]
            yield before
            for bad in ("", *UNREADABLE[kind]):
                yield before + [bad] + after
        yield words + ["x"]
        yield words + [""]
        yield ["", *words]
        yield [name.upper(), *words[1:]]
    yield from (["judge", *[""] * 8], ["add", "64", "0", "xyz"], ["judge", "target:x", "", "", "", "", "", "", "c"])
    for place in range(2, 10):
        yield ["judge", *("x:1 //d/a yes read -1 65536 1.2.3 C".split()[: place - 1])]
    yield from (["role", "//d/a", "retrieve", "3"], ["role"], ["request"], ["request", "", "x"])


# Rules


def some(rng, items, counts):
    return tuple(rng.choice(items) for _ in range(rng.choice(counts)))


def random_entry(rng):
    kind = rng.choices(notes.KINDS, weights=(0.6, 5, 2, 4))[0]
    texts = {"all": [""], "pattern": PATTERNS, "domain": DOMAINS, "standing": STANDINGS}[kind]
    return Originator(kind, rng.choice(texts).encode())


def random_values(rng, values):
    """A few values, or a run of them."""
    if maybe(rng, 0.5):
        return rng.sample(values, k=rng.randint(1, min(5, len(values) - 1)))
    first = rng.randrange(len(values))
    return values[first : first + rng.randint(1, len(values) // 2)]


def random_window(rng):
    names = rng.sample(list(notes.SETS), k=rng.choice((1, 1, 2, 3)))
    return window(**{name: random_values(rng, notes.SETS[name]) for name in names})


def random_block(rng):
    address = rng.choice(ADDRESSES)
    return block(int(address.version == 6), rng.choice(PREFIXES[address.version]), int(address))


def random_context(rng):
    return Context(
        tuple(random_window(rng) for _ in range(rng.choice((0, 0, 1, 1, 2)))),
        tuple(random_block(rng) for _ in range(rng.choice((0, 0, 1, 2)))),
        some(rng, COUNTRIES, (0, 0, 1, 2)),
    )


def random_rule(rng):
    return Rule(
        rng.choice(("privileges", "privileges", "selfPrivileges")),
        maybe(rng, 0.45),
        frozenset(name for name in notes.OPERATIONS if maybe(rng, 0.4)),
        tuple(random_entry(rng) for _ in range(rng.choice((1, 1, 1, 1, 2, 2, 3, 4)))),
        some(rng, TYPES, (0, 0, 0, 1, 2, 4)),
        tuple(random_context(rng) for _ in range(rng.choice((0, 0, 1, 1, 2)))),
    )


# Requests


def random_instant(rng):
    return rng.choice((rng.randint(0, LAST_INSTANT), rng.randint(0, 10**6), 0, LAST_INSTANT, 80_100, 80_099))


def instant_in(rng, window):
    """An instant that the window admits, if a few tries find one."""
    for _ in range(60):
        second, minute, hour, day, month, _, year = (rng.choice(sorted(members)) for members in window.sets)
        try:
            time = register.FIRST_DAY.replace(year, month, day, hour, minute, second)
        except ValueError:
            continue
        if time.isoweekday() % 7 in window.sets[5]:
            break
    else:
        return random_instant(rng)
    return int((time - register.FIRST_DAY).total_seconds())


def address_in(rng, network):
    host_bits = network.max_prefixlen - network.prefixlen
    return network.network_address + rng.choice((0, 2**host_bits - 1, rng.getrandbits(host_bits) if host_bits else 0))


def flipped(rng, address):
    """Another address, by one bit that is the last of a prefix."""
    prefix = rng.choice(PREFIXES[address.version]) or 1
    return type(address)(int(address) ^ 1 << address.max_prefixlen - prefix)


def random_address(rng):
    address = rng.choice(ADDRESSES)
    return rng.choice((MISSING, address, flipped(rng, address)))


def random_request(rng, targets):
    return Request(
        Target("target", rng.randrange(targets)) if targets and maybe(rng, 0.7) else Target("policy", rng.choice(POLICIES)),
        rng.choice(IDENTITIES).encode(),
        maybe(rng, 0.6),
        rng.choice(notes.OPERATIONS),
        random_instant(rng),
        rng.choice((MISSING, *TYPES)),
        random_address(rng),
        rng.choice((MISSING, *COUNTRIES)),
    )


def in_context(rng, request, context):
    parts = {}
    if context.windows:
        parts["instant"] = instant_in(rng, rng.choice(context.windows))
    if context.blocks:
        parts["address"] = address_in(rng, rng.choice(context.blocks))
    if context.countries:
        parts["country"] = rng.choice(context.countries)
    return replace(request, **parts)


def outside(window):
    """Windows that differ from this one in one set, which has the other values."""
    for place, values in enumerate(notes.SETS.values()):
        rest = frozenset(values) - window.sets[place]
        if rest:
            yield Window(window.sets[:place] + (rest,) + window.sets[place + 1 :])


def past_edges(rng, request, rule, context):
    """The request with one part moved out of what the rule admits, as little as can be."""
    if rule.types:
        yield replace(request, operation="create", child_type=rng.choice(rule.types))
        yield replace(request, operation="create", child_type=MISSING)
    for window in context.windows[:1]:
        for other in outside(window):
            yield replace(request, instant=instant_in(rng, other))
    for block in context.blocks:
        if block.prefixlen:
            bit = 1 << block.max_prefixlen - block.prefixlen
            yield replace(request, address=type(block.network_address)(int(block.network_address) ^ bit))
    for country in context.countries[:1]:
        yield replace(request, country=country[::-1])


def aimed_request(rng, opened, members, place, targets):
    """A request for which the rule in this place is eligible, and which it admits if that can be had."""
    rule = opened.rules[place]
    request = random_request(rng, targets)
    linked = sorted(target for target, policy in opened.links if policy == place[0])
    if rule.side == "selfPrivileges":
        request = replace(request, target=Target("policy", place[0]))
    elif linked:
        request = replace(request, target=Target("target", rng.choice(linked)))
    request = replace(request, authenticated=request.authenticated or rule.authenticated)
    if rule.operations:
        request = replace(request, operation=rng.choice(sorted(rule.operations)))
    if rule.types and request.operation == "create":
        request = replace(request, child_type=rng.choice(rule.types))
    if rule.contexts:
        request = in_context(rng, request, rng.choice(rule.contexts))
    matched = [
        identity
        for identity in map(str.encode, IDENTITIES)
        if any(register.entry_matches(entry, identity, opened.home, members) for entry in rule.originators)
    ]
    return replace(request, identity=rng.choice(matched)) if matched else request


def moved_instant(rng, instant):
    step = rng.choice((1, 60, 3600, 86400, 31 * 86400, 366 * 86400)) * rng.choice((-1, 1))
    return min(max(0, instant + step), LAST_INSTANT)


def moved_address(rng, address):
    if address is MISSING:
        return random_address(rng)
    return rng.choice((MISSING, flipped(rng, address), flipped(rng, address), rng.choice(ADDRESSES)))


BREAKABLE = "authenticated operation instant instant target child_type address address country identity identity".split()


def broken_request(rng, request):
    """One part is changed."""
    part = rng.choice(BREAKABLE)
    value = {
        "authenticated": lambda: not request.authenticated,
        "operation": lambda: rng.choice(notes.OPERATIONS),
        "instant": lambda: moved_instant(rng, request.instant),
        "target": lambda: Target(rng.choice(("target", "policy")), rng.choice((0, 1, 2, 3))),
        "child_type": lambda: rng.choice((MISSING, *TYPES)),
        "address": lambda: moved_address(rng, request.address),
        "country": lambda: rng.choice((MISSING, *COUNTRIES)),
        "identity": lambda: rng.choice(IDENTITIES).encode(),
    }[part]()
    return replace(request, **{part: value})


def faulty_request(rng, request, targets):
    """One or more parts are refused."""
    faults = {
        "identity": rng.choice(NO_IDENTITIES).encode("latin-1"),
        "target": rng.choice((Target("policy", rng.choice(NO_POLICIES)), Target("target", targets + rng.choice((0, 1, 5))))),
        "instant": rng.choice(NO_INSTANTS),
        "country": rng.choice(NO_COUNTRIES),
    }
    names = rng.sample(list(faults), k=rng.choice((1, 1, 2, 2, 3, 4)))
    return replace(request, **{name: faults[name] for name in names})


# Words


def zeros(rng, number):
    return "0" * rng.choice((0, 0, 0, 0, 0, 1, 3)) + str(number)


def address_words(rng, address):
    if address is MISSING:
        return "-"
    if address.version == 4:
        return str(address)
    groups = [f"{int(group, 16):x}" for group in address.exploded.split(":")]
    spellings = [address.exploded, address.compressed, address.exploded.upper(), ":".join(groups)]
    for place, group in enumerate(groups):
        if group == "0":  # :: in the place of this group alone
            spellings.append(":".join(groups[:place]) + "::" + ":".join(groups[place + 1 :]))
    return rng.choice(spellings)


def request_words(rng, request):
    child_type = "-" if request.child_type is MISSING else zeros(rng, request.child_type)
    return [
        f"{request.target.kind}:{zeros(rng, request.target.number)}",
        request.identity.decode("latin-1"),
        "authenticated" if request.authenticated else "unauthenticated",
        request.operation,
        zeros(rng, request.instant),
        child_type,
        address_words(rng, request.address),
        "-" if request.country is MISSING else request.country,
    ]


# Seasons


class Season:
    """Lines, and a program that has met them."""

    def __init__(self):
        self.rng = random.Random(SEED)
        self.program = journal_expected.Program()
        self.lines = []
        self.answers = []  # of the calls
        self.targets = 0  # in use
        self.broken_lines = [" ".join(words) for words in unreadable_lines()]
        self.rng.shuffle(self.broken_lines)

    def say(self, comment):
        if self.lines:
            self.lines.append(b"")
        self.lines.append(f"# {comment}".encode())

    def call(self, *words):
        line = " ".join(map(str, words)).encode("latin-1")
        self.lines.append(line)
        self.answers.append(self.program.answer(line))

    def open(self, home, rows, targets):
        self.targets = min(targets, register.MOST_TARGETS)
        self.call("open", home, rows, targets)

    def opened(self):
        return self.program.register

    # Random calls

    def place(self):
        """A policy and a rule number."""
        if maybe(self.rng, 0.05):
            return self.rng.choice(
                (
                    (self.rng.choice(NO_POLICIES), self.rng.choice(RULE_NUMBERS)),
                    (self.rng.choice(POLICIES), self.rng.choice(NO_RULE_NUMBERS)),
                )
            )
        return self.rng.choice(POLICIES), self.rng.choice(RULE_NUMBERS)

    def stored_place(self):
        places = sorted(self.opened().rules)
        return self.rng.choice(places) if places else self.place()

    def add(self):
        rng = self.rng
        policy, number = self.stored_place() if maybe(rng, 0.12) else self.place()
        if maybe(rng, 0.16):
            note = rng.choice(NO_NOTES[rng.choice(list(NO_NOTES))])
        else:
            note = notes.write(random_rule(rng)).hex()
        if maybe(rng, 0.1):
            note = note.upper()
        self.call("add", zeros(rng, policy), zeros(rng, number), note)

    def withdraw(self):
        policy, number = self.stored_place() if maybe(self.rng, 0.6) else self.place()
        self.call("withdraw", zeros(self.rng, policy), zeros(self.rng, number))

    def link_words(self):
        target = self.rng.randrange(self.targets + 2) if maybe(self.rng, 0.2) else self.rng.randrange(self.targets or 1)
        policy = self.rng.choice(NO_POLICIES) if maybe(self.rng, 0.08) else self.rng.choice(POLICIES)
        if maybe(self.rng, 0.06):
            target, policy = self.targets + self.rng.randrange(3), self.rng.choice(NO_POLICIES)
        return zeros(self.rng, target), zeros(self.rng, policy)

    def link(self):
        self.call("link", *self.link_words())

    def unlink(self):
        links = sorted(self.opened().links)
        self.call("unlink", *(self.rng.choice(links) if links and maybe(self.rng, 0.6) else self.link_words()))

    def identity(self):
        return self.rng.choice(NO_IDENTITIES if maybe(self.rng, 0.1) else IDENTITIES)

    def standing(self):
        return self.rng.choice(NO_STANDINGS if maybe(self.rng, 0.06) else STANDINGS)

    def member(self):
        identity, standing = self.identity(), self.standing()
        self.call("member", identity, standing)

    def present(self):
        pairs = self.program.tokens.pairs
        if pairs and maybe(self.rng, 0.2):
            self.call("present", *(text.decode() for text in self.rng.choice(pairs)))
        else:
            self.call("present", self.identity(), self.standing())

    def clear(self):
        self.call("clear")

    def leave(self):
        leavers = self.program.leavers.leavers
        if leavers and maybe(self.rng, 0.15):
            self.call("leave", self.rng.choice(leavers).decode())
        else:
            full = len(leavers) == register.MOST_LEAVERS
            names = NO_IDENTITIES if full and maybe(self.rng, 0.2) else CROWD if maybe(self.rng, 0.4) else IDENTITIES
            self.call("leave", self.rng.choice(names))

    def readmit(self):
        leavers = [identity.decode() for identity in self.program.leavers.leavers]
        self.call("readmit", self.rng.choice(leavers) if leavers and maybe(self.rng, 0.6) else self.identity())

    def judge(self):
        rng, rules = self.rng, self.opened().rules
        if rules and maybe(rng, 0.9):
            request = aimed_request(rng, self.opened(), self.program.leavers, self.stored_place(), self.targets)
            while maybe(rng, 0.5):
                request = broken_request(rng, request)
        else:
            request = random_request(rng, self.targets)
        if maybe(rng, 0.14):
            request = faulty_request(rng, request, self.targets)
        self.call("judge", *request_words(rng, request))

    def standing_scene(self):
        """An identity gets a standing that a rule names, leaves, and comes back."""
        rng = self.rng
        named = {
            (place, entry.text)
            for place, rule in self.opened().rules.items()
            for entry in rule.originators
            if entry.kind == "standing" and rule.operations
        }
        if not named:
            return
        place, standing = rng.choice(sorted(named))
        identity, other = rng.sample(IDENTITIES, k=2)
        self.call(rng.choice(("present", "present", "member")), identity, standing.decode())
        request = aimed_request(rng, self.opened(), self.program.leavers, place, self.targets)
        ask = ["judge", *request_words(rng, replace(request, identity=identity.encode()))]
        self.call(*ask)
        for leaver in (identity, other):
            self.call("leave", leaver)
        self.call(*ask)
        self.call("readmit", identity)
        self.call(*ask)
        if maybe(rng, 0.3):
            self.call("clear")
            self.call(*ask)
        self.call("readmit", other)

    def edge_scene(self):
        """A request that a rule with a context admits, and those just past its edges."""
        rng = self.rng
        places = sorted(place for place, rule in self.opened().rules.items() if rule.contexts and rule.operations)
        if not places:
            return
        place = rng.choice(places)
        rule = self.opened().rules[place]
        context = rng.choice(rule.contexts)
        request = aimed_request(rng, self.opened(), self.program.leavers, place, self.targets)
        request = in_context(rng, request, context)
        for one in (request, *past_edges(rng, request, rule, context)):
            self.call("judge", *request_words(rng, one))

    def refused_open(self):
        self.call("open", self.rng.choice(NO_HOMES), self.rng.randrange(300), self.rng.randrange(9))

    def broken_line(self):
        if self.broken_lines:
            self.call(self.broken_lines.pop())

    def draw(self, weights):
        name = self.rng.choices(list(weights), weights=weights.values())[0]
        getattr(self, name)()


CALM = {
    "add": 24,
    "withdraw": 7,
    "link": 9,
    "unlink": 3,
    "member": 2,
    "present": 4,
    "clear": 1,
    "leave": 2,
    "readmit": 3,
    "judge": 60,
    "standing_scene": 0.8,
    "edge_scene": 3,
    "refused_open": 1,
    "broken_line": 9,
}
CROWDED = CALM | {"present": 22, "leave": 26, "readmit": 4, "clear": 1.5, "add": 14}


def before_opening(season):
    season.say("No register is open. Member lists are kept all the same.")
    for name in ("add", "withdraw", "link", "unlink", "judge", "cover"):
        season.call(name, SAMPLES[name])
        season.call(name, SAMPLES[name], "x")
        season.call(name)
    for name in ("member", "present", "leave", "readmit", "clear"):
        season.call(*[name, SAMPLES[name]] if SAMPLES[name] else [name])
    season.refused_open()
    season.call("judge", SAMPLES["judge"])


def chapter(season, number):
    rng = season.rng
    crowded = number % 4 == 2
    rows = rng.choice((3, 5, 8)) if number % 3 == 1 else rng.choice((20, 40, 256, 300))
    season.say(f"Season {number}{', with many tokens and leavers' if crowded else ''}.")
    season.open(HOMES[number % 3] if number % 2 else HOMES[0], rows, rng.choice((3, 4, 6)))
    for _ in range(6):
        season.add()
        season.link()
    for _ in range(CALLS_OF_A_CHAPTER):
        season.draw(CROWDED if crowded else CALM)


def full_register(season):
    rng = season.rng
    season.say("300 rows and 5000 targets are handed in; 256 and 4096 of them are used.")
    season.open("m2msp.org", 300, 5000)
    places = [(policy, 3 * number) for policy in (5, 6, 62, 63) for number in range(64)]
    rng.shuffle(places)
    for target in (4095, 4096, 4999, 5000):
        for policy in (5, 6, 62, 63):
            season.call("link", target, policy)
    ask = "//m2msp.org/S988 authenticated retrieve 80100 - - -"
    for count, (policy, number) in enumerate(places, start=1):
        season.call("add", policy, number, rng.choice(("112000", "3f2000", "512000", "114000c173")))
        if count % 32 == 0 or count > 253:
            season.call("judge", "target:4095", ask)
    for policy, number in ((5, 1), (0, 0), (63, 1023)):
        season.call("add", policy, number, "112000")
        season.call("judge", "target:4095", ask)
    for policy, number in sorted(places)[:5] + places[:5]:
        season.call("withdraw", policy, number)
        season.call("judge", "target:4095", ask)
    for number in range(1, 12):
        season.call("add", 5, 1023 - number, "112000")
        season.call("judge", "target:4095", ask)
    for target in (4094, 4096, 5000):
        season.call("judge", f"target:{target}", ask)
    for policy in (5, 6, 62):
        season.call("unlink", 4095, policy)
        season.call("judge", "target:4095", ask)


def single_constraints(season):
    rng = season.rng
    season.say("Instants and countries are tested although there is no rule. Then rules with one block or one country.")
    season.open("m2msp.org", 4, 4)
    season.call("link", 3, 63)

    def ask(instant=80_100, address="-", country="-", target="target:3"):
        season.call("judge", target, "//d/a", "unauthenticated", "retrieve", instant, "-", address, country)

    def add(context):
        originators = (Originator("all"),)
        season.call("add", 63, 0, notes.write(Rule("privileges", False, {"retrieve"}, originators, (), (context,))).hex())

    for target in ("target:3", "policy:63"):
        for instant in NO_INSTANTS:
            ask(instant=instant, target=target)
        for country in NO_COUNTRIES:
            ask(country=country, target=target)
    for address in ADDRESSES:
        for prefix in dict.fromkeys(rng.sample(PREFIXES[address.version], k=5)):
            one = block(int(address.version == 6), prefix, int(address))
            add(Context(blocks=(one,)))
            beyond = int(address) ^ (1 << one.max_prefixlen - prefix if prefix else 0)
            for other in (one[0], one[-1], type(address)(beyond), rng.choice(ADDRESSES)):
                ask(address=address_words(rng, other))
            season.call("withdraw", 63, 0)
    for own in (("CL",), ("AZ", "ZA"), ("CL", "CL")):
        add(Context(countries=own))
        for country in ("CL", "CE", "PL", "LC", "AZ", "ZA", "AA", "ZZ", "-"):
            ask(country=country)
        season.call("withdraw", 63, 0)


def full_layers(season):
    season.say("A full token layer and a full leavers layer refuse and keep nothing.")
    ask = "unauthenticated retrieve 80100 - - -"
    season.open("m2msp.org", 4, 4)
    season.call("link", 0, 1)
    season.call("add", 1, 0, "1120c463726577")  # to the standing crew
    season.call("clear")
    for number in [*range(1, 9), 3, 9, 10, 1]:
        season.call("present", f"//crew/{number}", "crew")
    for pair in ("crew crew", "//crew/9 *", "crew *", "//crew/9 s", "//crew/8 crew"):
        season.call("present", pair)
    for number in (1, 8, 9, 10):
        season.call("judge", "target:0", f"//crew/{number}", ask)
    for leaver in [identity.decode() for identity in season.program.leavers.leavers]:
        season.call("readmit", leaver)
    for number in [*range(1, 5), *range(11, 23), 4, 8, 7, 11]:
        season.call("leave", f"//crew/{number}")
    for identity in NO_IDENTITIES:
        season.call("leave", identity)
        season.call("readmit", identity)
    for number in (1, 4, 7, 8, 9):
        season.call("judge", "target:0", f"//crew/{number}", ask)
    for number in [2, *range(11, 23)]:
        season.call("readmit", f"//crew/{number}")
        season.call("judge", "target:0", f"//crew/{number}", ask)
    season.call("clear")
    for number in (1, 2, 8):
        season.call("readmit", f"//crew/{number}")
        season.call("judge", "target:0", f"//crew/{number}", ask)


def no_rows(season):
    season.say("No rows, and no targets.")
    season.open("m2msp.org", 0, 2)
    for _ in range(12):
        season.draw({"add": 3, "link": 1, "judge": 1, "withdraw": 1})
    season.open("m2msp.org", 2, 0)
    for _ in range(12):
        season.draw({"add": 1, "link": 3, "unlink": 1, "judge": 2})


def build():
    season = Season()
    season.say("Random seasons. This file is written by tools/season_cases.py.")
    before_opening(season)
    for number in range(1, CHAPTERS + 1):
        chapter(season, number)
        if number == 5:
            full_register(season)
        if number == 9:
            no_rows(season)
        if number == 10:
            single_constraints(season)
        if number == 12:
            full_layers(season)
    season.say("What is left of the lines that cannot be read, and a last look at the register.")
    while season.broken_lines:
        season.broken_line()
    for _ in range(40):
        season.judge()
    return season


def main():
    season = build()
    FILE.write_bytes(b"".join(line + b"\n" for line in season.lines))
    answers = season.answers
    counts = collections.Counter(answer.split()[0].rstrip(":") for answer in answers)
    refusals = collections.Counter(int(answer.split()[1]) for answer in answers if answer.startswith("refused"))
    decided = counts["permit"] + counts["deny"]
    print(f"{FILE.stat().st_size} bytes, {len(season.lines)} lines, {len(answers)} calls")
    print(", ".join(f"{name} {count}" for name, count in counts.items()))
    print(f"permits: {counts['permit'] / decided:.1%} of {decided}")
    print("refusals:", ", ".join(f"{number}: {count}" for number, count in sorted(refusals.items())))
    print(f"{len({answer for answer in answers if answer.startswith('unreadable')})} different reasons for unreadable lines")


if __name__ == "__main__":
    main()
