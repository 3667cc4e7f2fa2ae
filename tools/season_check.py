#!/usr/bin/env python3
"""Shows what crates/journal/data/observatory.journal and season.journal find.

First, matches of patterns and blocks are compared in a second way. Then bugs are planted into register.py and
journal_expected.py, one at a time, and the answers that each changes are counted: at least two are wanted.
"""
import functools
import re
import sys
from dataclasses import replace

sys.dont_write_bytecode = True  # leaves no tools/__pycache__
import cover
import cover_check
import journal_expected
import notes
import observatory
import register
import season_cases
from journal_expected import Program
from planting import Bugs, answers, planted
from register import MISSING, LeaversLayer, Permit, Refusal, Register, Target, TokenLayer, require, require_text

# Planted bugs: what is wrong, where, and what is put there

BUGS = Bugs(register)
plant, bug = BUGS.plant, BUGS.bug


def always(*_):
    return True


# Bugs of admitting: flag, operations, child types

plant("the flag is not looked at", register, "flag_admits", always)
plant(
    "the flag asks for unauthenticated requests", register, "flag_admits",
    lambda r, q: not r.authenticated or not q.authenticated,
)
plant("the flag must equal the mark", register, "flag_admits", lambda r, q: r.authenticated == q.authenticated)
plant("every rule asks for authentication", register, "flag_admits", lambda r, q: q.authenticated)
plant("operations are not looked at", register, "operation_admits", always)
plant("operations are turned", register, "operation_admits", lambda r, q: q.operation not in r.operations)
plant(
    "a rule without operations admits all of them", register, "operation_admits",
    lambda r, q: not r.operations or q.operation in r.operations,
)
plant(
    "update stands for create", register, "operation_admits",
    lambda r, q: ("update" if q.operation == "create" else q.operation) in r.operations,
)
plant(
    "discover and notify are exchanged", register, "operation_admits",
    lambda r, q: {"discover": "notify", "notify": "discover"}.get(q.operation, q.operation) in r.operations,
)
plant("child types are not looked at", register, "types_admit", always)
plant(
    "child types are looked at for every operation", register, "types_admit",
    lambda r, q: not r.types or q.child_type in r.types,
)
plant(
    "child types are looked at for update too", register, "types_admit",
    lambda r, q: q.operation not in ("create", "update") or not r.types or q.child_type in r.types,
)
plant(
    "create without a child type is admitted", register, "types_admit",
    lambda r, q: q.operation != "create" or not r.types or q.child_type in (MISSING, *r.types),
)
plant(
    "a missing child type is type 0", register, "types_admit",
    lambda r, q: q.operation != "create" or not r.types or (0 if q.child_type is MISSING else q.child_type) in r.types,
)
plant(
    "create needs child types in the rule", register, "types_admit",
    lambda r, q: q.operation != "create" or q.child_type in r.types,
)
plant(
    "only the first child type counts", register, "types_admit",
    lambda r, q: q.operation != "create" or not r.types or q.child_type == r.types[0],
)
plant(
    "the last child type is not looked at", register, "types_admit",
    lambda r, q: q.operation != "create" or len(r.types) < 2 and types_admit(r, q) or q.child_type in r.types[:-1],
)
types_admit = register.types_admit

# Bugs of admitting: contexts

context_admits = register.context_admits
plant("contexts are not looked at", register, "contexts_admit", always)
plant("all contexts must admit", register, "contexts_admit", lambda r, q: all(context_admits(c, q) for c in r.contexts))
plant(
    "only the first context counts", register, "contexts_admit",
    lambda r, q: not r.contexts or context_admits(r.contexts[0], q),
)
plant(
    "only the last context counts", register, "contexts_admit",
    lambda r, q: not r.contexts or context_admits(r.contexts[-1], q),
)
plant(
    "a rule without contexts admits nothing", register, "contexts_admit",
    lambda r, q: any(context_admits(c, q) for c in r.contexts),
)


@bug("contexts are mixed", "contexts_admit")
def _(rule, request):
    only_windows = [replace(context, blocks=(), countries=()) for context in rule.contexts]
    the_rest = [replace(context, windows=()) for context in rule.contexts]
    return not rule.contexts or all(any(context_admits(c, request) for c in part) for part in (only_windows, the_rest))


for part in ("windows", "blocks", "countries"):
    plant(f"{part} are not looked at", register, "context_admits", lambda c, q, part=part: context_admits(replace(c, **{part: ()}), q))


@bug("one of the three lists is enough", "context_admits")
def _(context, request):
    none = {"windows": (), "blocks": (), "countries": ()}
    lists = [part for part in none if getattr(context, part)]
    return not lists or any(context_admits(replace(context, **{p: () for p in none if p != part}), request) for part in lists)


plant(
    "an empty context admits nothing", register, "context_admits",
    lambda c, q: any((c.windows, c.blocks, c.countries)) and context_admits(c, q),
)
plant(
    "a missing value is admitted by every list", register, "list_admits",
    lambda i, v, a: not i or v is MISSING or any(a(x, v) for x in i),
)
plant(
    "an empty list admits nothing", register, "list_admits",
    lambda i, v, a: v is not MISSING and any(a(x, v) for x in i),
)
plant(
    "an empty list does not admit a missing value", register, "list_admits",
    lambda i, v, a: v is not MISSING and (not i or any(a(x, v) for x in i)),
)
plant(
    "all items of a list must admit", register, "list_admits",
    lambda i, v, a: not i or v is not MISSING and all(a(x, v) for x in i),
)
plant(
    "only the first item of a list counts", register, "list_admits",
    lambda i, v, a: not i or v is not MISSING and a(i[0], v),
)
plant(
    "only the last item of a list counts", register, "list_admits",
    lambda i, v, a: not i or v is not MISSING and a(i[-1], v),
)

calendar = register.calendar


def without_set(window, instant, left_out):
    pairs = zip(calendar(instant), window.sets)
    return all(value in members for place, (value, members) in enumerate(pairs) if place != left_out)


for place, name in enumerate(notes.SETS):
    plant(f"{name} are not looked at", register, "window_admits", lambda w, i, place=place: without_set(w, i, place))


@bug("day and weekday are alternatives", "window_admits")
def _(window, instant):
    return without_set(window, instant, 3) or without_set(window, instant, 5)


@bug("weekday 0 is Monday", "calendar")
def _(instant):
    second, minute, hour, day, month, weekday, year = calendar(instant)
    return second, minute, hour, day, month, (weekday - 1) % 7, year


plant("instants are one second late", register, "calendar", lambda i: calendar(i + 1))
plant("months count from 0", register, "calendar", lambda i: tuple(v - (p == 4) for p, v in enumerate(calendar(i))))

plant("a country admits its first letter", register, "country_admits", lambda c, o: c[0] == o[0])
plant("a country admits its second letter", register, "country_admits", lambda c, o: c[1] == o[1])
plant("the letters of a country have no order", register, "country_admits", lambda c, o: sorted(c) == sorted(o))


def first_bits(block, address, width, less=0):
    shift = width - max(0, block.prefixlen - less)
    return int(block.network_address) >> shift == int(address) >> shift


plant(
    "a block does not compare the last bit of its prefix", register, "block_admits",
    lambda b, a: b.version == a.version and first_bits(b, a, b.max_prefixlen, 1),
)
plant("a block admits its own address only", register, "block_admits", lambda b, a: b.network_address == a)
plant(
    "a block of prefix length 0 admits both families", register, "block_admits",
    lambda b, a: b.prefixlen == 0 or a in b,
)
plant("a block of prefix length 0 admits nothing", register, "block_admits", lambda b, a: b.prefixlen != 0 and a in b)
plant(
    "a mapped address is of family 4", register, "block_admits",
    lambda b, a: (a.version == 6 and a.ipv4_mapped or a) in b,
)
plant(
    "blocks of family 6 compare 64 bits at most", register, "block_admits",
    lambda b, a: a in (b.supernet(new_prefix=64) if b.prefixlen > 64 else b),
)

# Bugs of originators

matches = register.entry_matches
pattern_matches = register.pattern_matches


def entries_bug(words, kind, function):
    """Entries of one kind are matched otherwise."""
    plant(words, register, "entry_matches", lambda e, i, h, m: function(e, i, h, m) if e.kind == kind else matches(e, i, h, m))


plant(
    "all entries must match", register, "originators_admit",
    lambda r, q, h, m: all(matches(e, q.identity, h, m) for e in r.originators),
)
plant(
    "only the first entry counts", register, "originators_admit",
    lambda r, q, h, m: matches(r.originators[0], q.identity, h, m),
)
plant(
    "only the last entry counts", register, "originators_admit",
    lambda r, q, h, m: matches(r.originators[-1], q.identity, h, m),
)
plant("originators are not looked at", register, "originators_admit", always)
entries_bug("all matches nothing", "all", lambda e, i, h, m: False)
entries_bug("all matches the home domain only", "all", lambda e, i, h, m: i.startswith(b"//" + h + b"/"))
entries_bug("domains match nothing", "domain", lambda e, i, h, m: False)
entries_bug("a domain matches the beginning of a segment", "domain", lambda e, i, h, m: i.startswith(b"//" + e.text))
entries_bug("a domain matches the end of a segment", "domain", lambda e, i, h, m: e.text + b"/" in i)
entries_bug(
    "a domain matches two segments only", "domain",
    lambda e, i, h, m: i.startswith(b"//" + e.text + b"/") and i.count(b"/") == 3,
)
entries_bug("standings match nothing", "standing", lambda e, i, h, m: False)
entries_bug("standings match everyone", "standing", always)
entries_bug(
    "any standing is enough", "standing",
    lambda e, i, h, m: any(m.has(i, s.encode()) for s in (*season_cases.STANDINGS, "night-crew")),
)
entries_bug(
    "case is not looked at in standings", "standing",
    lambda e, i, h, m: m.has(i, e.text) or m.has(i, e.text.swapcase()),
)
entries_bug("patterns match nothing", "pattern", lambda e, i, h, m: False)
entries_bug(
    "SP-relative patterns match in every domain", "pattern",
    lambda e, i, h, m: pattern_matches(e.text, i, b"*"),
)
entries_bug(
    "the home domain is always m2msp.org", "pattern",
    lambda e, i, h, m: pattern_matches(e.text, i, b"m2msp.org"),
)
entries_bug(
    "case is not looked at in patterns", "pattern",
    lambda e, i, h, m: pattern_matches(e.text.lower(), i.lower(), h.lower()),
)
entries_bug(
    "SP-relative patterns match nothing", "pattern",
    lambda e, i, h, m: e.text.startswith(b"//") and matches(e, i, h, m),
)
entries_bug(
    "absolute patterns match nothing", "pattern",
    lambda e, i, h, m: not e.text.startswith(b"//") and matches(e, i, h, m),
)
entries_bug(
    "a pattern matches a beginning", "pattern",
    lambda e, i, h, m: bool(re.match(cover.expression(cover.full_form(e.text, h)), i)),
)
entries_bug(
    "stars in the first segment are bytes", "pattern",
    lambda e, i, h, m: matches(e, i, h, m) and b"*" not in cover.full_form(e.text, h)[2:].split(b"/")[0],
)
plant("a star may stand for a slash", cover, "ANY", rb".*")
plant("a star needs at least one byte", cover, "ANY", rb"[^/]+")
plant("a star stands for one byte at most", cover, "ANY", rb"[^/]?")

# Bugs of judge

eligible = Register.eligible
judge = Register.judge
permit = register.permit


def other_target(target, number):
    return Target("policy" if target.kind == "target" else "target", number)


plant(
    "sides are not looked at", Register, "eligible",
    lambda s, t, p, r: any(eligible(s, t, p, replace(r, side=side)) for side in notes.SIDES),
)
plant(
    "sides are exchanged", Register, "eligible",
    lambda s, t, p, r: eligible(s, t, p, replace(r, side=notes.SIDES[r.side == "privileges"])),
)
plant(
    "links are not looked at", Register, "eligible",
    lambda s, t, p, r: eligible(s, t, p, r) or t.kind == "target" and r.side == "privileges",
)
plant(
    "a policy as target needs a link", Register, "eligible",
    lambda s, t, p, r: eligible(s, t, p, r) and (t.kind == "target" or any(p == policy for _, policy in s.links)),
)
plant(
    "selfPrivileges of all policies are eligible", Register, "eligible",
    lambda s, t, p, r: eligible(s, t, p, r) or t.kind == "policy" and r.side == "selfPrivileges",
)
plant(
    "only the lowest linked policy is eligible", Register, "eligible",
    lambda s, t, p, r: eligible(s, t, p, r) and (t.kind == "policy" or p == min(q for n, q in s.links if n == t.number)),
)
plant("policy 63 is never eligible", Register, "eligible", lambda s, t, p, r: eligible(s, t, p, r) and p != 63)


def named(words, choose, count=len):
    """Another rule is named, or another count is given."""
    plant(words, register, "permit", lambda places: Permit(*choose(places), count(places)) if places else None)


named("the lowest rule number is named, whatever its policy", lambda places: min(places, key=lambda place: place[::-1]))
named("the highest is named", max)
named("the rule that was added first is named", lambda places: places[0])
named("the rule that was added last is named", lambda places: places[-1])
named(
    "the highest number of the lowest policy is named",
    lambda places: max(place for place in places if place[0] == min(places)[0]),
)
named("the count is one too high", min, lambda places: len(places) + 1)
named("the count is one too low", min, lambda places: len(places) - 1)
named("the count is always 1", min, lambda places: 1)
named("policies are counted", min, lambda places: len({policy for policy, _ in places}))
named("the count ends at 255", min, lambda places: min(len(places), 255))


@bug("entries that match are counted", "judge", Register)
def _(self, request, members):
    answer = judge(self, request, members)
    if answer:
        places = self.admitting(request, members)
        entries = [entry for place in places for entry in self.rules[place].originators]
        answer = replace(answer, count=sum(matches(entry, request.identity, self.home, members) for entry in entries))
    return answer


@bug("two rules must admit", "judge", Register)
def _(self, request, members):
    answer = judge(self, request, members)
    return answer if answer and answer.count > 1 else None


TESTS = {
    "13": lambda s, q: require_text("identity", q.identity),
    "8/9": lambda s, q: register.require_policy(q.target.number) if q.target.kind == "policy" else s.require_target(q.target.number),
    "14": lambda s, q: register.require_instant(q.instant),
    "15": lambda s, q: register.require_country(q.country),
}


def judge_order(*order):
    def tests(self, request):
        for name in order:
            TESTS[name](self, request)

    plant("judge tests " + ", ".join(order), Register, "require_request", tests)


judge_order("8/9", "13", "14", "15")
judge_order("8/9", "14", "15", "13")
judge_order("13", "14", "8/9", "15")
judge_order("13", "8/9", "15", "14")
judge_order("13", "15", "8/9", "14")
for left_out in TESTS:
    judge_order(*(name for name in TESTS if name != left_out))


@bug("judge does not look at the number of a policy", "require_request", Register)
def _(self, request):
    for name in TESTS:
        if name != "8/9" or request.target.kind == "target":
            TESTS[name](self, request)


plant(
    "14 and 15 are raised only where a rule has contexts", Register, "require_request",
    lambda s, q: [TESTS[n](s, q) for n in TESTS if n in ("13", "8/9") or any(r.contexts for r in s.rules.values())],
)
plant(
    "15 is raised for a missing country", register, "require_country",
    lambda c: require(c is not MISSING and re.fullmatch("[A-Z][A-Z]", c), 15),
)
plant(
    "15 looks at the first letter only", register, "require_country",
    lambda c: require(c is MISSING or re.fullmatch("[A-Z].", c, re.DOTALL), 15),
)
plant(
    "15 looks at the second letter only", register, "require_country",
    lambda c: require(c is MISSING or re.fullmatch(".[A-Z]", c, re.DOTALL), 15),
)
plant(
    "lower case letters are letters", register, "require_country",
    lambda c: require(c is MISSING or re.fullmatch("[A-Za-z]{2}", c), 15),
)
plant("the last instant is refused", register, "LAST_INSTANT", register.LAST_INSTANT - 1)
plant("one instant too many", register, "LAST_INSTANT", register.LAST_INSTANT + 1)

# Bugs of the register

plant("policy 63 is refused", register, "LAST_POLICY", 62)
plant("policy 64 is accepted", register, "LAST_POLICY", 64)
plant("rule number 1023 is refused", register, "LAST_RULE_NUMBER", 1022)
plant("rule number 1024 is accepted", register, "LAST_RULE_NUMBER", 1024)
plant("255 rows are used", register, "MOST_ROWS", 255)
plant("257 rows are used", register, "MOST_ROWS", 257)
plant("all rows are used", register, "MOST_ROWS", 100_000)
plant("4095 targets are used", register, "MOST_TARGETS", 4_095)
plant("all targets are used", register, "MOST_TARGETS", 100_000)
plant("one target more is in use", Register, "require_target", lambda s, n: require(n <= s.used_targets, 9))
plant("the last target is not in use", Register, "require_target", lambda s, n: require(n + 1 < s.used_targets, 9))
plant(
    "link and unlink test 8 before 9", Register, "require_link",
    lambda s, t, p: (register.require_policy(p), s.require_target(t)),
)
plant("link and unlink do not test 8", Register, "require_link", lambda s, t, p: s.require_target(t))
plant("link and unlink do not test 9", Register, "require_link", lambda s, t, p: register.require_policy(p))

add, withdraw, link, unlink = Register.add, Register.withdraw, Register.link, Register.unlink


def read_for(policy, number, note):
    try:
        return notes.read(note)
    except notes.Fault as fault:
        raise register.NoteRefusal(fault, policy, number)


ADD_TESTS = {
    "8": lambda s, p, n, note: register.require_place(p, n),
    "note": lambda s, p, n, note: read_for(p, n, note),
    "10": lambda s, p, n, note: require((p, n) not in s.rules, 10),
    "12": lambda s, p, n, note: require(len(s.rules) < s.used_rows, 12),
}


def add_order(*order):
    def wrong(self, policy, number, note):
        for name in order:
            ADD_TESTS[name](self, policy, number, note)
        self.rules[policy, number] = notes.read(note)

    plant("add tests " + ", ".join(order), Register, "add", wrong)


add_order("note", "8", "10", "12")
add_order("8", "10", "note", "12")
add_order("8", "10", "12", "note")
add_order("8", "12", "note", "10")
add_order("8", "note", "12", "10")
add_order("8", "note", "12")
add_order("8", "note", "10")


@bug("an addition that is refused with 10 takes the place of the rule", "add", Register)
def _(self, policy, number, note):
    try:
        add(self, policy, number, note)
    except Refusal as refusal:
        if refusal.args == (10,):
            self.rules[policy, number] = notes.read(note)
        raise


@bug("an addition that is refused with 12 is stored", "add", Register)
def _(self, policy, number, note):
    try:
        add(self, policy, number, note)
    except Refusal as refusal:
        if refusal.args == (12,):
            self.rules[policy, number] = notes.read(note)
        raise


@bug("an addition with a fault in its note removes the rule of its number", "add", Register)
def _(self, policy, number, note):
    try:
        add(self, policy, number, note)
    except register.NoteRefusal:
        self.rules.pop((policy, number), None)
        raise


plant("an addition stores nothing", Register, "add", lambda s, p, n, note: (add(s, p, n, note), s.rules.pop((p, n))))
plant(
    "an addition with rule number above 9 is stored as 9", Register, "add",
    lambda s, p, n, note: (add(s, p, n, note), s.rules.update({(p, min(n, 9)): s.rules.pop((p, n))})),
)


@bug("rule numbers are shared by all policies", "add", Register)
def _(self, policy, number, note):
    for name in ("8", "note"):
        ADD_TESTS[name](self, policy, number, note)
    require(number not in {taken for _, taken in self.rules}, 10)
    add(self, policy, number, note)


@bug("each side has its own rule numbers", "add", Register)
def _(self, policy, number, note):
    old = self.rules.get((policy, number))
    if number <= 1023 and old and read_for(policy, number, note).side != old.side:
        del self.rules[policy, number]
    add(self, policy, number, note)


plant("a refusal of the note names no policy and rule", register.NoteRefusal, "__str__", lambda s: str(s.args[0]))
plant(
    "withdraw does nothing", Register, "withdraw",
    lambda s, p, n: require((p, n) in s.rules or p > 63 or n > 1023, 11),
)


@bug("withdraw removes the whole policy", "withdraw", Register)
def _(self, policy, number):
    withdraw(self, policy, number)
    self.rules = {place: rule for place, rule in self.rules.items() if place[0] != policy}


@bug("withdraw removes the last rule that was added", "withdraw", Register)
def _(self, policy, number):
    withdraw(self, policy, number)
    if self.rules:
        self.rules.popitem()


@bug("withdraw does not free the row", "withdraw", Register)
def _(self, policy, number):
    withdraw(self, policy, number)
    self.used_rows -= 1


@bug("withdraw removes the links of a policy without rules", "withdraw", Register)
def _(self, policy, number):
    withdraw(self, policy, number)
    if not any(place[0] == policy for place in self.rules):
        self.links = {(target, linked) for target, linked in self.links if linked != policy}


@bug("withdraw tests 11 only", "withdraw", Register)
def _(self, policy, number):
    require((policy, number) in self.rules, 11)
    del self.rules[policy, number]


plant(
    "withdraw of what is not there is accepted", Register, "withdraw",
    lambda s, p, n: (register.require_place(p, n), s.rules.pop((p, n), None)),
)


@bug("link forgets the other policies of the target", "link", Register)
def _(self, target, policy):
    self.require_link(target, policy)
    self.links = {(other, linked) for other, linked in self.links if other != target}
    self.links.add((target, policy))


@bug("link forgets the other targets of the policy", "link", Register)
def _(self, target, policy):
    self.require_link(target, policy)
    self.links = {(other, linked) for other, linked in self.links if linked != policy}
    self.links.add((target, policy))


plant(
    "linking what is linked removes the link", Register, "link",
    lambda s, t, p: (s.require_link(t, p), s.links.symmetric_difference_update({(t, p)})),
)
plant(
    "linking what is linked is refused", Register, "link",
    lambda s, t, p: (s.require_link(t, p), require((t, p) not in s.links, 10), link(s, t, p)),
)
plant("link does nothing", Register, "link", lambda s, t, p: s.require_link(t, p))
plant(
    "target and policy are exchanged in link", Register, "link",
    lambda s, t, p: (s.require_link(t, p), s.links.add((p, t))),
)
plant(
    "links of policies above 31 are lost", Register, "link",
    lambda s, t, p: (link(s, t, p), p > 31 and s.links.discard((t, p))),
)
plant("unlink does nothing", Register, "unlink", lambda s, t, p: s.require_link(t, p))
plant(
    "unlink removes all policies of the target", Register, "unlink",
    lambda s, t, p: (unlink(s, t, p), s.links.intersection_update({pair for pair in s.links if pair[0] != t})),
)
plant(
    "unlink links what is not linked", Register, "unlink",
    lambda s, t, p: (s.require_link(t, p), s.links.symmetric_difference_update({(t, p)})),
)
plant(
    "unlinking what is not linked is refused", Register, "unlink",
    lambda s, t, p: (s.require_link(t, p), require((t, p) in s.links, 11), unlink(s, t, p)),
)

# Bugs of opening

opened = Program.open


def open_bug(words, change):
    """The change is made after an opening, with the register before and the answer."""

    def wrong(self, home, rows, targets):
        before = self.register
        answer = opened(self, home, rows, targets)
        change(self, before, answer)
        return answer

    plant(words, Program, "open", wrong)


def keep(name):
    def change(program, before, answer):
        if before:
            setattr(program.register, name, getattr(before, name))

    return change


def when_accepted(change):
    return lambda program, before, answer: change(program) if answer == "accepted" else None


def when_refused(change):
    return lambda program, before, answer: change(program) if before and answer != "accepted" else None


def close(program):
    program.home = None


def empty_rules(program):
    program.register.rules = {}


def empty_links(program):
    program.register.links = set()


def empty_members(program):
    program.roll, program.tokens, program.leavers = register.member_lists()


open_bug("opening keeps the rules", keep("rules"))
open_bug("opening keeps the links", keep("links"))
open_bug("opening keeps the home domain", keep("home"))
open_bug("opening keeps the number of rows", keep("used_rows"))
open_bug("opening keeps the number of targets", keep("used_targets"))
open_bug("opening empties the member lists", when_accepted(empty_members))
open_bug("opening clears the tokens", when_accepted(lambda program: program.tokens.clear()))
open_bug("opening readmits the leavers", when_accepted(lambda program: program.leavers.leavers.clear()))
open_bug("a refused opening closes the register", when_refused(close))
open_bug("a refused opening removes the rules", when_refused(empty_rules))
open_bug("a refused opening removes the links", when_refused(empty_links))
open_bug(
    "rows and targets are exchanged",
    when_accepted(lambda p: vars(p.register).update(used_rows=min(p.register.used_targets, 256), used_targets=p.register.used_rows)),
)

# Bugs of member lists


@bug("the token layer lies over the leavers layer", "member_lists")
def _():
    roll = register.FlatRoll()
    leavers = LeaversLayer(roll)
    tokens = TokenLayer(leavers)

    class Top(LeaversLayer):
        """Notes and readmits below the tokens."""

        def __init__(self):
            self.below, self.leavers = tokens, leavers.leavers

        def has(self, identity, standing):
            return tokens.has(identity, standing)

    return roll, tokens, Top()


present, leave, readmit, clear = TokenLayer.present, LeaversLayer.leave, LeaversLayer.readmit, TokenLayer.clear

plant("seven tokens at most", register, "MOST_PAIRS", 7)
plant("nine tokens at most", register, "MOST_PAIRS", 9)
plant("fifteen leavers at most", register, "MOST_LEAVERS", 15)
plant("seventeen leavers at most", register, "MOST_LEAVERS", 17)
plant("the flat roll is not asked", register.FlatRoll, "has", lambda s, i, t: False)
plant(
    "the flat roll is asked for the identity only", register.FlatRoll, "has",
    lambda s, i, t: any(i == row[0] for row in s.rows),
)
plant(
    "the flat roll is asked for the standing only", register.FlatRoll, "has",
    lambda s, i, t: any(t == row[1] for row in s.rows),
)
plant("the flat roll keeps the last eight rows", register.FlatRoll, "has", lambda s, i, t: (i, t) in s.rows[-8:])
plant(
    "the flat roll keeps one standing for an identity", register.FlatRoll, "has",
    lambda s, i, t: dict(s.rows).get(i) == t,
)
plant("tokens are not asked", TokenLayer, "has", lambda s, i, t: s.below.has(i, t))
plant("tokens alone are asked", TokenLayer, "has", lambda s, i, t: (i, t) in s.pairs)
plant(
    "a token must be in the flat roll too", TokenLayer, "has",
    lambda s, i, t: (i, t) in s.pairs and s.below.has(i, t),
)
plant(
    "a token counts for all standings", TokenLayer, "has",
    lambda s, i, t: any(i == pair[0] for pair in s.pairs) or s.below.has(i, t),
)
plant(
    "a pair that is presented again takes a place", TokenLayer, "present",
    lambda s, i, t: (require_text("identity", i), require_text("standing", t), require(len(s.pairs) < 8, 21), s.pairs.append((i, t))),
)
plant(
    "a pair of the flat roll takes no place", TokenLayer, "present",
    lambda s, i, t: s.below.has(i, t) or present(s, i, t),
)
plant(
    "a full layer drops its oldest pair", TokenLayer, "present",
    lambda s, i, t: (len(s.pairs) == 8 and (i, t) not in s.pairs and notes.lawful_text("identity", i) and notes.lawful_text("standing", t) and s.pairs.pop(0), present(s, i, t)),
)
plant(
    "present tests 21 before 13", TokenLayer, "present",
    lambda s, i, t: (require(len(s.pairs) < 8 or (i, t) in s.pairs, 21), present(s, i, t)),
)
plant(
    "present does not test the standing", TokenLayer, "present",
    lambda s, i, t: notes.lawful_text("standing", t) and present(s, i, t) or require_text("identity", i),
)
plant(
    "present does not test the identity", TokenLayer, "present",
    lambda s, i, t: notes.lawful_text("identity", i) and present(s, i, t) or require_text("standing", t),
)


@bug("a refused pair is kept", "present", TokenLayer)
def _(self, identity, standing):
    try:
        present(self, identity, standing)
    except Refusal as refusal:
        if refusal.args == (21,):
            self.pairs.append((identity, standing))
        raise


@bug("a refused pair clears the layer", "present", TokenLayer)
def _(self, identity, standing):
    try:
        present(self, identity, standing)
    except Refusal as refusal:
        if refusal.args == (21,):
            self.pairs.clear()
        raise


plant("clear does nothing", TokenLayer, "clear", lambda s: None)
plant("clear removes one pair", TokenLayer, "clear", lambda s: s.pairs and s.pairs.pop())
plant("clear empties the flat roll too", TokenLayer, "clear", lambda s: (clear(s), s.below.rows.clear()))
plant("leavers are not looked at", LeaversLayer, "has", lambda s, i, t: s.below.has(i, t))
plant("one leaver takes all standings away", LeaversLayer, "has", lambda s, i, t: not s.leavers and s.below.has(i, t))
plant(
    "a leaver keeps its tokens", LeaversLayer, "has",
    lambda s, i, t: s.below.has(i, t) if i not in s.leavers else (i, t) in s.below.pairs,
)
plant(
    "leaving takes tokens away for good", LeaversLayer, "leave",
    lambda s, i: (leave(s, i), s.below.pairs.__setitem__(slice(None), [p for p in s.below.pairs if p[0] != i])),
)
plant(
    "leaving takes the rows of the flat roll away for good", LeaversLayer, "leave",
    lambda s, i: (leave(s, i), s.below.below.rows.__setitem__(slice(None), [p for p in s.below.below.rows if p[0] != i])),
)
plant(
    "a full layer refuses the leavers that it holds", LeaversLayer, "leave",
    lambda s, i: (require_text("identity", i), require(len(s.leavers) < 16, 21), leave(s, i)),
)
plant(
    "an identity can leave twice", LeaversLayer, "leave",
    lambda s, i: (require_text("identity", i), require(len(s.leavers) < 16 or i in s.leavers, 21), s.leavers.append(i)),
)
plant(
    "leave tests 21 before 13", LeaversLayer, "leave",
    lambda s, i: (require(len(s.leavers) < 16 or i in s.leavers, 21), leave(s, i)),
)
plant(
    "leave does not test the identity", LeaversLayer, "leave",
    lambda s, i: notes.lawful_text("identity", i) and leave(s, i),
)
plant(
    "a full layer drops its oldest leaver", LeaversLayer, "leave",
    lambda s, i: (len(s.leavers) == 16 and i not in s.leavers and notes.lawful_text("identity", i) and s.leavers.pop(0), leave(s, i)),
)
plant("readmit does nothing", LeaversLayer, "readmit", lambda s, i: require_text("identity", i))
plant("readmit empties the layer", LeaversLayer, "readmit", lambda s, i: (readmit(s, i), s.leavers.clear()))
plant(
    "readmit does not test the identity", LeaversLayer, "readmit",
    lambda s, i: i in s.leavers and s.leavers.remove(i),
)
plant(
    "readmit of an identity that is not held is refused", LeaversLayer, "readmit",
    lambda s, i: (require_text("identity", i), require(i in s.leavers, 11), readmit(s, i)),
)
plant(
    "readmit takes the last leaver", LeaversLayer, "readmit",
    lambda s, i: (require_text("identity", i), i in s.leavers and s.leavers.pop()),
)


@bug("a leaver loses patterns, domains and all too", "originators_admit")
def _(rule, request, home, members):
    if request.identity in members.leavers:
        return False
    return any(matches(entry, request.identity, home, members) for entry in rule.originators)


# Bugs of the program

plant("member does nothing", Program, "member", lambda s, i, t: "accepted")
plant(
    "member refuses unlawful texts", Program, "member",
    lambda s, i, t: (require_text("identity", i), require_text("standing", t), s.roll.append(i, t), "accepted")[-1],
)
plant("member presents a token", Program, "member", lambda s, i, t: s.present(i, t))


def kind_bug(words, kind, reader):
    text = journal_expected.KINDS[kind][0]
    plant(words, journal_expected, "KINDS", journal_expected.KINDS | {kind: (text, reader)})


kind_bug("rows of 41 bytes are read", "ROW-IDENTITY", lambda w: w or None)
kind_bug("standings of 41 bytes are read", "ROW-STANDING", lambda w: w or None)
kind_bug("rows of 40 bytes are not read", "ROW-STANDING", lambda w: w if 0 < len(w) < 40 else None)
kind_bug("type 65535 is not read", "TYPE", lambda w: MISSING if w == b"-" else journal_expected.decimal(w, 65_534))
kind_bug("types have no limit", "TYPE", lambda w: MISSING if w == b"-" else journal_expected.decimal(w, 10**9))
kind_bug(
    "countries of lower case are not read", "COUNTRY",
    lambda w: None if w.islower() else journal_expected.country(w),
)
kind_bug("a country may have three bytes", "COUNTRY", lambda w: journal_expected.country(w[:2] if len(w) == 3 else w))
kind_bug("IPv6 in capitals is not read", "ADDRESS", lambda w: None if w != w.lower() else journal_expected.address(w))
kind_bug(
    ":: for one group is not read", "ADDRESS",
    lambda w: None if b"::" in w and len([g for g in w.split(b":") if g]) == 7 else journal_expected.address(w),
)
kind_bug("the first group is lost", "ADDRESS", lambda w: journal_expected.address(re.sub(rb"^[0-9A-Fa-f]+:", b"0:", w)))
kind_bug(
    "the last number of an IPv4 address is lost", "ADDRESS",
    lambda w: journal_expected.address(re.sub(rb"\.[0-9]+$", b".0", w)),
)
kind_bug(
    "targets without digits are read", "TARGET",
    lambda w: journal_expected.target(w + b"0" if w.endswith(b":") else w),
)
kind_bug(
    "unauthenticated is read as authenticated", "AUTH",
    lambda w: {b"authenticated": True, b"unauthenticated": True}.get(w),
)
kind_bug("capitals are read in operations", "OPERATION", lambda w: journal_expected.operation(w.lower()))


@bug("a call on a register is tried before its words are read", "call", Program)
def _(self, words):
    if self.home is None and words[0] in (b"add", b"withdraw", b"link", b"unlink", b"judge", b"cover"):
        raise journal_expected.Unreadable("no register is open")
    return right_call(self, words)


right_call = Program.call


# Second readings


def contained_by_bits(block, address):
    width = block.max_prefixlen
    digits = [f"{int(value):0{width}b}"[: block.prefixlen] for value in (block.network_address, address)]
    return block.version == address.version and digits[0] == digits[1]


def asked(where, name, lines):
    """What a function of two or three values was asked and answered in the journals."""
    function, seen = getattr(where, name), {}

    def noted(*values):
        seen[values] = function(*values)
        return seen[values]

    with planted(where, name, noted):
        answers(lines)
    return seen


def second_readings(lines):
    patterns = asked(register, "pattern_matches", lines)
    agree = sum(cover_check.by_places(cover.full_form(p, h), i) == yes for (p, i, h), yes in patterns.items())
    print(f"patterns, place by place: {agree} of {len(patterns)} agree, {sum(patterns.values())} match")
    blocks = asked(register, "block_admits", lines)
    agree_too = sum(contained_by_bits(*pair) == yes for pair, yes in blocks.items())
    print(f"blocks, by their bits: {agree_too} of {len(blocks)} agree, {sum(blocks.values())} admit")
    return (agree, agree_too) == (len(patterns), len(blocks))


def planted_bugs(lines, first_part):
    """The first part of the lines is the observatory's journal; both are one journal here."""

    def row(changed):
        early = sum(place < first_part for place in changed)
        return f"{early:11}  {len(changed) - early:6}"

    print("observatory  season  bug")
    return BUGS.all_change_enough(lines, row)


def main():
    notes.read = functools.cache(notes.read)  # the same notes are read for every bug
    night = journal_expected.lines_of(observatory.FILE)
    lines = night + journal_expected.lines_of(season_cases.FILE)
    results = [second_readings(lines), planted_bugs(lines, len(night))]
    return 0 if all(results) else 1


if __name__ == "__main__":
    sys.exit(main())
