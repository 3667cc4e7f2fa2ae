#!/usr/bin/env python3
"""Checks cover.py and the cases of crates/journal/data/cover.journal.

First, patterns and blocks of the journal are compared in a second way. Then bugs are planted into cover.py and
journal_expected.py, one at a time, and the answers that each changes are counted: at least two are wanted.
"""
import functools
import ipaddress
import itertools
import re
import sys

sys.dont_write_bytecode = True  # leaves no tools/__pycache__
import cover
import cover_cases
import cover_patterns
import journal_expected
import notes
from cover import each_covered, full_form, list_covers
from journal_expected import Program
from planting import Bugs

# Second readings


def by_places(one, other):
    """All places of the other full form that the bytes of the first one reach, one after the other."""
    places = {0}
    for byte in one:
        if byte == ord("*"):
            ends = {place: (other + b"/").index(b"/", place) for place in places}
            places = {end for place in places for end in range(place, ends[place] + 1)}
        else:
            places = {place + 1 for place in places if other[place : place + 1] == bytes([byte])}
    return len(other) in places


def by_plain_expression(one, other):
    """Each star is [^/]*, and nothing else is done."""
    return re.fullmatch(re.escape(one).replace(rb"\*", rb"[^/]*"), other, re.DOTALL) is not None


def by_bits(one, other):
    """The first bits of both addresses, as digits."""
    digits = [f"{int(block.network_address):0{block.max_prefixlen}b}"[: one.prefixlen] for block in (one, other)]
    return one.version == other.version and one.prefixlen <= other.prefixlen and digits[0] == digits[1]


def pairs_of_rules(lines):
    """The rules of each call of cover with a plain answer, and the home domain."""
    for line, answer in journal_expected.answers(lines):
        words = line.split(b" ")
        if answer == "accepted":
            home = words[1]
        if answer in ("covers", "does not cover"):
            one, other = (notes.read(bytes.fromhex(word.decode())) for word in words[1:])
            yield one, other, home


def patterns_of(rule):
    return [entry.text for entry in rule.originators if entry.kind == "pattern"]


def blocks_of(rule):
    return [block for context in rule.contexts for block in context.blocks]


def second_readings(lines):
    forms, blocks = set(), set()
    for one, other, home in pairs_of_rules(lines):
        for first, second in itertools.product(patterns_of(one), patterns_of(other)):
            forms.add((full_form(first, home), full_form(second, home)))
        blocks.update(itertools.product(blocks_of(one), blocks_of(other)))
    segments = [b"//h/" + text.encode() for text in cover_patterns.strings("a*", 5)]
    forms.update(itertools.product(segments, segments))
    short = [(one, other) for one, other in forms if one.count(b"*") < 6]
    forms_agree = sum(by_places(*pair) == cover.pattern_covers(*pair, b"") for pair in forms)
    short_agree = sum(by_plain_expression(*pair) == cover.pattern_covers(*pair, b"") for pair in short)
    blocks_agree = sum(by_bits(*pair) == cover.block_covers(*pair) for pair in blocks)
    print(f"patterns, place by place: {forms_agree} of {len(forms)} pairs agree")
    print(f"patterns, by the plain expression: {short_agree} of {len(short)} pairs agree")
    print(f"blocks, by their bits: {blocks_agree} of {len(blocks)} pairs agree")
    return (forms_agree, short_agree, blocks_agree) == (len(forms), len(short), len(blocks))


# Planted bugs: what is wrong, where, and what is put there

BUGS = Bugs(cover)
plant, bug = BUGS.plant, BUGS.bug

# Bugs of patterns

plant("a star may stand for a slash", cover, "ANY", rb".*")
plant("a star needs at least one byte", cover, "ANY", rb"[^/]+")
plant("a star stands for one byte at most", cover, "ANY", rb"[^/]?")
plant("a star does not take a star", cover, "ANY", rb"[^/*]*")
plant("a star takes letters and digits only", cover, "ANY", rb"[0-9A-Za-z*]*")


@bug("a star of the covered pattern fits a letter", "literal")
def _(piece):
    bytes_of = [piece[place : place + 1] for place in range(len(piece))]
    return b"".join(b"/" if byte == b"/" else rb"(?:%b|\*)" % re.escape(byte) for byte in bytes_of)


@bug("a dot fits every byte", "literal")
def _(piece):
    return re.escape(piece).replace(rb"\.", b".")


@bug("case is not looked at in patterns", "literal")
def _(piece):
    return rb"(?i:%b)" % re.escape(piece)


@bug("only the first star is a star", "pieces")
def _(form):
    return form.split(b"*", 1)


@bug("only the last star is a star", "pieces")
def _(form):
    return form.rsplit(b"*", 1)


@bug("two stars together are no stars", "pieces")
def _(form):
    return re.split(rb"(?<!\*)\*(?!\*)", form)


@bug("the first place that fits is kept for the last piece too", "expression")
def _(form):
    first, *rest = map(re.escape, cover.pieces(form))
    return first + b"".join(rb"(?>[^/]*?%b)" % piece if piece else rb"[^/]*" for piece in rest)


@bug("the last place that fits is kept for every piece", "expression")
def _(form):
    first, *rest = map(re.escape, cover.pieces(form))
    return first + b"".join(rb"(?>[^/]*%b)" % piece for piece in rest)


@bug("the covered pattern may go on", "pattern_covers")
def _(one, other, home):
    return re.match(cover.expression(full_form(one, home)), full_form(other, home)) is not None


@bug("the covering pattern may go on by one byte", "pattern_covers")
def _(one, other, home):
    forms = full_form(one, home), full_form(one, home)[:-1]
    return any(re.fullmatch(cover.expression(form), full_form(other, home)) for form in forms)


@bug("patterns are compared the other way round", "pattern_covers")
def _(one, other, home):
    return re.fullmatch(cover.expression(full_form(other, home)), full_form(one, home)) is not None


@bug("patterns cover equal ones only", "pattern_covers")
def _(one, other, home):
    return full_form(one, home) == full_form(other, home)


@bug("patterns are compared as they are written", "full_form")
def _(pattern, home):
    return pattern


@bug("the full form begins with one slash", "full_form")
def _(pattern, home):
    return pattern if pattern.startswith(b"//") else b"/" + home + pattern


@bug("the home domain goes before absolute patterns too", "full_form")
def _(pattern, home):
    return b"//" + home + pattern


@bug("the full form is cut after 40 bytes", "full_form")
def _(pattern, home):
    return full_form(pattern, home)[:40]


@bug("the full form is cut after 64 bytes", "full_form")
def _(pattern, home):
    return full_form(pattern, home)[:64]


# Bugs of entries


@bug("a domain is compared without the slash behind it", "domain_covers")
def _(domain, pattern, home):
    return full_form(pattern, home).startswith(b"//" + domain)


@bug("a domain covers a first segment that matches it", "domain_covers")
def _(domain, pattern, home):
    first = full_form(pattern, home)[2:].split(b"/")[0]
    return re.fullmatch(cover.expression(first), domain) is not None


@bug("a domain is compared with the pattern as it is written", "domain_covers")
def _(domain, pattern, home):
    return pattern.startswith(b"//" + domain + b"/")


@bug("a domain covers every SP-relative pattern", "domain_covers")
def _(domain, pattern, home):
    return not pattern.startswith(b"//") or pattern.startswith(b"//" + domain + b"/")


@bug("a domain covers no pattern", "domain_covers")
def _(domain, pattern, home):
    return False


entry_covers = cover.entry_covers


@bug("a domain covers the domains that begin with it", "entry_covers")
def _(one, other, home):
    begins = one.kind == other.kind == "domain" and other.text.startswith(one.text)
    return begins or entry_covers(one, other, home)


@bug("a pattern covers a domain whose identities of two segments it matches", "entry_covers")
def _(one, other, home):
    if one.kind == "pattern" and other.kind == "domain":
        return cover.pattern_covers(one.text, b"//" + other.text + b"/*", home)
    return entry_covers(one, other, home)


@bug("a pattern of stars covers all", "entry_covers")
def _(one, other, home):
    stars = one.kind == "pattern" and set(one.text) == set(b"/*")
    return (stars and other.kind == "all") or entry_covers(one, other, home)


@bug("everything covers all", "entry_covers")
def _(one, other, home):
    return other.kind == "all" or entry_covers(one, other, home)


@bug("all covers all and patterns only", "entry_covers")
def _(one, other, home):
    return entry_covers(one, other, home) and (one.kind != "all" or other.kind in ("all", "pattern"))


@bug("domains and standings are not told apart", "entry_covers")
def _(one, other, home):
    named = ("domain", "standing")
    return (one.kind in named and other.kind in named and one.text == other.text) or entry_covers(one, other, home)


@bug("standings and patterns with equal texts are not told apart", "entry_covers")
def _(one, other, home):
    return (one.text != b"" and one.text == other.text) or entry_covers(one, other, home)


@bug("every standing covers every standing", "entry_covers")
def _(one, other, home):
    return one.kind == other.kind == "standing" or entry_covers(one, other, home)


@bug("a standing covers nothing", "entry_covers")
def _(one, other, home):
    return one.kind != "standing" and entry_covers(one, other, home)


@bug("one covered entry is enough", "originators_cover")
def _(one, other, home):
    return any(cover.entry_covers(mine, theirs, home) for mine in one.originators for theirs in other.originators)


@bug("entries are compared place by place", "originators_cover")
def _(one, other, home):
    pairs = list(zip(one.originators, other.originators))
    return len(pairs) == len(other.originators) and all(cover.entry_covers(*pair, home) for pair in pairs)


@bug("only the first covering entry is looked at", "originators_cover")
def _(one, other, home):
    return all(cover.entry_covers(one.originators[0], theirs, home) for theirs in other.originators)


@bug("the last covered entry is not looked at", "originators_cover")
def _(one, other, home):
    theirs = other.originators[:-1]
    return each_covered(one.originators, theirs, lambda mine, theirs: cover.entry_covers(mine, theirs, home))


# Bugs of constraints


def without_set(place):
    def window_covers(one, other):
        sets = list(zip(one.sets, other.sets))
        return all(mine >= theirs for mine, theirs in sets[:place] + sets[place + 1 :])

    return window_covers


for place, name in enumerate(notes.SETS):
    plant(f"the {name} of windows are not compared", cover, "window_covers", without_set(place))


@bug("sets of windows need only meet", "window_covers")
def _(one, other):
    return all(mine & theirs for mine, theirs in zip(one.sets, other.sets))


@bug("windows are compared the other way round", "window_covers")
def _(one, other):
    return all(mine <= theirs for mine, theirs in zip(one.sets, other.sets))


@bug("windows cover equal ones only", "window_covers")
def _(one, other):
    return one == other


@bug("one of day and weekday is enough", "window_covers")
def _(one, other):
    holds = [mine >= theirs for mine, theirs in zip(one.sets, other.sets)]
    return all(holds[:3]) and (holds[3] or holds[5]) and holds[4] and holds[6]


@bug("prefix lengths are compared the other way round", "block_covers")
def _(one, other):
    return one.version == other.version and one.subnet_of(other)


@bug("addresses of blocks are not compared", "block_covers")
def _(one, other):
    return one.version == other.version and one.prefixlen <= other.prefixlen


@bug("prefix lengths of blocks are not compared", "block_covers")
def _(one, other):
    return one.version == other.version and other.network_address in one


@bug("families of blocks are not compared", "block_covers")
def _(one, other):
    bits = [int(block.network_address) << 128 - block.max_prefixlen >> 128 - one.prefixlen for block in (one, other)]
    return one.prefixlen <= other.prefixlen and bits[0] == bits[1]


@bug("the prefix length must be smaller", "block_covers")
def _(one, other):
    return one.version == other.version and other.subnet_of(one) and one != other


@bug("only whole bytes of the prefix are compared", "block_covers")
def _(one, other):
    if one.version != other.version or one.prefixlen > other.prefixlen:
        return False
    return one.supernet(prefixlen_diff=one.prefixlen % 8).supernet_of(other)


@bug("prefix length 0 covers both families", "block_covers")
def _(one, other):
    return one.prefixlen == 0 or (one.version == other.version and other.subnet_of(one))


@bug("the first letters of countries are compared", "country_covers")
def _(one, other):
    return one[0] == other[0]


@bug("the second letters of countries are compared", "country_covers")
def _(one, other):
    return one[1] == other[1]


@bug("letters of countries are compared in any order", "country_covers")
def _(one, other):
    return sorted(one) == sorted(other)


# Bugs of lists and contexts


@bug("an empty list covers an empty list only", "list_covers")
def _(mine, theirs, covers):
    return bool(mine) == bool(theirs) and each_covered(mine, theirs, covers)


@bug("an empty list is covered by every list", "list_covers")
def _(mine, theirs, covers):
    return not mine or each_covered(mine, theirs, covers)


@bug("one covered item is enough", "list_covers")
def _(mine, theirs, covers):
    return not mine or any(covers(one, other) for one in mine for other in theirs)


@bug("items are compared place by place", "list_covers")
def _(mine, theirs, covers):
    pairs = list(zip(mine, theirs))
    return not mine or (bool(theirs) and len(pairs) == len(theirs) and all(covers(*pair) for pair in pairs))


@bug("one item must cover all of the other list", "list_covers")
def _(mine, theirs, covers):
    return not mine or (bool(theirs) and any(all(covers(one, other) for other in theirs) for one in mine))


context_covers = cover.context_covers


def united(windows):
    return tuple(frozenset().union(*sets) for sets in zip(*(window.sets for window in windows)))


@bug("windows of a list are united", "context_covers")
def _(one, other):
    one = notes.Context((notes.Window(united(one.windows)),) if one.windows else (), one.blocks, one.countries)
    return context_covers(one, other)


@bug("blocks of a list are united", "context_covers")
def _(one, other):
    networks = [[block for block in one.blocks if block.version == version] for version in (4, 6)]
    joined = [block for family in networks for block in ipaddress.collapse_addresses(family)]
    return context_covers(notes.Context(one.windows, tuple(joined), one.countries), other)


@bug("windows of a context are not compared", "context_covers")
def _(one, other):
    return context_covers(notes.Context((), one.blocks, one.countries), other)


@bug("blocks of a context are not compared", "context_covers")
def _(one, other):
    return context_covers(notes.Context(one.windows, (), one.countries), other)


@bug("countries of a context are not compared", "context_covers")
def _(one, other):
    return context_covers(notes.Context(one.windows, one.blocks, ()), other)


@bug("contexts are mixed", "contexts_cover")
def _(one, other):
    def part_covers(name, covers):
        return list_covers(
            one.contexts,
            other.contexts,
            lambda mine, theirs: list_covers(getattr(mine, name), getattr(theirs, name), covers),
        )

    return (
        part_covers("windows", cover.window_covers)
        and part_covers("blocks", cover.block_covers)
        and part_covers("countries", cover.country_covers)
    )


@bug("a context that admits everything counts as none", "contexts_cover")
def _(one, other):
    return notes.Context() in one.contexts or list_covers(one.contexts, other.contexts, cover.context_covers)


@bug("a rule without contexts is covered by rules with any contexts", "contexts_cover")
def _(one, other):
    return not other.contexts or list_covers(one.contexts, other.contexts, cover.context_covers)


@bug("only the first context of each rule is looked at", "contexts_cover")
def _(one, other):
    return list_covers(one.contexts[:1], other.contexts[:1], cover.context_covers)


# Bugs of rules


@bug("sides are not compared", "side_covers")
def _(one, other):
    return True


@bug("selfPrivileges covers privileges", "side_covers")
def _(one, other):
    return one.side == other.side or one.side == "selfPrivileges"


@bug("flags are not compared", "flag_covers")
def _(one, other):
    return True


@bug("flags are compared the other way round", "flag_covers")
def _(one, other):
    return one.authenticated or not other.authenticated


@bug("flags must be equal", "flag_covers")
def _(one, other):
    return one.authenticated == other.authenticated


@bug("operations need only meet", "operations_cover")
def _(one, other):
    return bool(one.operations & other.operations)


@bug("operations are compared the other way round", "operations_cover")
def _(one, other):
    return one.operations <= other.operations


@bug("operations must be equal", "operations_cover")
def _(one, other):
    return one.operations == other.operations


def without_operation(name):
    return lambda one, other: one.operations >= other.operations - {name}


for name in notes.OPERATIONS:
    plant(f"the operation {name} is not compared", cover, "operations_cover", without_operation(name))


types_cover = cover.types_cover


@bug("child types are not compared", "types_cover")
def _(one, other):
    return True


@bug("child types are compared only if the covered rule has Create", "types_cover")
def _(one, other):
    return "create" not in other.operations or types_cover(one, other)


@bug("child types are compared only if the covering rule has Create", "types_cover")
def _(one, other):
    return "create" not in one.operations or types_cover(one, other)


@bug("a rule without child types is covered by all child types", "types_cover")
def _(one, other):
    return not one.types or set(one.types) >= set(other.types)


@bug("no child types cover no child types only", "types_cover")
def _(one, other):
    return bool(one.types) == bool(other.types) and set(one.types) >= set(other.types)


@bug("one child type in common is enough", "types_cover")
def _(one, other):
    return not one.types or bool(set(one.types) & set(other.types))


@bug("the order of child types counts", "types_cover")
def _(one, other):
    return not one.types or (bool(other.types) and one.types[: len(other.types)] == other.types)


@bug("the low bytes of child types are compared", "types_cover")
def _(one, other):
    low = [{number % 256 for number in rule.types} for rule in (one, other)]
    return not one.types or (bool(other.types) and low[0] >= low[1])


covers = cover.covers


@bug("a rule without operations is covered by every rule", "covers")
def _(one, other, home):
    return not other.operations or covers(one, other, home)


# Bugs of the program

opened = Program.open


@bug("a refused opening closes the register", "open", Program)
def _(self, home, rows, targets):
    answer = opened(self, home, rows, targets)
    self.home = home if answer == "accepted" else None
    return answer


@bug("a refused opening changes the home domain", "open", Program)
def _(self, home, rows, targets):
    answer = opened(self, home, rows, targets)
    self.home = home
    return answer


@bug("the first home domain stays", "open", Program)
def _(self, home, rows, targets):
    first = self.home
    answer = opened(self, home, rows, targets)
    self.home = first or self.home
    return answer


@bug("a home domain may have 25 bytes", "open", Program)
def _(self, home, rows, targets):
    if len(home) == 25 and notes.lawful_text("domain", home[1:]):
        self.home = home
        return "accepted"
    return opened(self, home, rows, targets)


@bug("a home domain has 23 bytes at most", "open", Program)
def _(self, home, rows, targets):
    return "refused 13 at 0 register" if len(home) > 23 else opened(self, home, rows, targets)


def answer_of(one, other, home):
    return "covers" if cover.covers(one, other, home) else "does not cover"


@bug("the second note is read first", "cover", Program)
def _(self, first, second):
    if self.home is None:
        raise journal_expected.Unreadable("no register is open")
    other = notes.read(second)
    return answer_of(notes.read(first), other, self.home)


@bug("the second note is not read if the first rule has one pattern", "cover", Program)
def _(self, first, second):
    if self.home is None:
        raise journal_expected.Unreadable("no register is open")
    one = notes.read(first)
    try:
        return answer_of(one, notes.read(second), self.home)
    except notes.Fault:
        if [entry.kind for entry in one.originators] == ["pattern"]:
            return "does not cover"
        raise


@bug("the notes are exchanged", "cover", Program)
def _(self, first, second):
    if self.home is None:
        raise journal_expected.Unreadable("no register is open")
    one, other = notes.read(first), notes.read(second)
    return answer_of(other, one, self.home)


@bug("cover is answered before a register is open", "cover", Program)
def _(self, first, second):
    return answer_of(notes.read(first), notes.read(second), self.home or b"")


decimal = journal_expected.decimal


@bug("table lengths end below 100000", "decimal", journal_expected)
def _(word, most):
    return decimal(word, min(most, 99_999))


@bug("table lengths have no limit", "decimal", journal_expected)
def _(word, most):
    return decimal(word, 10**10)


def main():
    notes.read = functools.cache(notes.read)  # the same notes are read for every bug
    lines = journal_expected.lines_of(cover_cases.FILE)
    results = [second_readings(lines), BUGS.all_change_enough(lines, lambda changed: f"{len(changed):5}")]
    return 0 if all(results) else 1


if __name__ == "__main__":
    sys.exit(main())
