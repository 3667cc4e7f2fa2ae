"""Rules for the cases of covering: short ways to write them, random ones, and wider ones made from them.

A rule that is made wider covers the rule from which it was made, at the home domain HOME.
"""
import ipaddress
from dataclasses import replace

import notes
from notes import Context, Originator, Rule, Window

HOME = "m2msp.org"
LONG_HOME = "observatory.example.site"  # 24 bytes, the longest domain
SEED = 6615


# Rules in short


def entry(text):
    """all, domain=TEXT, standing=TEXT; a pattern stands for itself."""
    if text == "all":
        return Originator("all")
    kind, sign, rest = text.partition("=")
    if sign and kind in ("domain", "standing"):
        return Originator(kind, rest.encode())
    return Originator("pattern", text.encode())


def rule(entries="all", side="privileges", authenticated=False, operations=("retrieve",), types=(), contexts=()):
    """Entries are joined by commas."""
    originators = tuple(map(entry, entries.split(",")))
    return Rule(side, authenticated, frozenset(operations), originators, tuple(types), tuple(contexts))


def window(**sets):
    """Sets that are not given are full."""
    return Window(tuple(frozenset(sets.get(name, values)) for name, values in notes.SETS.items()))


def block(family, prefix, address):
    """The address is cut after the prefix."""
    width = notes.WIDTHS[family]
    return notes.FAMILIES[family]((address >> width - prefix << width - prefix, prefix))


def blocks(*texts):
    return tuple(map(ipaddress.ip_network, texts))


def within(*contexts):
    return rule(contexts=contexts)


def at_times(*windows):
    return within(Context(windows=windows))


# Patterns


def random_segment(rng, most):
    return "".join(rng.choices("aab*", k=rng.randint(1, most)))


def with_stars(rng, segment):
    """A segment in which stars have been put in the place of bytes, or between them."""
    for _ in range(rng.randint(1, 2)):
        start = rng.randint(0, len(segment))
        end = min(len(segment), start + rng.choice((0, 1, 1, 2, 4)))
        segment = segment[:start] + "*" + segment[end:]
    return segment


def nudged(rng, segment):
    """A segment with one byte changed, added or taken away."""
    place = rng.randrange(len(segment))
    before, after = segment[:place], segment[place + 1 :]
    letter = rng.choice("ab*")
    return rng.choice((before + letter + after, before + letter + segment[place:], before + after)) or letter


# Random rules with few bits


def maybe(rng, share):
    return rng.random() < share


def random_entry(rng):
    patterns = "/a", "/ab/c", "/S988", "//d/a", "//d.e/ab/c", "/a*", "//d/*", "/*/b*"
    others = "domain=d", f"domain={HOME}", "standing=s", "standing=t", "all"
    return entry(rng.choice(patterns if maybe(rng, 0.6) else others))


def random_window(rng):
    names = rng.sample(list(notes.SETS), k=rng.randint(1, 2))
    return window(**{name: rng.sample(notes.SETS[name], k=rng.randint(1, 5)) for name in names})


def random_block(rng):
    family = int(maybe(rng, 0.2))
    width = notes.WIDTHS[family]
    return block(family, rng.choice((8, 9, 16, 24, width)), rng.getrandbits(width))


def random_country(rng):
    return rng.choice(("CL", "DE", "PE"))


def random_context(rng):
    return Context(
        tuple(random_window(rng) for _ in range(rng.choice((0, 0, 0, 1)))),
        tuple(random_block(rng) for _ in range(rng.choice((0, 1, 1, 2)))),
        tuple(random_country(rng) for _ in range(rng.choice((0, 0, 1, 2)))),
    )


def random_rule(rng):
    return Rule(
        rng.choice(notes.SIDES),
        maybe(rng, 0.5),
        frozenset(name for name in notes.OPERATIONS if maybe(rng, 0.4)),
        tuple(random_entry(rng) for _ in range(rng.choice((1, 1, 1, 2)))),
        tuple(rng.choices((3, 4, 23, 65535), k=rng.choice((0, 0, 1, 2)))),
        tuple(random_context(rng) for _ in range(rng.choice((0, 0, 1, 1, 2)))),
    )


def random_longest_rule(rng):
    """Every list at its limit, every text with 40 bytes, every block of family 6."""

    def text():
        return "/" + "".join(rng.choices("ab*", k=39))

    def context():
        return Context(
            tuple(random_window(rng) for _ in range(4)),
            tuple(block(1, rng.randint(0, 128), rng.getrandbits(128)) for _ in range(4)),
            tuple(random_country(rng) for _ in range(2)),
        )

    entries = [text(), text(), text(), "standing=" + text().replace("*", "/")]
    return Rule(
        rng.choice(notes.SIDES),
        maybe(rng, 0.5),
        frozenset(notes.OPERATIONS),
        tuple(map(entry, entries)),
        tuple(rng.choices((3, 4, 23, 65535), k=4)),
        (context(), context()),
    )


def shuffled(rng, old):
    """The same rule with its entries, child types and contexts in another order."""
    lists = {name: getattr(old, name) for name in ("originators", "types", "contexts")}
    return replace(old, **{name: tuple(rng.sample(items, k=len(items))) for name, items in lists.items()})


# Wider ones


def wider_entry(rng, old):
    if old.kind != "pattern" or maybe(rng, 0.3):
        return rng.choice((old, old, entry("all")))
    text = old.text.decode()
    full = text if text.startswith("//") else f"//{HOME}{text}"
    first, *rest = full[2:].split("/")
    starred = [with_stars(rng, segment) for segment in rest]
    choices = ["//" + "/".join([first, *starred]), "//" + "/".join([with_stars(rng, first), *rest])]
    if first == HOME:
        choices.append("/" + "/".join(starred))
    if "*" not in first:
        choices.append(f"domain={first}")
    return entry(rng.choice([text for text in choices if len(text) <= 40]))


def wider_window(rng, old):
    more = [rng.sample(values, k=rng.choice((0, 0, 1, 2))) for values in notes.SETS.values()]
    return Window(tuple(members.union(values) for members, values in zip(old.sets, more)))


def wider_block(rng, old):
    return old.supernet(prefixlen_diff=rng.randint(0, min(8, old.prefixlen)))


def same(rng, old):
    return old


def wider_list(rng, items, wider, drawn, most):
    """Each item made wider, in another order, with further items that are drawn."""
    result = [wider(rng, item) for item in items]
    while len(result) < most and maybe(rng, 0.2):
        result.append(drawn(rng))
    rng.shuffle(result)
    return tuple(result)


def wider_or_empty(rng, items, wider, drawn, most):
    return wider_list(rng, items, wider, drawn, most) if items and maybe(rng, 0.8) else ()


def wider_context(rng, old):
    return Context(
        wider_or_empty(rng, old.windows, wider_window, random_window, 4),
        wider_or_empty(rng, old.blocks, wider_block, random_block, 4),
        wider_or_empty(rng, old.countries, same, random_country, 2),
    )


def wider_rule(rng, old):
    return Rule(
        old.side,
        old.authenticated and maybe(rng, 0.7),
        frozenset(name for name in notes.OPERATIONS if name in old.operations or maybe(rng, 0.2)),
        wider_list(rng, old.originators, wider_entry, random_entry, 4),
        wider_or_empty(rng, old.types, same, lambda rng: rng.choice((3, 4, 5)), 4),
        wider_or_empty(rng, old.contexts, wider_context, random_context, 2),
    )


def narrower_context(rng, old):
    """Fewer items, smaller blocks."""

    def some(items):
        return tuple(item for item in items if maybe(rng, 0.7)) or items[:1]

    smaller = tuple(next(one.subnets(prefixlen_diff=rng.randint(0, 4))) for one in some(old.blocks))
    return Context(some(old.windows), smaller, some(old.countries))


# Breaks: each takes a rule and one that it covers, and answers a pair of which the first does not cover the second


def put_in(rng, items, item, most):
    items = list(items[: most - 1])
    items.insert(rng.randint(0, len(items)), item)
    return tuple(items)


def break_side(rng, one, other):
    return replace(one, side=next(side for side in notes.SIDES if side != other.side)), other


def break_flag(rng, one, other):
    return replace(one, authenticated=True), replace(other, authenticated=False)


def break_operations(rng, one, other):
    name = rng.choice(notes.OPERATIONS)
    return replace(one, operations=one.operations - {name}), replace(other, operations=other.operations | {name})


def break_originators(rng, one, other):
    """The other has an entry that only all and itself cover, and the first has neither."""
    strange = entry(rng.choice(("domain=d.e.f", "standing=u", "all")))
    mine = tuple(entry("/ab") if old.kind == "all" else old for old in one.originators)
    return replace(one, originators=mine), replace(other, originators=put_in(rng, other.originators, strange, 4))


def break_types(rng, one, other):
    theirs = () if maybe(rng, 0.4) else put_in(rng, other.types, 24, 4)
    return replace(one, types=one.types or (3,)), replace(other, types=theirs)


def break_contexts(rng, one, other):
    """The first has countries in each context, and none of them is AQ."""
    mine = [replace(old, countries=old.countries or ("CL",)) for old in one.contexts or [Context()]]
    theirs = () if maybe(rng, 0.3) else put_in(rng, other.contexts, Context(countries=("AQ",)), 2)
    return replace(one, contexts=tuple(mine)), replace(other, contexts=theirs)


BREAKS = (break_side, break_flag, break_operations, break_originators, break_types, break_contexts)
