"""Rules and their notes: reading, writing and wording, as docs/ states them.

A note is taken as a row of binary digits. Reading moves along it field by field; writing lists the fields of a
rule with their widths and strings them together.
"""
import ipaddress
import re
from dataclasses import dataclass
from itertools import groupby

SIDES = ("privileges", "selfPrivileges")
OPERATIONS = ("create", "retrieve", "update", "delete", "discover", "notify")
KINDS = ("all", "pattern", "domain", "standing")
# The seven sets of a window, and the values that each can hold.
SETS = {
    "seconds": range(60),
    "minutes": range(60),
    "hours": range(24),
    "days": range(1, 32),
    "months": range(1, 13),
    "weekdays": range(7),
    "years": range(2000, 2100),
}
# A block is a network of Python's: it has a version (the family), a prefix length and an address.
FAMILIES = (ipaddress.IPv4Network, ipaddress.IPv6Network)
WIDTHS = (32, 128)

SEGMENT = rb"[!-)+-.0-~]+"  # 0x21 to 0x7E without * and /
STARRED = rb"[!-.0-~]+"  # 0x21 to 0x7E without /
# The form of each kind of text, and the most bytes that it has.
TEXTS = {
    "identity": (rb"//S(/S){1,2}".replace(b"S", SEGMENT), 40),
    "pattern": (rb"//S(/S){1,2}|/S(/S)?".replace(b"S", STARRED), 40),
    "domain": (SEGMENT, 24),
    "standing": (rb"[!-)+-~]+", 40),  # 0x21 to 0x7E without *
}


def lawful_text(kind, text):
    form, most = TEXTS[kind]
    return len(text) <= most and re.fullmatch(form, text) is not None


class Fault(Exception):
    """What is wrong with a note, and at which bit."""

    def __init__(self, number, place):
        super().__init__(number, place)
        self.number = number
        self.place = place
        self.layer = "bits" if number == 1 else "note"

    def __str__(self):
        return f"refused {self.number} at {self.place} {self.layer}"


@dataclass(frozen=True)
class Originator:
    kind: str
    text: bytes = b""


@dataclass(frozen=True)
class Window:
    sets: tuple  # seven frozensets, in the order of SETS


@dataclass(frozen=True)
class Context:
    windows: tuple = ()
    blocks: tuple = ()
    countries: tuple = ()  # of two letters each


@dataclass(frozen=True)
class Rule:
    side: str
    authenticated: bool
    operations: frozenset
    originators: tuple
    types: tuple = ()
    contexts: tuple = ()


# Reading


class Cursor:
    """A place in the binary digits of a note."""

    def __init__(self, note):
        self.digits = "".join(f"{byte:08b}" for byte in note)
        self.place = 0

    def take(self, width, number=None, lawful=lambda value: True):
        """The next field. A value that is not lawful is refused with the number, at the field's first bit."""
        first, end = self.place, self.place + width
        if end > len(self.digits):
            raise Fault(1, first)
        value = int(self.digits[first:end], 2)
        if not lawful(value):
            raise Fault(number, first)
        self.place = end
        return value

    def count(self, width, least, most):
        return self.take(width, 2, lambda count: least <= count <= most)

    def end(self):
        rest = self.digits[self.place :]
        if len(rest) > 7 or "1" in rest:
            raise Fault(7, self.place)


def several(count, read_item, cursor):
    return tuple(read_item(cursor) for _ in range(count))


def chosen(digits, values):
    """The values whose digit is 1; the first value has the most significant digit."""
    return frozenset(value for place, value in enumerate(reversed(values)) if digits >> place & 1)


def read_originator(cursor):
    kind = KINDS[cursor.take(2)]
    length = cursor.count(6, 0, 0) if kind == "all" else cursor.count(6, 1, 40)
    if not length:
        return Originator(kind)
    text = cursor.take(8 * length, 3, lambda value: lawful_text(kind, value.to_bytes(length, "big")))
    return Originator(kind, text.to_bytes(length, "big"))


def read_type(cursor):
    return cursor.take(16)


def read_window(cursor):
    return Window(tuple(chosen(cursor.take(len(values), 4, bool), values) for values in SETS.values()))


def read_block(cursor):
    family = cursor.take(1)
    network, width = FAMILIES[family], WIDTHS[family]
    prefix = cursor.take(8, 5, lambda length: length <= width)

    def lawful(address):
        try:
            return network((address, prefix)) is not None
        except ValueError:  # a bit is set beyond the prefix
            return False

    return network((cursor.take(width, 5, lawful), prefix))


def read_country(cursor):
    return "".join(chr(cursor.take(8, 6, range(0x41, 0x5B).__contains__)) for _ in range(2))


def read_context(cursor):
    windows = cursor.count(3, 0, 4)
    blocks = cursor.count(3, 0, 4)
    countries = cursor.count(2, 0, 2)
    return Context(
        several(windows, read_window, cursor),
        several(blocks, read_block, cursor),
        several(countries, read_country, cursor),
    )


def read(note):
    """The rule of a note, or a Fault."""
    cursor = Cursor(note)
    side = SIDES[cursor.take(1)]
    authenticated = bool(cursor.take(1))
    operations = chosen(cursor.take(6), OPERATIONS)
    originators = cursor.count(3, 1, 4)
    contexts = cursor.count(2, 0, 2)
    types = cursor.count(3, 0, 4)
    rule = Rule(
        side,
        authenticated,
        operations,
        several(originators, read_originator, cursor),
        several(types, read_type, cursor),
        several(contexts, read_context, cursor),
    )
    cursor.end()
    return rule


# Writing


def set_digits(members, values):
    return int("".join("01"[value in members] for value in values), 2)


def fields(rule):
    """The fields of a rule's note: name, width, value."""
    yield "side", 1, SIDES.index(rule.side)
    yield "authentication flag", 1, int(rule.authenticated)
    yield "operations", 6, set_digits(rule.operations, OPERATIONS)
    yield "originator count", 3, len(rule.originators)
    yield "context count", 2, len(rule.contexts)
    yield "child type count", 3, len(rule.types)
    for originator in rule.originators:
        yield "kind", 2, KINDS.index(originator.kind)
        yield "length", 6, len(originator.text)
        if originator.text:
            yield "text", 8 * len(originator.text), int.from_bytes(originator.text, "big")
    for child_type in rule.types:
        yield "child type", 16, child_type
    for context in rule.contexts:
        yield "window count", 3, len(context.windows)
        yield "block count", 3, len(context.blocks)
        yield "country count", 2, len(context.countries)
        for window in context.windows:
            for (name, values), members in zip(SETS.items(), window.sets):
                yield name, len(values), set_digits(members, values)
        for block in context.blocks:
            yield "family", 1, FAMILIES.index(type(block))
            yield "prefix length", 8, block.prefixlen
            yield "address", block.max_prefixlen, int(block.network_address)
        for first, second in context.countries:
            yield "first letter", 8, ord(first)
            yield "second letter", 8, ord(second)


def pack(widths_and_values):
    """Fields strung together, with zero bits up to a whole byte."""
    digits = "".join(f"{value:0{width}b}" for width, value in widths_and_values)
    digits += "0" * (-len(digits) % 8)
    return int(digits, 2).to_bytes(len(digits) // 8, "big")


def write(rule):
    """The note of a rule."""
    return pack((width, value) for _, width, value in fields(rule))


# Words


def spans(values):
    """Values in rising order, neighbours as a range: 0,15-59."""
    spans = []
    for _, pairs in groupby(enumerate(sorted(values)), lambda pair: pair[1] - pair[0]):
        run = [value for _, value in pairs]
        spans.append(f"{run[0]}-{run[-1]}" if len(run) > 1 else f"{run[0]}")
    return ",".join(spans)


def originator_words(originator):
    return f"{originator.kind} {originator.text.decode('ascii')}".rstrip(" ")


def window_words(window):
    pairs = zip(SETS.items(), window.sets)
    parts = [f"{name} {spans(members)}" for (name, values), members in pairs if len(members) < len(values)]
    return " ".join(parts) or "always"


def block_words(block):
    if block.version == 4:
        return f"{block.network_address}/{block.prefixlen}"
    groups = block.network_address.exploded.split(":")
    return ":".join(f"{int(group, 16):x}" for group in groups) + f"/{block.prefixlen}"


def context_words(context):
    parts = []
    if context.windows:
        parts.append("windows " + " or ".join(map(window_words, context.windows)))
    if context.blocks:
        parts.append("blocks " + ",".join(map(block_words, context.blocks)))
    if context.countries:
        parts.append("countries " + ",".join(context.countries))
    return "in context " + (" ".join(parts) or "anything")


def words(rule):
    """The rule in words."""
    operations = ",".join(name for name in OPERATIONS if name in rule.operations) or "none"
    parts = ["rule", rule.side, operations, "from", ", ".join(map(originator_words, rule.originators))]
    if rule.authenticated:
        parts.append("if authenticated")
    if rule.types:
        parts.append("for types " + ",".join(map(str, rule.types)))
    if rule.contexts:
        parts.append(" or ".join(map(context_words, rule.contexts)))
    return " ".join(parts)
