#!/usr/bin/env python3
"""Cases for the calls `read` and `write`.

  note_cases.py                 writes crates/journal/data/notes.journal
  note_cases.py --check-docs    compares notes.py with the tables of docs/NOTE-FORMAT.md

Where a case has an answer that is known without the reader, notes.py is held to it while the journal is written.
"""
import ipaddress
import pathlib
import random
import re
import sys

sys.dont_write_bytecode = True  # leaves no tools/__pycache__
import notes
from notes import Context, Originator, Rule, Window

ROOT = pathlib.Path(__file__).resolve().parent.parent
PATTERN, DOMAIN, STANDING = 1, 2, 3
SEED = 2099
FULL = [(1 << len(values)) - 1 for values in notes.SETS.values()]
SET_WIDTHS = [len(values) for values in notes.SETS.values()]


def outcome(note):
    """The number and the place of a note's fault; None for a lawful note."""
    try:
        notes.read(note)
    except notes.Fault as fault:
        return fault.number, fault.place
    return None


# The journal


class Journal:
    def __init__(self):
        self.lines = []

    def group(self, comment):
        if self.lines:
            self.line(b"")
        self.line(f"# {comment}".encode())

    def line(self, text):
        self.lines.append(text)

    def call(self, name, note):
        self.line(f"{name} {note.hex() or '-'}".encode())

    def good(self, *row):
        for note in row:
            assert notes.write(notes.read(note)) == note, note.hex()
            self.call("read", note)

    def both(self, *row):
        """Lawful notes, read and written."""
        for note in row:
            self.good(note)
            self.call("write", note)

    def bad(self, number, place, *row):
        for note in row:
            assert outcome(note) == (number, place), (note.hex(), outcome(note), number, place)
            self.call("read", note)


# Small notes: the head has Retrieve and Notify, and what is not given is as short as it can be.


def counted(originators, contexts, types, rest=b""):
    return notes.pack([(8, 0x11), (3, originators), (2, contexts), (3, types)]) + rest


def from_one(kind, length, text=b""):
    return counted(1, 0, 0, bytes([kind << 6 | length]) + text)


def from_text(kind, text):
    return from_one(kind, len(text), text)


def in_context(windows, blocks, countries, *fields):
    """All originators, one context; its items begin at bit 32."""
    return notes.pack([(24, 0x112800), (3, windows), (3, blocks), (2, countries), *fields])


def window(**sets):
    """The fields of a window; sets that are not given are full."""
    return [(width, sets.get(name, full)) for name, width, full in zip(notes.SETS, SET_WIDTHS, FULL)]


def block(family, prefix, address):
    return [(1, family), (8, prefix), (notes.WIDTHS[family], address)]


# Groups of cases


def heads(journal):
    journal.group("The head: both sides, the flag, each operation alone, none, all.")
    for first in (0x00, 0x80, 0x40, 0xC0, 0x20, 0x10, 0x08, 0x04, 0x02, 0x01, 0x3F, 0xFF, 0x2A, 0x15):
        journal.good(bytes([first, 0x20, 0x00]))
    journal.group("The head is cut, with good and with bad bits before the cut.")
    journal.bad(1, 0, b"")
    journal.bad(1, 8, b"\x00", b"\x11", b"\xff")
    journal.group("Originator count: 0, 5 and 7 are outside, 1 and 4 are inside.")
    for count in (0, 5, 7):
        journal.bad(2, 8, counted(count, 0, 0), counted(count, 0, 0, bytes(count)), counted(count, 3, 7))
    for count in (1, 2, 3, 4):
        journal.good(counted(count, 0, 0, bytes(count)))
        journal.bad(1, 8 + 8 * count, counted(count, 0, 0, bytes(count - 1)))
        journal.bad(7, 16 + 8 * count, counted(count, 0, 0, bytes(count + 1)))
    journal.group("Context count: 3 is outside, 2 is inside.")
    journal.bad(2, 11, counted(1, 3, 0), counted(1, 3, 0, bytes(4)), counted(1, 3, 7))
    for count in (0, 1, 2):
        journal.good(counted(1, count, 0, bytes(1 + count)))
    journal.bad(1, 32, counted(1, 2, 0, bytes(2)))
    journal.group("Child type count: 5 and 7 are outside, 4 is inside.")
    for count in (5, 7):
        journal.bad(2, 13, counted(1, 0, count), counted(1, 0, count, bytes(1 + 2 * count)))
    for count in (0, 1, 2, 3, 4):
        journal.good(counted(1, 0, count, bytes(1 + 2 * count)))
    journal.group("Child types: the least, the greatest, several orders, equal ones; the last one is cut.")
    for types in ("0000", "ffff", "0001fffe", "00030003", "80007fff00ff0100"):
        types = bytes.fromhex(types)
        journal.good(counted(1, 0, len(types) // 2, b"\0" + types))
        journal.bad(1, 8 + 8 * len(types), counted(1, 0, len(types) // 2, b"\0" + types[:-1]))
        journal.bad(1, 8 + 8 * len(types), counted(1, 0, len(types) // 2, b"\0" + types[:-2]))


def lengths(journal):
    journal.group("Length of all: 0 is inside, 1, 40, 41 and 63 are outside, with and without bytes that follow.")
    journal.good(from_one(0, 0))
    for length in (1, 2, 32, 40, 41, 63):
        journal.bad(2, 18, from_one(0, length), from_one(0, length, b"a" * length))
    journal.group("Length of the other kinds: 0, 41 and 63 are outside, with and without the text.")
    for kind in (PATTERN, DOMAIN, STANDING):
        journal.bad(2, 18, from_one(kind, 0), from_one(kind, 0, b"/a"))
        for length in (41, 63):
            text = b"/" + b"a" * (length - 1)
            journal.bad(2, 18, from_one(kind, length), from_one(kind, length, text))
    journal.group("Lengths 1, 2, 39 and 40 of each kind. A pattern has at least 2 bytes, a domain at most 24.")
    journal.bad(3, 24, from_text(PATTERN, b"/"), from_text(PATTERN, b"a"), from_text(PATTERN, b"*"))
    for length in (2, 39, 40):
        journal.good(from_text(PATTERN, b"/" + b"a" * (length - 1)))
    for length in (1, 2, 23, 24):
        journal.good(from_text(DOMAIN, b"d" * length))
    for length in (25, 26, 39, 40):
        journal.bad(3, 24, from_text(DOMAIN, b"d" * length))
    for length in (1, 2, 24, 25, 39, 40):
        journal.good(from_text(STANDING, b"s" * length))
    journal.group("Cut texts: the length is checked first, the bytes that are there are not looked at.")
    for kind in (PATTERN, DOMAIN, STANDING):
        journal.bad(1, 24, from_one(kind, 1), from_one(kind, 40), from_one(kind, 24, b"a" * 23))
        journal.bad(1, 24, *(from_one(kind, 2, byte) for byte in (b"/", b"*", b" ")), from_one(kind, 40, b"\xff" * 39))
    journal.group("A byte follows the text.")
    for kind, text in ((PATTERN, b"/a"), (DOMAIN, b"a"), (STANDING, b"a")):
        journal.bad(7, 24 + 8 * len(text), from_text(kind, text) + b"a", from_text(kind, text) + b"\0")


def texts(journal):
    journal.group("Patterns, absolute: two or three segments, stars, a first segment of more than 24 bytes.")
    for text in (
        "//a/b //a/b/c //*/* //*/*/* //**/** //a*b*c/*d*/e* //m2msp.org/S988 //m2msp.org/myCSE7/C9886 //-/- //!/~ "
        "//aaaaaaaaaaaaaaaaaaaaaaaaa/b //aaaaaaaaaaaaaaaaaaaaaaaaaaaaaaaaaaaa/b "
        "//a/bbbbbbbbbbbbbbbbbbbbbbbbbbbbbbbbbbbb //a/b/cccccccccccccccccccccccccccccccccc"
    ).split():
        journal.good(from_text(PATTERN, text.encode()))
    journal.group("Patterns, SP-relative: one or two segments.")
    for text in "/a /a/b /* /** /*/* /**/** /myCSE*/C98* /myCSE* /a*b /!/~ /aaaaaaaaaaaaaaaaaaaaaaaaa/b".split():
        journal.good(from_text(PATTERN, text.encode()))
    journal.good(from_text(PATTERN, b"/" + b"*" * 39))
    journal.group("No patterns: no slash, one absolute segment, empty segments, too many slashes, too many segments.")
    for text in (
        "a ab a/b a//b a/b/c * ** *a *//a */a a/ a// / // /// //// //a //* //aaaaaaaaaaaaaaaaaaaaaaaaa "
        "///a ///a/b ///a/b/c ////a /a/ /a// /a//b //a/ //a// //a//b //a/b/ //a/b// //a/b//c //a//b/c //a/b/c/ "
        "/a/b/ /a/b/c /a/b/c/d /a/b//c /*/*/* //a/b/c/d //*/*/*/* //a/b/c/d/e"
    ).split():
        journal.bad(3, 24, from_text(PATTERN, text.encode()))
    journal.group("Domains: one segment; a slash or a star at any place breaks it.")
    for text in ("m2msp.org", "d", "-", ".", "!", "~", "other.example", "a,b", "a#b", "M2MSP.ORG"):
        journal.good(from_text(DOMAIN, text.encode()))
    for text in ("/", "*", "**", "//", "/a", "a/", "a/b", "//a/b", "*a", "a*", "a*b", "m2msp.*"):
        journal.bad(3, 24, from_text(DOMAIN, text.encode()))
    journal.group("Standings: slashes anywhere; a star at any place breaks them.")
    for text in ("night-crew", "/obs/group7", "crew1", "/", "//", "/" * 40, "a//", "///a", "a/b/c/d/e", "all", "a,"):
        journal.good(from_text(STANDING, text.encode()))
    for text in ("*", "**", "*a", "a*", "a*b", "/*", "*/", "a" * 39 + "*", "*" + "a" * 39):
        journal.bad(3, 24, from_text(STANDING, text.encode()))


def text_bytes(journal):
    inside = bytes.fromhex("00 0a 1f 20 21 29 2b 2e 30 7e 7f 80 aa af ff")
    at_ends = bytes.fromhex("20 21 7e 7f")
    for kind, name, start in ((PATTERN, "pattern", b"/"), (DOMAIN, "domain", b""), (STANDING, "standing", b"")):
        journal.group(f"Bytes of a {name}: 0x21 to 0x7e and no others, inside it, at its beginning and at its end.")
        texts = [b"x%cx" % byte for byte in inside]
        texts += [b"%cx" % byte for byte in at_ends] + [b"x%c" % byte for byte in at_ends]
        for text in texts:
            note = from_text(kind, start + text)
            if all(0x21 <= byte <= 0x7E for byte in text):
                journal.good(note)
            else:
                journal.bad(3, 24, note)
    journal.group("A blank after a text, before it, alone.")
    for kind, text in ((PATTERN, b"/a"), (DOMAIN, b"a"), (STANDING, b"a")):
        journal.bad(3, 24, from_text(kind, text + b" "), from_text(kind, b" " + text), from_text(kind, b" "))
    journal.group("Texts that together hold every visible byte that their kind allows.")
    visible = bytes(range(0x21, 0x7F))
    for kind, without, start, size in (
        (PATTERN, b"/", b"/", 39),
        (PATTERN, b"/", b"//a/", 36),
        (DOMAIN, b"/*", b"", 24),
        (STANDING, b"*", b"", 40),
    ):
        allowed = bytes(byte for byte in visible if byte not in without)
        pieces = [allowed[i : i + size] for i in range(0, len(allowed), size)]
        entries = [bytes([kind << 6 | len(start + piece)]) + start + piece for piece in pieces]
        journal.both(counted(len(entries), 0, 0, b"".join(entries)))
    journal.group("Several originators: each kind in each of four places; the fault is in the last one.")
    entries = [b"\x00", b"\x44/a/b", b"\x81d", b"\xc5crew1"]
    for turn in range(4):
        row = entries[turn:] + entries[:turn]
        journal.both(counted(4, 0, 0, b"".join(row)))
        start = b"".join(row[:3])
        place = 16 + 8 * len(start)
        journal.bad(1, place, counted(4, 0, 0, start))
        journal.bad(2, place + 2, counted(4, 0, 0, start + b"\x01"), counted(4, 0, 0, start + b"\xff"))
        journal.bad(3, place + 8, counted(4, 0, 0, start + b"\x81/"))
    journal.good(counted(4, 0, 0, b"\xc1a" * 4), counted(2, 0, 0, b"\x42/a\x42/a"), counted(3, 0, 0, b"\x00\x00\x81d"))


def contexts(journal):
    journal.group("Window count: 5 and 7 are outside. Block count: 5 and 7. Country count: 3.")
    for count in (5, 7):
        journal.bad(2, 24, in_context(count, 0, 0), in_context(count, 7, 3), in_context(count, 0, 0, (400, 0)))
        journal.bad(2, 27, in_context(0, count, 0), in_context(4, count, 3), in_context(0, count, 0, (400, 0)))
    journal.bad(2, 30, in_context(0, 0, 3), in_context(4, 4, 3), in_context(1, 1, 3, (400, 0)))
    journal.group("Counts inside their limits: none, and full lists of one kind.")
    any_v4, any_v6 = block(0, 0, 0), block(1, 0, 0)
    journal.good(in_context(0, 0, 0))
    for count in (1, 2, 3, 4):
        journal.good(in_context(count, 0, 0, *window() * count))
        journal.good(in_context(0, count, 0, *any_v4 * count), in_context(0, count, 0, *any_v6 * count))
    for count in (1, 2):
        journal.good(in_context(0, 0, count, *[(16, 0x4341)] * count))
    journal.group("All three counts are there, and the first item is missing.")
    journal.bad(1, 32, in_context(4, 4, 2), in_context(1, 0, 0), in_context(0, 1, 0), in_context(0, 0, 1))
    journal.group("Two contexts: the second one is missing, has a bad count, is empty.")
    pair = 0x113000
    journal.bad(1, 32, notes.pack([(24, pair), (8, 0)]))
    journal.bad(2, 32, notes.pack([(24, pair), (8, 0), (8, 0xA0)]))
    journal.bad(2, 35, notes.pack([(24, pair), (8, 0), (8, 0x14)]))
    journal.bad(2, 38, notes.pack([(24, pair), (8, 0), (8, 0x03)]))
    journal.good(notes.pack([(24, pair), (8, 0), (8, 0)]))
    journal.good(notes.pack([(24, pair), (8, 1), (16, 0x4341), (8, 0)]))
    journal.good(notes.pack([(24, pair), (8, 0), (8, 4), *any_v4]))


def windows(journal):
    names = list(notes.SETS)
    full = dict(zip(names, FULL))
    place = 32
    for index, (name, width) in enumerate(zip(names, SET_WIDTHS)):
        journal.group(f"The {name}: an empty set, a cut set, one value at each end, and sets of several values.")
        empty = in_context(1, 0, 0, *window(**{name: 0}))
        journal.bad(4, place, empty, empty[: (place + width + 7) // 8])
        journal.bad(1, place, empty[: (place + width - 1) // 8])
        journal.bad(4, place, in_context(1, 0, 0, *window(**dict.fromkeys(names[index:], 0))))
        first, last, every = 1 << width - 1, 1, full[name]
        sets = (first, last, first | last, first | first >> 1, 0b11, 0b101, 0b1101, every - 1)
        stripes = int("10" * width, 2) >> width & every
        for value in sets + (every ^ first, every ^ first >> 2, stripes):
            journal.good(in_context(1, 0, 0, *window(**{name: value})))
        place += width
    journal.group("Windows with all sets at one end, with one full set, and several windows.")
    least = {name: 1 << width - 1 for name, width in zip(notes.SETS, SET_WIDTHS)}
    most = dict.fromkeys(notes.SETS, 1)
    journal.good(in_context(1, 0, 0, *window(**least)), in_context(1, 0, 0, *window(**most)))
    for name in notes.SETS:
        journal.good(in_context(1, 0, 0, *window(**{**most, name: full[name]})))
    journal.good(in_context(3, 0, 0, *window(**least), *window(), *window(**most)))
    journal.good(in_context(2, 0, 0, *window(hours=2), *window(hours=2)))
    journal.group("The third window has an empty set; the fourth is missing.")
    for place, name in zip((620, 680, 740, 764, 795, 807, 814), notes.SETS):
        journal.bad(4, place, in_context(4, 0, 0, *window() * 2, *window(**{name: 0})))
    journal.bad(1, 32 + 3 * 294, in_context(4, 0, 0, *window() * 3))


def blocks(journal):
    for family, width in enumerate(notes.WIDTHS):
        ones = (1 << width) - 1
        journal.group(f"Prefix lengths of {width} bits: {width} is inside, {width + 1} and 255 are outside.")
        for prefix in (0, 1, 8, 31, 32, 33, 64, 127, 128):
            if prefix <= width:
                kept = ones ^ ones >> prefix
                journal.good(in_context(0, 1, 0, *block(family, prefix, kept)))
                journal.good(in_context(0, 1, 0, *block(family, prefix, 0)))
        for prefix in (33, 64, 128, 129, 255):
            if prefix > width:
                journal.bad(5, 33, in_context(0, 1, 0, *block(family, prefix, 0)))
                journal.bad(5, 33, in_context(0, 1, 0, (1, family), (8, prefix)))
        journal.group(f"Addresses of {width} bits: the first and the last bit beyond the prefix, the last inside it.")
        for prefix in (0, 1, 15, 16, width - 2):
            journal.bad(5, 41, in_context(0, 1, 0, *block(family, prefix, 1 << width - prefix - 1)))
            journal.bad(5, 41, in_context(0, 1, 0, *block(family, prefix, 1)))
            if prefix:
                journal.good(in_context(0, 1, 0, *block(family, prefix, 1 << width - prefix)))
        journal.bad(5, 41, *(in_context(0, 1, 0, *block(family, prefix, ones)) for prefix in (0, width - 1)))
        journal.good(*(in_context(0, 1, 0, *block(family, width, address)) for address in (1, ones)))
        journal.group(f"Addresses of {width} bits that are cut, also where a bit beyond the prefix is set.")
        for address in (0, ones):
            note = in_context(0, 1, 0, *block(family, 0, address))
            journal.bad(1, 41, *(note[:end] for end in (6, 7, len(note) - 2, len(note) - 1)))
        journal.bad(1, 32, in_context(0, 1, 0))
        journal.bad(1, 33, in_context(0, 1, 0, (1, family)))
    journal.group("Words of blocks: zeros are kept, nothing is shortened.")
    for text in (
        "0.0.0.0/0 255.255.255.255/32 88.77.0.0/16 88.77.12.5/32 10.0.0.0/8 1.2.3.4/32 128.0.0.0/1 "
        "::/0 ::1/128 ::ffff:88.77.0.1/128 2001:db8::/32 fe80::/10 1:0:0:2::/64 0:1:: a:b:c:d:e:f:0:1 "
        "1000:100:10:1:f000:f00:f0:f ff00::/8 8000::/1 100::"
    ).split():
        network = ipaddress.ip_network(text)
        family = int(network.version == 6)
        journal.good(in_context(0, 1, 0, *block(family, network.prefixlen, int(network.network_address))))
    journal.group("Several blocks of both families; a fault in the last one.")
    row = block(0, 16, 0x584D0000) + block(1, 32, 0x20010DB8 << 96) + block(0, 32, 1)
    journal.good(in_context(0, 3, 0, *row), in_context(0, 4, 0, *row, *block(1, 128, 1)))
    journal.bad(1, 252, in_context(0, 4, 0, *row))  # bit 251 is there as padding
    journal.bad(5, 252, in_context(0, 4, 0, *row, *block(1, 129, 1)), in_context(0, 4, 0, *row, *block(0, 33, 1)))
    journal.bad(5, 260, in_context(0, 4, 0, *row, *block(1, 127, 1)), in_context(0, 4, 0, *row, *block(0, 31, 1)))


def countries(journal):
    journal.group("Letters: A and Z are the ends; @, [ and the small letters are outside.")
    for letter in (0x00, 0x40, 0x5B, 0x61, 0xC1, 0xFF):
        journal.bad(6, 32, in_context(0, 0, 1, (8, letter), (8, 0x41)), in_context(0, 0, 1, (8, letter)))
        journal.bad(6, 32, in_context(0, 0, 1, (8, letter), (8, letter)))
        journal.bad(6, 40, in_context(0, 0, 1, (8, 0x41), (8, letter)))
        journal.bad(6, 48, in_context(0, 0, 2, (16, 0x5A5A), (8, letter), (8, 0x41)))
        journal.bad(6, 56, in_context(0, 0, 2, (16, 0x5A5A), (8, 0x5A), (8, letter)))
    for letters in (b"AA", b"AZ", b"ZA", b"ZZ", b"BY", b"YB", b"CL", b"DE", b"XX"):
        journal.good(in_context(0, 0, 1, (16, int.from_bytes(letters, "big"))))
    journal.good(in_context(0, 0, 2, (32, 0x434C4445)), in_context(0, 0, 2, (32, 0x434C434C)))
    journal.group("Countries that are cut.")
    journal.bad(1, 32, in_context(0, 0, 1))
    journal.bad(1, 40, in_context(0, 0, 1, (8, 0x41)))
    journal.bad(1, 48, in_context(0, 0, 2, (16, 0x4141)))
    journal.bad(1, 56, in_context(0, 0, 2, (24, 0x414141)))


def paddings(journal):
    journal.group("Padding of 0 to 7 bits: each end of it set, all of it set; bytes too many, zero or not, and both.")
    for count in range(8):
        first, second = min(count, 4), max(count - 4, 0)
        any_v4 = block(0, 0, 0)
        row = [(24, 0x113000), (8, first << 2), *any_v4 * first, (8, second << 2), *any_v4 * second]
        end = sum(width for width, _ in row)
        padding = -end % 8
        note = notes.pack(row)
        journal.both(note)
        if padding:
            for bits in sorted({1, 1 << padding - 1, (1 << padding) - 1}):
                journal.bad(7, end, notes.pack([*row, (padding, bits)]))
            journal.bad(7, end, notes.pack([*row, (padding, 1)]) + b"\0")
        for more in (b"\0", b"\0\x01", bytes(17)):
            journal.bad(7, end, note + more)


def rich_rule():
    night = [frozenset(values) for values in notes.SETS.values()]
    night[1], night[2], night[5] = frozenset(range(15, 60)), frozenset([22]), frozenset(range(1, 6))
    once = [frozenset([values[0]]) for values in notes.SETS.values()]
    last = [frozenset([values[-1]]) for values in notes.SETS.values()]
    network = ipaddress.ip_network
    return Rule(
        "selfPrivileges",
        True,
        frozenset(["create", "update", "notify"]),
        (
            Originator("pattern", b"/myCSE*/C98*"),
            Originator("domain", b"m2msp.org"),
            Originator("all"),
            Originator("standing", b"/obs/group7"),
        ),
        (0, 4, 65535, 4),
        (
            Context(
                (Window(tuple(night)), Window(tuple(once))),
                (network("88.77.0.0/16"), network("2001:db8::/32")),
                ("CL", "DE"),
            ),
            Context((Window(tuple(last)),), (network("fe80::/10"), network("116.27.123.0/24")), ("ZA",)),
        ),
    )


def broken_values(name, width, value, before):
    """The fault that a field can have, and values that have it; before is the value of the field before it."""
    if name == "length":
        return 2, (0, 41, 63) if before else (1, 63)
    if name == "text":
        text = value.to_bytes(width // 8, "big")
        wrong = (b" " + text[1:], b"\xff" + text[1:], text[:-1] + b"\x7f")
        return 3, tuple(int.from_bytes(text, "big") for text in wrong)
    if name == "prefix length":
        return 5, (129, 255) if before else (33, 255)
    if name == "address":
        return 5, (value | 1, value | 1 << width - before - 1)
    if name in notes.SETS:
        return 4, (0,)
    if name in ("first letter", "second letter"):
        return 6, (0x40, 0x5B, 0x61)
    counts = {
        "originator count": (0, 5, 7),
        "context count": (3,),
        "child type count": (5, 7),
        "window count": (5, 7),
        "block count": (5, 7),
        "country count": (3,),
    }
    return 2, counts.get(name, ())


def rich(journal):
    rule = rich_rule()
    row = [list(field) for field in notes.fields(rule)]
    note = notes.write(rule)
    journal.group("A rich note: all kinds of originators, four child types, two contexts with all kinds of items.")
    journal.both(note)
    journal.group("The rich note, cut after each of its bytes.")
    places = [0]
    for _, width, _ in row:
        places.append(places[-1] + width)
    for length in range(len(note)):
        missing = next(place for place, end in zip(places, places[1:]) if end > 8 * length)
        journal.bad(1, missing, note[:length])
    journal.bad(7, places[-1], note + b"\0", note[:-1] + bytes([note[-1] | 1]))
    journal.group("The rich note with each field broken in turn.")
    breakable = []
    for index, (name, width, value) in enumerate(row):
        number, values = broken_values(name, width, value, row[index - 1][2])
        for wrong in values:
            journal.bad(number, places[index], altered(row, {index: wrong}))
        if values:
            breakable.append((index, number, values[0]))
    journal.group("The rich note with a field and all later ones broken: the first one decides.")
    for start, (index, number, _) in enumerate(breakable):
        wrong = {index: value for index, _, value in breakable[start:]}
        journal.bad(number, places[index], altered(row, wrong))


def altered(row, wrong):
    return notes.pack((width, wrong.get(index, value)) for index, (_, width, value) in enumerate(row))


def longest(journal):
    always = Window(tuple(frozenset(values) for values in notes.SETS.values()))
    addresses = [ipaddress.IPv6Network((2**128 - 1 - number, 128)) for number in range(4)]
    context = Context((always,) * 4, tuple(addresses), ("AZ", "ZA"))
    originators = (
        Originator("pattern", b"//" + b"*" * 25 + b"/" + b"b" * 12),
        Originator("pattern", b"/" + b"p" * 39),
        Originator("standing", b"/" * 40),
        Originator("standing", b"~" * 40),
    )
    rule = Rule("selfPrivileges", True, frozenset(notes.OPERATIONS), originators, (65535,) * 4, (context,) * 2)
    note = notes.write(rule)
    assert len(note) == 615
    journal.group("The longest note, one byte more, many bytes more, one byte less.")
    journal.both(note)
    journal.bad(7, 4920, note + b"\0", note + b"\xff", note + bytes(100))
    journal.bad(1, 4912, note[:-1])
    journal.group("Inputs that are longer than the longest note, of which few bytes are looked at.")
    journal.bad(7, 24, bytes.fromhex("112000") + bytes(700))
    journal.bad(2, 8, bytes(700), b"\xff" * 700)
    journal.bad(3, 24, bytes.fromhex("112041") + b"\xff" * 700)


def random_text(rng, kind):
    visible = bytes(byte for byte in range(0x21, 0x7F) if byte not in b"*/")
    if kind == "domain":
        return bytes(rng.choices(visible, k=rng.randint(1, 24)))
    if kind == "standing":
        return bytes(rng.choices(visible + b"///", k=rng.randint(1, 40)))
    absolute = rng.random() < 0.5
    segments = rng.randint(1, 2) + absolute
    room = (39 - absolute - (segments - 1)) // segments
    parts = [bytes(rng.choices(visible + b"*" * 20, k=rng.randint(1, room))) for _ in range(segments)]
    return b"/" * (1 + absolute) + b"/".join(parts)


def random_set(rng, values):
    first, last = sorted(rng.choices(values, k=2))
    scattered = {first, *(value for value in values if rng.random() < 0.5)}
    return frozenset(rng.choice((values, [first], range(first, last + 1), scattered)))


def random_block(rng):
    family = rng.randrange(2)
    width = notes.WIDTHS[family]
    prefix = rng.choice((0, width, rng.randint(0, width)))
    return notes.FAMILIES[family]((rng.getrandbits(width) >> width - prefix << width - prefix, prefix))


def random_context(rng):
    letters = "ABCDEFGHIJKLMNOPQRSTUVWXYZ"
    return Context(
        tuple(
            Window(tuple(random_set(rng, values) for values in notes.SETS.values()))
            for _ in range(rng.choice((0, 0, 1, 1, 2, 4)))
        ),
        tuple(random_block(rng) for _ in range(rng.randint(0, 4))),
        tuple(rng.choice(letters) + rng.choice(letters) for _ in range(rng.randint(0, 2))),
    )


def random_rule(rng):
    kinds = rng.choices(notes.KINDS, k=rng.randint(1, 4))
    return Rule(
        rng.choice(notes.SIDES),
        rng.random() < 0.5,
        frozenset(name for name in notes.OPERATIONS if rng.random() < 0.5),
        tuple(Originator(kind, b"" if kind == "all" else random_text(rng, kind)) for kind in kinds),
        tuple(rng.choice((0, 3, 4, 65535, rng.randrange(65536))) for _ in range(rng.randint(0, 4))),
        tuple(random_context(rng) for _ in range(rng.randint(0, 2))),
    )


def flipped(note, bit):
    return bytes(byte ^ (0x80 >> bit % 8 if index == bit // 8 else 0) for index, byte in enumerate(note))


def random_notes(journal):
    rng = random.Random(SEED)
    journal.group("150 random lawful rules.")
    drawn = []
    for _ in range(150):
        rule = random_rule(rng)
        drawn.append(notes.write(rule))
        assert notes.read(drawn[-1]) == rule
        journal.both(drawn[-1])
    journal.group("The same notes, each with one random bit flipped.")
    for note in drawn:
        journal.call("read", flipped(note, rng.randrange(8 * len(note))))
    journal.group("Random bytes behind a lawful head and the originator all.")
    for _ in range(25):
        head = counted(1, rng.randint(1, 2), rng.randint(0, 4), b"\0")
        journal.call("read", head + rng.randbytes(rng.randint(8, 60)))


def each_bit(journal):
    journal.group("A note with a pattern, a block and a country, and the same with each of its bits flipped in turn.")
    network = ipaddress.ip_network
    context = Context((), (network("88.77.0.0/16"),), ("CL",))
    rule = Rule("privileges", False, frozenset(["retrieve"]), (Originator("pattern", b"/a"),), (), (context,))
    note = notes.write(rule)
    journal.both(note)
    for bit in range(8 * len(note)):
        journal.call("write", flipped(note, bit))


def note_words(journal):
    journal.group("Note words: either case of digits, mixed too; - is the empty note.")
    for word in ("112000", "1120C56372657731", "1120c56372657731", "112800014A4b", "112800014a4B", "-", "11FF", "11fF"):
        for call in ("read", "write"):
            journal.line(f"{call} {word}".encode())
    journal.group("No note words: none, empty ones, a further word.")
    for call in ("read", "write"):
        for rest in ("", " ", "  ", "  112000", " 112000 ", " 112000  ", " 112000 00", " 11 20 00", " - -", " zz 00"):
            journal.line(f"{call}{rest}".encode())
    journal.group("No note words: odd numbers of digits, neighbours of the digits and letters, signs, other bytes.")
    bad_words = (
        b"1 11200 1120000 g0 0g G0 0G @0 0@ `0 0` /0 0/ :0 0: -- -112000 112000- 11-2000 +112000 0x112000 11_2000 #1 "
        b"112000\r 112000\t \t112000 11\t2000 112000\0 11\x0b2000 1120\xff\xff \xef\xbc\x91\xef\xbc\x91 \xd9\xa1"
    ).split(b" ")
    for place, word in enumerate(bad_words):
        journal.line((b"read ", b"write ")[place % 2] + word)
    journal.group("No names of calls.")
    for name in ("READ", "Write", "reads", "rea", " read", "read\t", "112000", "-"):
        journal.line(f"{name} 112000".encode())


def documents(journal):
    journal.group("The worked notes of docs/NOTE-FORMAT.md.")
    journal.both(*worked_notes())
    journal.group("Its refused notes.")
    for note, number, place in refused_notes():
        journal.bad(number, place, note)
        journal.call("write", note)
    journal.group("Its lawful notes that are close to these.")
    journal.both(*lawful_notes())


GROUPS = (
    documents,
    note_words,
    heads,
    lengths,
    texts,
    text_bytes,
    contexts,
    windows,
    blocks,
    countries,
    paddings,
    each_bit,
    rich,
    longest,
    random_notes,
)


def write_journal():
    journal = Journal()
    journal.group("Notes, read and written. This file is written by tools/note_cases.py.")
    for group in GROUPS:
        group(journal)
    (ROOT / "crates/journal/data/notes.journal").write_bytes(b"\n".join(journal.lines) + b"\n")


# The tables of the documents


def section(document, heading):
    """The text under a heading, up to the next one of its level or above."""
    text = (ROOT / "docs" / document).read_text()
    level = heading.split()[0]
    start = text.index(f"\n{heading}\n") + len(heading) + 2
    following = re.compile(rf"^#{{1,{len(level)}}} ", re.M).search(text, start)
    return text[start : following.start() if following else None]


def table(text):
    """The rows of all tables of a text, without the lines that head them."""
    rows = [[cell.strip() for cell in line.strip("|").split("|")] for line in text.splitlines() if line.startswith("|")]
    return [row for row, after in zip(rows, rows[1:] + [[""]]) if "---" not in (row[0], after[0])]


def spelled(cell):
    """Bytes as the tables write them: (empty), or `11 20`, or `11 20 99` and 25 times `61`."""
    form = r"(?:\(empty\)|`([0-9a-f ]+)`)(?: and (\d+) times `([0-9a-f]{2})`)?"
    start, times, more = re.fullmatch(form, cell).groups(default="")
    return bytes.fromhex(start) + bytes.fromhex(more) * int(times or 0)


def refused_notes():
    rows = table(section("NOTE-FORMAT.md", "## Refused notes"))
    return [(spelled(note), int(number), int(place)) for note, number, place, _ in rows]


def lawful_notes():
    text = section("NOTE-FORMAT.md", "## Refused notes").partition("Lawful notes")[2]
    return [bytes.fromhex(note) for note in re.findall(r"`([0-9a-f]{2}(?: [0-9a-f]{2})+)`\s\(", text)]


def worked_sections():
    text = section("NOTE-FORMAT.md", "## Worked notes")
    return text.split("\n### ")[1:]


def worked_notes():
    short, long = worked_sections()
    return bytes.fromhex(short.splitlines()[0].partition(":")[2]), bytes.fromhex(long.split("```")[1])


def table_fields(text):
    """First bit, width and field of each row of a worked note, without its padding."""
    names = {"days of the month": "days"}
    rows = [(int(first), int(width), names.get(name, name)) for first, width, name, *_ in table(text)]
    return [row for row in rows if row[2] != "padding"]


def written_fields(note):
    place, rows = 0, []
    for name, width, _ in notes.fields(notes.read(note)):
        rows.append((place, width, name))
        place += width
    return rows


def keeps(note):
    return outcome(note) is None and notes.write(notes.read(note)) == note


def report(what, agreements):
    agreements = list(agreements)
    print(f"{what}: {sum(agreements)} of {len(agreements)} agree")
    return all(agreements)


def check_docs():
    example = section("JOURNAL.md", "## Rules in words").split("```")[3].strip()
    long = worked_notes()[1]
    tables = zip(map(written_fields, worked_notes()), map(table_fields, worked_sections()))
    results = [
        report("refused notes", (outcome(note) == (number, place) for note, number, place in refused_notes())),
        report("lawful notes close to them", map(keeps, lawful_notes())),
        report("worked notes", map(keeps, worked_notes())),
        report("field tables of the worked notes", (written == stated for written, stated in tables)),
        report("rules in words", [notes.words(notes.read(long)) == example]),
    ]
    return all(results)


def main(words):
    if words == ["--check-docs"]:
        return 0 if check_docs() else 1
    if not words:
        write_journal()
        return 0
    print(__doc__, file=sys.stderr)
    return 2


if __name__ == "__main__":
    sys.exit(main(sys.argv[1:]))
