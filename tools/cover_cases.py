#!/usr/bin/env python3
"""Writes crates/journal/data/cover.journal: cases for the calls `open` and `cover`.

Where a case has an answer that is known without the tools, it is stated with the case, and journal_expected.py and
cover.py are held to it while the journal is written. tools/cover_check.py shows what the cases find.
"""
import collections
import pathlib
import random
import sys
from dataclasses import replace

sys.dont_write_bytecode = True  # leaves no tools/__pycache__
import cover_patterns
import journal_expected
import note_cases
import notes
from cover_rules import BREAKS, HOME, LONG_HOME, SEED, at_times, block, blocks, entry, maybe, narrower_context
from cover_rules import random_longest_rule, random_rule, rule, shuffled, wider_rule, window, within
from notes import Context

FILE = pathlib.Path(__file__).resolve().parent.parent / "crates/journal/data/cover.journal"
OTHER_HOME = "other.example"
NOT_OPEN = "unreadable: no register is open"
NO_DOMAIN = "refused 13 at 0 register"
A_HOME = "a home domain"
A_LENGTH = "a table length (0 to 100000, in digits)"
A_NOTE = "a note (pairs of hexadecimal digits, or -)"
THE_END = "the end of the line"
A_NAME = "the name of a call"
WORDS = {"covers": True, "misses": False}
ANSWERS = {True: "covers", False: "does not cover", None: None}


class Journal:
    """Lines, each with the answer that is known, or None."""

    def __init__(self):
        self.lines = []

    def group(self, comment):
        if self.lines:
            self.line("")
        self.line(f"# {comment}")

    def line(self, text, answer=None):
        self.lines.append((text if isinstance(text, bytes) else text.encode(), answer))

    def open(self, home, rows="256", targets="4096", answer="accepted"):
        words = [word if isinstance(word, bytes) else word.encode() for word in ("open", home, rows, targets)]
        self.line(b" ".join(words), answer)

    def notes(self, first, second, answer=None):
        self.line(f"cover {first.hex() or '-'} {second.hex() or '-'}", answer)

    def cover(self, one, other, answer=None):
        for lawful in (one, other):
            assert notes.read(notes.write(lawful)) == lawful, lawful
        self.notes(notes.write(one), notes.write(other), ANSWERS[answer])

    def table(self, text, make=rule):
        """Rows of ITEM covers ITEM ..., or ITEM misses ITEM ...; make turns an item into a rule."""
        for row in filter(str.strip, text.splitlines()):
            one, word, *others = row.split()
            for other in others:
                self.cover(make(one), make(other), WORDS[word])

    def all_pairs(self, rules):
        for one in rules:
            for other in rules:
                self.cover(one, other)

    def unreadable(self, line, expected, place, found):
        self.line(line, f"unreadable: expected {expected} at word {place}, found {found}")

    def tell_home(self, home):
        """A line that shows which home domain is in force."""
        self.table(f"domain={home} covers /x")


# Opening


def before_opening(journal):
    journal.group("Before a register is open, whatever the notes are. Words are read first.")
    for pair in ("112000 112000", "112000 -", "- 112000", "11 ff", "1120422F61 112000"):
        journal.line(f"cover {pair}", NOT_OPEN)
    for line, expected, place, found in (
        ("cover", A_NOTE, 2, "none"),
        ("cover ", A_NOTE, 2, "an empty word"),
        ("cover 112000", A_NOTE, 3, "none"),
        ("cover 112000 ", A_NOTE, 3, "an empty word"),
        ("cover  112000", A_NOTE, 2, "an empty word"),
        ("cover 112000 1", A_NOTE, 3, "another word"),
        ("cover x 112000", A_NOTE, 2, "another word"),
        ("cover 112000 112000 112000", THE_END, 4, "another word"),
    ):
        journal.unreadable(line, expected, place, found)
    journal.group("A refused opening and unreadable ones open nothing.")
    for home in ("*", "//m2msp.org", "m2msp.org/", LONG_HOME + "s"):
        journal.open(home, answer=NO_DOMAIN)
        journal.line("cover 112000 112000", NOT_OPEN)
    for line in ("open m2msp.org 256", "open m2msp.org 256 100001", "open  256 4096", "OPEN m2msp.org 256 4096"):
        journal.line(line)
        journal.line("cover 112000 112000", NOT_OPEN)


def homes(journal):
    journal.group("Home domains of 1 to 24 bytes, with the bytes at both ends of the range.")
    for home in ("d", "!", "~", "-", "0", "a#b", "M2MSP.ORG", LONG_HOME[:-1], LONG_HOME, HOME):
        journal.open(home)
        journal.tell_home(home)
    journal.group("No home domains: refused, and the register that was open stays open.")
    bad_homes = "/ * // /d d/ a/b a* *a m2msp.* //m2msp.org //m2msp.org/S988 \t m2msp.org\r m2mśp.org".split(" ")
    bad_homes += [LONG_HOME + "s", "d" * 25, "d" * 40, "d" * 41, "d" * 300]
    bad_homes += [b"a%cb" % byte for byte in (0x00, 0x09, 0x0D, 0x1F, 0x7F, 0x80, 0xAA, 0xAF, 0xFF)]
    for home in bad_homes:
        journal.open(home, answer=NO_DOMAIN)
        journal.tell_home(HOME)


def table_lengths(journal):
    journal.group("Table lengths: 0, 100000 and leading zeros can be read.")
    lengths = ("0 0", "1 100000", "100000 1", "100000 100000", "00 " + "0" * 40 + "100000", "099999 00000099999")
    for place, row in enumerate(lengths):
        home = (OTHER_HOME, HOME)[place % 2]
        journal.open(home, *row.split())
        journal.tell_home(home)
    journal.group("Table lengths that cannot be read: nothing changes.")
    reason = f"unreadable: expected {A_LENGTH} at word %d, found another word"
    bad_lengths = (
        b"100001 100002 200000 1000000 4294967296 4294967552 18446744073709551616 99999999999999999999 0000100001 "
        b"-1 +1 -0 - 1. 1.0 1e3 0x10 ff 1_000 1,000 256, /5 :5 5/ 5: 25\t6 256\r \xef\xbc\x95 \xb2 #5"
    )
    for word in bad_lengths.split(b" "):
        journal.open(OTHER_HOME, word, "1", reason % 3)
        journal.open(OTHER_HOME, "1", word, reason % 4)
    journal.open(OTHER_HOME, "100001", "100001", reason % 3)
    journal.open("*", "100001", "1", reason % 3)
    journal.open("*", "1", "x", reason % 4)
    journal.tell_home(HOME)


def opening_words(journal):
    journal.group("Words of an opening: too few, too many, empty ones, other names.")
    for rest, expected, place, found in (
        ("", A_HOME, 2, "none"),
        (" ", A_HOME, 2, "an empty word"),
        ("  ", A_HOME, 2, "an empty word"),
        ("  1 1", A_HOME, 2, "an empty word"),
        ("  x 1 1", A_HOME, 2, "an empty word"),
        (" * 1", A_LENGTH, 4, "none"),
        (" * 1 1 1", THE_END, 5, "another word"),
        (" x", A_LENGTH, 3, "none"),
        (" x ", A_LENGTH, 3, "an empty word"),
        (" x  ", A_LENGTH, 3, "an empty word"),
        (" x 1", A_LENGTH, 4, "none"),
        (" x 1 ", A_LENGTH, 4, "an empty word"),
        (" x  1", A_LENGTH, 3, "an empty word"),
        (" x  1 1", A_LENGTH, 3, "an empty word"),
        (" x 1  1", A_LENGTH, 4, "an empty word"),
        (" x 1 1 ", THE_END, 5, "an empty word"),
        (" x 1 1  ", THE_END, 5, "an empty word"),
        (" x 1 1 1", THE_END, 5, "another word"),
        (" x 1 1 x", THE_END, 5, "another word"),
    ):
        journal.unreadable("open" + rest, expected, place, found)
    for name in ("opens", "ope", "Open", "open\tx"):
        journal.unreadable(f"{name} x 1 1", A_NAME, 1, "another word")
    journal.unreadable(" open x 1 1", A_NAME, 1, "an empty word")
    journal.tell_home(HOME)
    journal.table("domain=x misses /x")


# Documents

# 22:15 to 00:30.
NIGHT = window(hours=[22], minutes=range(15, 60)), window(hours=[23]), window(hours=[0], minutes=range(30))


def documents(journal):
    journal.group("The examples of docs/RULES.md: entries at the home domain m2msp.org.")
    journal.open(HOME)
    journal.table(
        """
        /myCSE*            covers  /myCSE7* //m2msp.org/myCSE*
        /myCSE*            misses  /my*
        domain=m2msp.org   covers  /myCSE*/C98* //m2msp.org/S988
        domain=m2msp.org   misses  //m2msp.*/S988 //m2msp.org.example/S988
        /myCSE*/C98*       covers  //m2msp.org/myCSE7/C9886
        //*/myCSE*         misses  //m2msp.org/myCSE7/C9886
        /myCSE*            covers  //m2msp.org/myCSE
        //*/S988           covers  //other.example/S988
        """
    )
    journal.group("What covers all, domains and standings; stars in the first segment (docs/DECISIONS.md).")
    journal.table(
        """
        all                covers  all domain=m2msp.org standing=crew1 //*/*
        //*/*              misses  all domain=m2msp.org standing=crew1
        //*/*/*            misses  all
        domain=m2msp.org   misses  all //m2m*/S988
        domain=m2msp.org   covers  domain=m2msp.org
        standing=crew1     covers  standing=crew1
        standing=crew1     misses  all
        """
    )
    journal.line("cover 112000 1120c56372657731", "covers")
    journal.line("cover 1120c56372657731 112000", "does not cover")
    journal.group("Blocks: 88.77.0.0/16 covers 88.77.12.0/24.")
    journal.table(
        """
        88.77.0.0/16   covers  88.77.12.0/24
        88.77.12.0/24  misses  88.77.0.0/16
        88.77.0.0/16   misses  88.78.0.0/24
        """,
        from_blocks,
    )


def document_contexts(journal):
    journal.group("Windows: the three of 22:15 to 00:30 do not cover hours 22 and 23 together, but each hour alone.")
    night, late = at_times(*NIGHT), range(30, 60)
    hours = [window(hours=[hour], minutes=late) for hour in (22, 23)]
    journal.cover(night, at_times(window(hours=[22, 23], minutes=late)), False)
    journal.cover(night, at_times(hours[0]), True)
    journal.cover(night, at_times(hours[1]), True)
    journal.cover(night, at_times(*hours), True)
    journal.cover(night, at_times(window(hours=[22], minutes=range(14, 60))), False)
    journal.cover(night, at_times(*reversed(NIGHT)), True)
    journal.group("Day and weekday are not alternatives.")
    both, day, weekday = window(days=[1], weekdays=[1]), window(days=[1]), window(weekdays=[1])
    for one in (day, weekday):
        journal.cover(at_times(one), at_times(both), True)
        journal.cover(at_times(both), at_times(one), False)
    journal.cover(at_times(day, weekday), at_times(both), True)
    journal.group("Contexts are not mixed.")
    first = Context((window(hours=[22]),), blocks("88.77.0.0/16"))
    second = Context((window(hours=[4]),), blocks("116.27.123.0/24"))
    mixed = Context(first.windows, second.blocks)
    joined = Context(first.windows + second.windows, first.blocks + second.blocks)
    for other in ((second, first), (first,), (second,)):
        journal.cover(within(first, second), within(*other), True)
    for other in (mixed, joined):
        journal.cover(within(first, second), within(other), False)
    journal.cover(within(joined), within(first, second), True)
    journal.cover(within(joined), within(mixed), True)
    journal.group("A rule with contexts never covers a rule without, even if a context admits everything.")
    journal.cover(within(Context()), rule(), False)
    journal.cover(within(Context(), first), rule(), False)
    journal.cover(rule(), within(Context()), True)
    journal.cover(within(Context()), within(first, second), True)


# Entries

ENTRIES = (
    "all domain=m2msp.org domain=m2msp domain=m2msp.org.example "
    "standing=crew1 standing=crew standing=m2msp.org standing=/S988 "
    "/S988 /* //m2msp.org/S988 //m2msp.*/S988 //m2msp.org*/S988 //m2msp.org.example/S988 //*/* //*/*/*"
).split()


def entries(journal):
    for home, chosen in ((HOME, ENTRIES), (OTHER_HOME, ENTRIES[:2] + ENTRIES[6:7] + ENTRIES[8:13])):
        journal.group(f"Entries of every kind against every kind, at the home domain {home}.")
        journal.open(home)
        journal.all_pairs([rule(text) for text in chosen])
    journal.group("Texts that are equal, begin alike or differ in case; domains against patterns elsewhere.")
    journal.table(
        """
        standing=crew1         covers  standing=crew1
        standing=crew1         misses  standing=crew12 standing=Crew1
        standing=crew12        misses  standing=crew1
        standing=a/b           covers  standing=a/b
        standing=a/b           misses  standing=a/c
        domain=other.example   covers  /S988 //other.example/* //other.example/*/**
        domain=other.example   misses  //m2msp.org/S988 //*/S988 //other.example*/S988 //Other.example/S988
        domain=other.example   misses  //x/other.example/a //xother.example/a domain=other
        domain=other           misses  /S988 domain=other.example
        domain=m2msp.org       covers  //m2msp.org/S988/*
        domain=m2msp.org       misses  /S988 /m2msp.org/S988
        domain=a               covers  //a/b
        domain=a               misses  //aa/b //b/a //b/a/c
        domain=aa              misses  //a/b
        """
    )
    journal.group("Domains of 24 bytes.")
    long = LONG_HOME
    journal.table(
        f"""
        domain={long}        covers  domain={long} //{long}/a
        domain={long}        misses  domain={long[:-1]} //{long}s/a //{long}*/a //{long[:-1]}/a /a
        domain={long[:-1]}   misses  domain={long}
        """
    )


def entry_lists(journal):
    journal.group("Several entries: each of the covered ones needs one that covers it; two never cover one together.")
    journal.open(HOME)
    journal.table(
        """
        /a*,/b*                  covers  /ab /ba /ab,/ba /ba,/ab /ba,/bb,/b,/a
        /a*,/b*                  misses  /ab,/c /c,/ab /ab,/ba,/* /*
        /a                       covers  /a,/a
        /a                       misses  /a,/b /b,/a
        /a,/a                    covers  /a
        /a,/b                    covers  /a /b
        /x,/y,/z,/a              covers  /a
        /x,/y,/z,/a              misses  /b
        /a,/x,/y,/z              covers  /a
        all,/a                   covers  domain=d,standing=s,/a,all
        /a,all                   covers  all,domain=d
        /a,domain=d              misses  all
        domain=d,standing=s      covers  standing=s,domain=d standing=s,//d/x,domain=d,//d/*
        domain=d,standing=s      misses  standing=d,domain=d domain=s,standing=d standing=s,//d/x,domain=d,//e/*
        domain=m2msp.org,//d/*   covers  /a,//d/b,/c/d
        domain=m2msp.org,//d/*   misses  /a,//d/b,//d/c/d
        //*/*,//*/*/*            covers  //a/b,//a/b/c,/a,/a/b
        //*/*,//*/*/*            misses  all
        /*,/*/*                  misses  domain=m2msp.org
        standing=s,standing=t    covers  standing=t,standing=s,standing=t
        standing=s,standing=t    misses  standing=t,standing=s,standing=u
        """
    )
    rng = random.Random(SEED + 1)
    journal.group("Random lists of entries.")
    pool = "domain=m2msp.org domain=d standing=s standing=t /a /a* /* //d/a //d/* //*/a //*/*".split()
    for place in range(60):
        covered = rng.choices(pool, k=rng.randint(1, 3))
        covering = covered + rng.choices(pool, k=rng.randint(0, 4 - len(covered)))
        rng.shuffle(covering)
        if place % 2:
            covering[rng.randrange(len(covering))] = rng.choice(pool)
        journal.cover(rule(",".join(covering)), rule(",".join(covered)), None if place % 2 else True)


# The head


def sides_and_flags(journal):
    journal.group("Both sides and the authentication flag, each with each.")
    journal.all_pairs([rule("all", side, flag) for side in notes.SIDES for flag in (False, True)])
    journal.all_pairs([rule("/a", side, flag, ()) for side in notes.SIDES for flag in (False, True)])


def operations(journal):
    journal.group("Operations: one against one, against all, against all others, against none.")
    every = ",".join(notes.OPERATIONS)
    for name in notes.OPERATIONS:
        rest = ",".join(other for other in notes.OPERATIONS if other != name)
        journal.table(
            f"""
            {name}    covers  {name} none
            {name}    misses  {rest.replace(",", " ")} {every}
            {every}   covers  {name} {rest}
            {rest}    misses  {name} {every}
            none      misses  {name}
            """,
            for_operations,
        )
    journal.table(f"none covers none\n {every} covers {every} none\n none misses {every}", for_operations)
    rng = random.Random(SEED + 2)
    journal.group("Random sets of operations, with both sides and flags.")
    for _ in range(60):
        covered = [name for name in notes.OPERATIONS if maybe(rng, 0.5)]
        covering = [name for name in notes.OPERATIONS if name in covered or maybe(rng, 0.4)]
        if covering and maybe(rng, 0.3):
            covering.remove(rng.choice(covering))
        side = rng.choice(notes.SIDES)
        pair = rule("/a*", side, maybe(rng, 0.2), covering), rule("/ab", side, maybe(rng, 0.7), covered)
        journal.cover(*pair)


def child_types(journal):
    table = """
        -             covers  - 3 0,1,2,65535
        3             covers  3 3,3
        3             misses  - 4 3,4 4,3 34
        0             covers  0
        0             misses  - 256
        0,1,2,3       misses  -
        3,4           covers  3 4 4,3 3,3,3,4
        3,3           covers  3
        3,3           misses  3,4
        1,2,3,4       covers  4 4,3,2,1
        1,2,3,4       misses  4,3,2,5 5,3,2,1
        1,2,3         misses  1,2,3,4
        65535         covers  65535
        65535         misses  65534
        256           misses  0
        4660          misses  13330
        """
    journal.group("Child types: none covers all of them, and only none covers none; with Create.")
    journal.table(table, lambda types: for_types(types, "create"))
    journal.group("The same with Retrieve: child types are compared whatever the operations are.")
    journal.table(table, lambda types: for_types(types, "retrieve"))
    journal.group("The same where the rules have different operations, or none.")
    for mine, theirs in (("create,retrieve", "create"), ("create,retrieve", "retrieve"), ("notify", ""), ("", "")):
        for covering, covered, known in (("3", "-", False), ("-", "3", True), ("3", "4", False), ("3,4", "4", True)):
            journal.cover(for_types(covering, mine), for_types(covered, theirs), known)
    journal.group("Child types that differ in one bit.")
    for bit in range(16):
        near = 0x5A5A ^ 1 << bit
        journal.cover(rule(types=[0x5A5A]), rule(types=[near]), False)
        journal.cover(rule(types=[0x5A5A, near]), rule(types=[near]), True)
    rng = random.Random(SEED + 3)
    journal.group("Random lists of child types.")
    for _ in range(40):
        covering = rng.choices(range(5), k=rng.randint(0, 4))
        covered = rng.choices(covering or range(5), k=rng.randint(0, 4))
        if maybe(rng, 0.3):
            covered = covered[:3] + [rng.randrange(6)]
        journal.cover(rule(types=covering), rule(types=covered))


# Constraints


def windows(journal):
    for name, values in notes.SETS.items():
        journal.group(f"The {name} of a window: one value more, one less, another one.")

        def only(*members):
            return at_times(window(**{name: members}))

        for value in (values[0], values[1], values[len(values) // 2], values[-2], values[-1]):
            rest = only(*(other for other in values if other != value))
            journal.cover(at_times(window()), rest, True)
            journal.cover(rest, at_times(window()), False)
            journal.cover(only(value, values[2]), only(value), True)
            journal.cover(only(values[2]), only(value, values[2]), False)
        journal.cover(only(*values[:2]), only(*values[:2]), True)
        journal.cover(only(*values[:2]), only(*values[2:4]), False)
        journal.cover(only(*values[:2]), only(*values[1:3]), False)
    journal.group("Windows that are wider in one set and narrower in the next.")
    names = list(notes.SETS)
    for name, after in zip(names, names[1:] + names[:1]):
        narrow = {name: notes.SETS[name][:3], after: notes.SETS[after][:3]}
        wide = at_times(window(**{**narrow, name: notes.SETS[name][:4]}))
        journal.cover(wide, at_times(window(**narrow)), True)
        journal.cover(wide, at_times(window(**{**narrow, after: notes.SETS[after][:4]})), False)


def window_lists(journal):
    journal.group("Lists of windows: empty ones, equal ones, each item covered by another item, none covered by two.")
    hours = {
        "first": NIGHT[0],
        "second": NIGHT[1],
        "third": NIGHT[2],
        "late": window(hours=[22, 23], minutes=range(15, 60)),
        "early": window(hours=range(6)),
        "day": window(hours=range(6, 18)),
        "light": window(hours=range(18)),
        "five": window(hours=[5]),
        "six": window(hours=[6]),
        "both": window(hours=[5, 6]),
        "always": window(),
    }
    journal.table(
        """
        -                        covers  - first always
        first                    covers  first,first
        first                    misses  - late first,second
        always                   covers  always first,day,third
        always                   misses  -
        first,first              covers  first
        first,second             covers  second second,first
        first,second             misses  first,third late
        second                   misses  first,second
        first,second,third       covers  third,second,first
        late                     covers  first
        light                    covers  early,day
        early,day                covers  five six six,five
        early,day                misses  light both
        early,day,first,second   covers  second third
        day,first,second         misses  second,third
        """,
        lambda text: at_times(*(hours[name] for name in listed(text))),
    )


def every_prefix(journal):
    rng = random.Random(SEED + 4)
    for family, width in enumerate(notes.WIDTHS):
        journal.group(f"Every prefix length of {width} bits: a block inside it, and one that is just outside it.")
        for prefix in range(width + 1):
            address = rng.getrandbits(width)
            one = block(family, prefix, address)
            longer = rng.randint(prefix, min(width, prefix + 9))
            inside = block(family, longer, address ^ rng.getrandbits(width - prefix))
            journal.cover(*(within(Context(blocks=(item,))) for item in (one, inside)), True)
            if prefix:
                beside = block(family, longer, address ^ 1 << width - prefix)
                above = block(family, prefix - 1, address)
                outside = above if maybe(rng, 0.3) else beside
                journal.cover(*(within(Context(blocks=(item,))) for item in (one, outside)), False)


def block_cases(journal):
    journal.group("Blocks: both ends of the range, equal bits in the other family, mapped addresses.")
    journal.table(
        """
        0.0.0.0/0              covers  0.0.0.0/0 255.255.255.255/32 128.0.0.0/1
        0.0.0.0/0              misses  ::/0 ::ffff:0:0/96
        0.0.0.0/1              misses  0.0.0.0/0 128.0.0.0/1
        128.0.0.0/1            misses  0.0.0.0/0
        ::/0                   covers  ::/0 ffff::/16
        ::/0                   misses  0.0.0.0/0 88.77.0.0/16
        ::/1                   misses  ::/0 8000::/1
        ::ffff:0:0/96          misses  0.0.0.0/0
        88.77.0.0/16           misses  584d::/16 584d:c00::/24 88.76.0.0/15 77.88.0.0/16
        584d::/16              misses  88.77.0.0/16 88.77.1.0/24
        88.77.0.1/32           covers  88.77.0.1/32
        88.77.0.1/32           misses  88.77.0.0/32 ::ffff:88.77.0.1/128 584d:1::/32
        ::ffff:88.77.0.1/128   misses  88.77.0.1/32
        0.0.0.1/32             misses  ::1/128
        88.77.0.0/32           misses  88.77.0.0/31
        88.77.0.0/31           covers  88.77.0.1/32
        88.77.0.0/31           misses  88.77.0.2/32
        88.76.0.0/15           covers  88.77.0.0/16
        2001:db8::/32          covers  2001:db8:1::/48
        2001:db8::/32          misses  2001:db9::/32
        2001:db8:1::/48        misses  2001:db8::/32
        2001:db8::/64          covers  2001:db8::1/128
        2001:db8::/64          misses  2001:db8:0:1::/65
        ::1/128                covers  ::1/128
        ::1/128                misses  ::/128
        ::/127                 covers  ::1/128
        ::/127                 misses  ::2/128
        ::2/127                covers  ::2/128
        """,
        from_blocks,
    )
    journal.group("Lists of blocks: two halves do not cover the whole.")
    journal.table(
        """
        -                                             covers  - 0.0.0.0/0
        0.0.0.0/0                                     covers  0.0.0.0/1,128.0.0.0/1
        0.0.0.0/0                                     misses  ::1/128,1.2.3.4/32
        0.0.0.0/1,128.0.0.0/1                         misses  0.0.0.0/0
        ::/0                                          misses  ::1/128,1.2.3.4/32
        0.0.0.0/0,::/0                                covers  ::1/128,1.2.3.4/32
        0.0.0.0/0,::/0                                misses  -
        88.76.0.0/16,88.77.0.0/16                     covers  88.77.1.0/24,88.76.1.0/24
        88.76.0.0/16,88.77.0.0/16                     misses  88.76.0.0/15 88.77.1.0/24,88.78.1.0/24
        88.76.0.0/16,88.77.0.0/16                     misses  88.78.1.0/24,88.77.1.0/24
        1.2.3.4/32,1.2.3.5/32,1.2.3.6/32,::/0         covers  ::1/128
        1.2.3.4/32,1.2.3.5/32,1.2.3.6/32,1.2.3.7/32   covers  1.2.3.7/32
        1.2.3.4/32,1.2.3.5/32,1.2.3.6/32,1.2.3.7/32   misses  1.2.3.4/30
        1.2.3.4/30                                    covers  1.2.3.7/32,1.2.3.6/32,1.2.3.5/32,1.2.3.4/32
        1.2.3.4/32                                    covers  1.2.3.4/32,1.2.3.4/32
        1.2.3.4/32,1.2.3.4/32                         covers  1.2.3.4/32
        """,
        from_blocks,
    )


def countries(journal):
    journal.group("Countries: equal ones and no others; lists of them.")
    journal.table(
        """
        CL      covers  CL CL,CL
        CL      misses  - CA DL LC CL,DE DE,CL
        CA      covers  CA
        CA      misses  CL
        DL      misses  CL
        LC      misses  CL
        AA      covers  AA
        AZ      covers  AZ
        ZA      covers  ZA
        ZZ      covers  ZZ
        ZZ      misses  AZ ZA
        -       covers  - CL CL,DE
        CL,DE   covers  CL DE DE,CL DE,DE
        CL,DE   misses  - CE DL CL,PE PE,CL
        CL,CL   covers  CL
        AZ,ZA   misses  AA
        """,
        from_countries,
    )


# Contexts


def short_contexts():
    country_lists = (), ("CL",), ("DE",), ("CL", "DE")
    block_lists = (), blocks("10.0.0.0/8"), blocks("10.1.0.0/16")
    return [Context((), some, names) for some in block_lists for names in country_lists]


def single_contexts(journal):
    journal.group("One context or none, each against each.")
    journal.all_pairs([rule()] + [within(context) for context in short_contexts()])
    journal.group("Each of the three lists, empty and not, with the other two equal.")
    full = Context((NIGHT[1],), blocks("10.0.0.0/8"), ("CL",))
    wide = Context((window(hours=[22, 23]), NIGHT[2]), blocks("10.0.0.0/7", "::/0"), ("DE", "CL"))
    for part in ("windows", "blocks", "countries"):
        without = replace(full, **{part: ()})
        only = Context(**{part: getattr(full, part)})
        wider = replace(full, **{part: getattr(wide, part)})
        for one, other in ((without, full), (only, full), (Context(), only), (wider, full), (wide, wider)):
            journal.cover(within(one), within(other), True)
            journal.cover(within(other), within(one), False)
        journal.cover(within(only), within(without), False)


def two_contexts(journal):
    journal.group("Two contexts: each needs one that covers it whole.")
    chile, germany = Context((), blocks("10.0.0.0/8"), ("CL",)), Context((), blocks("20.0.0.0/8"), ("DE",))
    named = {
        "chile": chile,
        "germany": germany,
        "crossed": Context((), chile.blocks, germany.countries),
        "both": Context((), chile.blocks + germany.blocks, chile.countries + germany.countries),
        "small": Context((), blocks("10.1.0.0/16"), ("CL",)),
        "anything": Context(),
    }
    journal.table(
        """
        -                   covers  chile,germany
        chile               covers  chile,chile
        chile               misses  chile,germany germany,chile
        chile,chile         covers  chile
        chile,germany       covers  chile germany germany,chile chile,chile small,germany germany,small
        chile,germany       misses  - crossed chile,crossed crossed,chile both
        chile,germany       misses  anything chile,anything anything,chile
        both                covers  chile,germany crossed,chile
        small,germany       misses  chile
        small,chile         covers  chile
        chile,anything      covers  germany
        anything,chile      covers  germany
        anything,anything   misses  -
        anything            covers  anything,anything
        """,
        lambda text: within(*(named[name] for name in listed(text))),
    )
    rng = random.Random(SEED + 5)
    journal.group("Random pairs of contexts.")
    for _ in range(100):
        covering = rng.choices(short_contexts(), k=2)
        covered = [rng.choice(short_contexts()) if maybe(rng, 0.5) else narrower_context(rng, one) for one in covering]
        rng.shuffle(covered)
        journal.cover(within(*covering), within(*covered[: rng.randint(1, 2)]))


# Whole rules


def whole_rules(journal):
    rng = random.Random(SEED + 6)
    journal.group("Random rules, each with one that was made wider from it.")
    journal.open(HOME)
    pairs = []
    for _ in range(250):
        other = random_rule(rng)
        one = wider_rule(rng, other)
        pairs.append((one, other))
        journal.cover(one, other, True)
    journal.group("Such pairs with one part broken, each part in turn.")
    for place, (one, other) in enumerate(pairs[:180]):
        journal.cover(*BREAKS[place % len(BREAKS)](rng, one, other), False)
    journal.group("Such pairs the other way round.")
    for one, other in pairs[180:]:
        journal.cover(other, one)
    journal.group("Rules made wider twice, some with a part of another rule.")
    parts = "authenticated", "operations", "originators", "types", "contexts"
    for place in range(100):
        other = random_rule(rng)
        one = wider_rule(rng, wider_rule(rng, other))
        if place % 2:
            part = rng.choice(parts)
            one = replace(one, **{part: getattr(random_rule(rng), part)})
        journal.cover(one, other, None if place % 2 else True)


# Notes


def bad_notes(journal):
    journal.group("The refused notes of docs/NOTE-FORMAT.md in the first place, in the second, and in both.")
    good = bytes.fromhex("112000")
    table = note_cases.refused_notes()
    for (note, number, place), (second, _, _) in zip(table, table[1:] + table[:1]):
        answer = str(notes.Fault(number, place))
        journal.notes(note, good, answer)
        journal.notes(good, note, answer)
        journal.notes(note, second, answer)
    journal.group("A refused note in the second place is refused whatever the first rule is.")
    narrow = notes.write(rule("/a", "selfPrivileges", True, (), (1,), [Context()]))
    journal.notes(narrow, b"", "refused 1 at 0 bits")
    journal.notes(narrow, good + b"\0", "refused 7 at 24 note")
    journal.notes(narrow, bytes(700), "refused 2 at 8 note")
    journal.notes(bytes(700), narrow, "refused 2 at 8 note")
    rng = random.Random(SEED + 7)
    journal.group("Random rules with one bit flipped in one of both notes.")
    for place in range(60):
        other = random_rule(rng)
        pair = [notes.write(wider_rule(rng, other)), notes.write(other)]
        note = pair[place % 2]
        pair[place % 2] = note_cases.flipped(note, rng.randrange(8 * len(note)))
        journal.notes(*pair)


def note_words(journal):
    journal.group("Words of cover: either case of digits; empty words, too few, too many, no notes.")
    journal.line("cover 1120C56372657731 1120c56372657731", "covers")
    journal.line("cover 1120422F61 1120422f61", "covers")
    journal.line("cover - -", "refused 1 at 0 bits")
    for rest, expected, place, found in (
        ("", A_NOTE, 2, "none"),
        (" ", A_NOTE, 2, "an empty word"),
        ("  ", A_NOTE, 2, "an empty word"),
        (" 112000", A_NOTE, 3, "none"),
        (" 112000 ", A_NOTE, 3, "an empty word"),
        (" 112000  ", A_NOTE, 3, "an empty word"),
        ("  112000", A_NOTE, 2, "an empty word"),
        ("  112000 112000", A_NOTE, 2, "an empty word"),
        (" 112000  112000", A_NOTE, 3, "an empty word"),
        (" 112000 112000 ", THE_END, 4, "an empty word"),
        (" 112000 112000 112000", THE_END, 4, "another word"),
        (" - - -", THE_END, 4, "another word"),
        (" zz 112000 1", A_NOTE, 2, "another word"),
        (" 112000 zz 1", A_NOTE, 3, "another word"),
        (" - zz", A_NOTE, 3, "another word"),
    ):
        journal.unreadable("cover" + rest, expected, place, found)
    for word in "1 11200 -- -112000 112000- g0 0G 0x112000 11_2000 m2msp.org 112000\t #".split(" "):
        journal.unreadable(f"cover {word} 112000", A_NOTE, 2, "another word")
        journal.unreadable(f"cover 112000 {word}", A_NOTE, 3, "another word")
        journal.unreadable(f"cover {word} {word}", A_NOTE, 2, "another word")
    for name in ("Cover", "covers", "cove", "cover\t"):
        journal.unreadable(f"{name} 112000 112000", A_NAME, 1, "another word")


def longest(journal):
    journal.group("Rules of the longest kind, 615 bytes: equal, turned round, and with one item changed.")
    journal.open(LONG_HOME)
    day = tuple(window(hours=range(first, first + 6)) for first in (0, 6, 12, 18))
    hosts = tuple(block(1, 128, 2**128 - 1 - number) for number in range(4))
    texts = ["/" + letter * 38 + "*" for letter in "abc"] + ["standing=" + "s" * 40]
    first, second = Context(day, hosts, ("AZ", "ZA")), Context(day[::-1], hosts[::-1], ("CL", "DE"))
    head = "selfPrivileges", True, notes.OPERATIONS
    long = rule(",".join(texts), *head, (1, 2, 3, 65535), (first, second))
    turned = rule(",".join(texts[::-1]), *head, (65535, 3, 2, 1), (second, first))
    assert len(notes.write(long)) == len(notes.write(turned)) == 615

    def with_last_entry(text):
        return replace(turned, originators=turned.originators[:3] + (entry(text),))

    def with_last_context(**parts):
        return replace(turned, contexts=(second, replace(first, **parts)))

    journal.cover(long, long, True)
    journal.cover(long, turned, True)
    journal.cover(long, with_last_entry("/" + "a" * 39), True)
    journal.cover(long, with_last_entry("/" + "a" * 37 + "*"), False)
    journal.cover(long, replace(turned, types=(65535, 3, 2, 0)), False)
    journal.cover(long, with_last_context(windows=day[:3] + (window(hours=range(17, 24)),)), False)
    journal.cover(long, with_last_context(blocks=hosts[:3] + (block(1, 128, 2**128 - 5),)), False)
    journal.cover(long, with_last_context(countries=("ZA", "CL")), False)
    journal.cover(rule("all", "selfPrivileges", False, notes.OPERATIONS), long, True)
    journal.cover(rule("all", "privileges", False, notes.OPERATIONS), long, False)
    journal.cover(long, rule(texts[0], "selfPrivileges", True, (), (65535,), (second,)), True)
    journal.cover(long, rule(texts[0], "selfPrivileges", True, (), (65535,)), False)
    rng = random.Random(SEED + 8)
    journal.group("Random rules of the longest kind: in another order, and with one part broken.")
    for place in range(6):
        other = random_longest_rule(rng)
        one = shuffled(rng, other)
        assert len(notes.write(other)) == 615
        if place % 2:
            one, other = rng.choice(BREAKS)(rng, one, other)
        journal.cover(one, other, place % 2 == 0)


# Items of tables; - is an empty list


def listed(text):
    return [] if text == "-" else text.split(",")


def from_blocks(text):
    return within(Context(blocks=blocks(*listed(text))))


def from_countries(text):
    return within(Context(countries=tuple(listed(text))))


def for_operations(text):
    return rule(operations=[] if text == "none" else text.split(","))


def for_types(text, operations):
    return rule(operations=list(filter(None, operations.split(","))), types=map(int, listed(text)))


GROUPS = (
    before_opening,
    homes,
    table_lengths,
    opening_words,
    documents,
    document_contexts,
    *cover_patterns.GROUPS,
    entries,
    entry_lists,
    sides_and_flags,
    operations,
    child_types,
    windows,
    window_lists,
    every_prefix,
    block_cases,
    countries,
    single_contexts,
    two_contexts,
    whole_rules,
    bad_notes,
    note_words,
    longest,
)


def journal_lines():
    journal = Journal()
    journal.group("Opening and covering. This file is written by tools/cover_cases.py.")
    for group in GROUPS:
        group(journal)
    return journal.lines


def answered(lines):
    """The calls with their answers. Each answer that is stated must be given."""
    calls = []
    for (line, stated), (_, answer) in zip(lines, journal_expected.answers(line for line, _ in lines)):
        assert stated in (None, answer), (line, stated, answer)
        if answer is not None:
            calls.append((line, answer))
    return calls


def main():
    lines = journal_lines()
    calls = answered(lines)
    FILE.write_bytes(b"".join(line + b"\n" for line, _ in lines))
    counts = collections.Counter(answer.split()[0].rstrip(":") for _, answer in calls)
    covers, plain = counts["covers"], counts["covers"] + counts["does"]
    print(f"{FILE.stat().st_size} bytes, {len(lines)} lines, {len(calls)} calls")
    print(f"{sum(line.startswith(b'cover ') for line, _ in calls)} lines of cover, {plain} with a plain answer")
    print(f"covers in {covers} of them ({covers / plain:.1%})")
    print(f"accepted {counts['accepted']}, refused {counts['refused']}, unreadable {counts['unreadable']}")
    print(f"{sum(stated is not None for _, stated in lines)} answers are stated with their cases")


if __name__ == "__main__":
    main()
