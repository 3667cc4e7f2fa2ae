#!/usr/bin/env python3
"""Writes crates/journal/data/observatory.journal: one night at the observatory, told in comment lines.

The answer of each call is stated with the call, and journal_expected.py is held to it while the journal is written.
"""
import collections
import datetime
import pathlib
import sys

sys.dont_write_bytecode = True  # leaves no tools/__pycache__
import journal_expected
import notes
from cover_rules import blocks, rule, window
from notes import Context

FILE = pathlib.Path(__file__).resolve().parent.parent / "crates/journal/data/observatory.journal"
ACCEPTED, DENY = "accepted", "deny"
NOT_OPEN = "unreadable: no register is open"
HOME = "cerro.example"

# Policies
HOUSE, LUND, KYOTO, LIMA, PERTH = 0, 1, 2, 3, 4
# Targets
CAMERA, SPECTROGRAPH, MAST, ARCHIVE = 7, 8, 9, 10

# Originators
INES = "//cerro.example/ines"
CONSOLE = "//cerro.example/console"
GUIDER = "//cerro.example/dome2/guider"
ASTRID = "//lund.example/astrid"
LUND_CAMERA = "//lund.example/cam2/control"
NAOKO = "//kyoto.example/naoko"
KYOTO_CAMERA = "//kyoto.example/cam5/control"
QUIPU = "//lima.example/quipu"
ROSA = "//lima.example/rosa"
WALLABY = "//perth.example/S988"
STRANGER = "//lund.example.org/astrid"

# Resource types
CONTAINER, CONTENT, SUBSCRIPTION = 3, 4, 23

NIGHT = (
    window(hours=[22], minutes=range(15, 60)),
    window(hours=[23]),
    window(hours=[0], minutes=range(30)),
)


def instant(day, clock):
    """An instant of February 2096."""
    time = datetime.datetime.fromisoformat(f"2096-02-{day} {clock}")
    return (time - datetime.datetime(2000, 1, 1)) // datetime.timedelta(seconds=1)


def evening(clock):
    return instant(28, clock)


def morning(clock):
    return instant(29, clock)


def refused(number):
    return f"refused {number} at 0 register"


def permit(policy, number, count=1):
    return f"permit policy {policy} rule {number} of {count}"


class Night:
    """Lines, each with its answer; None for a line that is no call."""

    def __init__(self):
        self.lines = []

    def hour(self, *comments):
        """A new part of the night."""
        if self.lines:
            self.lines.append(("", None))
        self.say(*comments)

    def say(self, *comments):
        self.lines += [(f"# {comment}", None) for comment in comments]

    def call(self, line, answer=ACCEPTED):
        self.lines.append((line, answer))

    def add(self, policy, number, note, answer=ACCEPTED):
        """The note is a rule, or hexadecimal digits."""
        self.call(f"add {policy} {number} {note if isinstance(note, str) else notes.write(note).hex()}", answer)

    def add_broken(self, policy, number, note, fault):
        self.add(policy, number, note, f"refused {fault} in policy {policy} rule {number}")

    def judge(self, target, who, operation, time, answer, kind="-", address="-", country="-", known=True):
        place = target if isinstance(target, str) else f"target:{target}"
        known = "authenticated" if known else "unauthenticated"
        self.call(f"judge {place} {who} {known} {operation} {time} {kind} {address} {country}", answer)


def before_the_register(night):
    night.say(
        "The night of 28 to 29 February 2096 at Cerro, shared by the institutes of Lund, Kyoto, Lima and Perth.",
        "This file is written by tools/observatory.py. Duty: Ines Okafor.",
    )
    night.hour("18:30. The hosting point is not started. The crew list can be kept already, the rest has to wait.")
    time = evening("18:30:00")
    night.call(f"when {time}", "2096-02-28 18:30:00 weekday 2")
    night.judge(CAMERA, INES, "retrieve", time, NOT_OPEN)
    night.judge("policy:64", "ines", "retrieve", 3155760000, NOT_OPEN, country="cl")
    night.call("add 1 9 112000", NOT_OPEN)
    night.call("withdraw 1 9", NOT_OPEN)
    night.call("link 7 1", NOT_OPEN)
    night.call("unlink 7 1", NOT_OPEN)
    night.call("cover 112000 112000", NOT_OPEN)
    night.call("add 1 nine 112000", "unreadable: expected a rule number (0 to 4294967295, in digits) at word 3, found another word")
    night.call("link 7", "unreadable: expected a policy (0 to 4294967295, in digits) at word 3, found none")
    night.call("cover 112000 1", "unreadable: expected a note (pairs of hexadecimal digits, or -) at word 3, found another word")
    night.call("judge target:7", "unreadable: expected an identity at word 3, found none")
    night.call(f"member {INES} night-crew")
    night.call(f"member {ASTRID} night-crew")
    night.call(f"present {NAOKO} visitor")
    night.call(f"leave {ASTRID}")
    night.call(f"readmit {ASTRID}")
    night.call("clear")
    night.say("A slip of the key: the home domain has a slash. Nothing is open after that.")
    night.call("open cerro/example 256 4096", refused(13))
    night.call("link 7 1", NOT_OPEN)


def policies(night):
    night.hour(
        "19:00. The register is opened for 256 rules. Policy 0 is the house, 1 Lund, 2 Kyoto, 3 Lima, 4 Perth.",
        "Target 7 is the camera of dome 2, 8 the spectrograph, 9 the weather mast, 10 the archive.",
    )
    night.call(f"open {HOME} 256 16")
    night.say("House: everyone reads the mast. The domes' own nodes write to it and may notify; patterns are SP-relative.")
    night.add(HOUSE, 0, rule("all", operations=["retrieve", "discover"]))
    night.add(HOUSE, 1, rule("/dome*/*,/console", operations=["update", "notify"]))
    night.say("House: the policy itself may be read by the console and changed by the night crew.")
    night.add(HOUSE, 2, rule("/console", side="selfPrivileges", operations=["retrieve"]))
    night.add(HOUSE, 3, rule("standing=night-crew", side="selfPrivileges", authenticated=True, operations=["retrieve", "update"]))
    night.say("Lund: its people read and move the camera, and its camera control puts images into the archive.")
    night.add(LUND, 9, rule("domain=lund.example", operations=["retrieve", "update"]))
    night.add(LUND, 10, rule("//lund.example/cam*/control", authenticated=True, operations=["create"], types=[CONTENT, CONTAINER]))
    night.say("Kyoto: the spectrograph, from 22:15 to 00:30, in three windows.")
    night.add(KYOTO, 0, rule("domain=kyoto.example", operations=["update"], contexts=[Context(windows=NIGHT)]))
    night.say("Lima: people in Chile or Peru read the camera; from the institute's own network they create anything.")
    night.add(LIMA, 5, rule("all", operations=["retrieve"], contexts=[Context(countries=("CL", "PE"))]))
    night.add(
        LIMA,
        6,
        rule("//lima.example/*", operations=["create"], contexts=[Context(blocks=blocks("88.77.0.0/16", "2001:db8:7::/48"))]),
    )
    night.say("Perth: one rule without operations, which holds the number while the institute is suspended.")
    night.add(PERTH, 1023, rule("domain=perth.example", operations=[]))
    night.say("Links. Linking twice is one link.")
    for target, policy in ((MAST, HOUSE), (CAMERA, LUND), (CAMERA, LIMA), (SPECTROGRAPH, KYOTO), (ARCHIVE, LUND)):
        night.call(f"link {target} {policy}")
    for target, policy in ((ARCHIVE, LIMA), (ARCHIVE, PERTH), (ARCHIVE, LIMA)):
        night.call(f"link {target} {policy}")


def dusk(night):
    night.hour("19:20. Everyone looks at the weather mast. Only the domes and the console write to it.")
    time = evening("19:20:00")
    night.judge(MAST, WALLABY, "retrieve", time, permit(0, 0), known=False)
    night.judge(MAST, GUIDER, "notify", time, permit(0, 1))
    night.judge(MAST, CONSOLE, "update", time, permit(0, 1), known=False)
    night.say("The guider of another domain, a dome without a node, and a name with one segment too many.")
    night.judge(MAST, "//lund.example/dome2/guider", "notify", time, DENY)
    night.judge(MAST, "//cerro.example/dome2", "notify", time, DENY)
    night.judge(MAST, "//cerro.example/console/2", "notify", time, DENY)
    night.say("A star stands for no byte too.")
    night.judge(MAST, "//cerro.example/dome/x", "notify", time, permit(0, 1))
    night.say("Nothing is linked to target 11, and the house is not linked to the camera.")
    night.judge(11, WALLABY, "retrieve", time, DENY)
    night.judge(CAMERA, GUIDER, "notify", time, DENY)


def camera(night):
    night.hour("20:40. Astrid reads the camera. By her domain she may; from Chile two rules admit her, 1/9 and 3/5.")
    time = evening("20:40:00")
    night.judge(CAMERA, ASTRID, "retrieve", time, permit(1, 9))
    night.judge(CAMERA, ASTRID, "retrieve", time, permit(1, 9, 2), country="CL")
    night.judge(CAMERA, QUIPU, "retrieve", time, permit(3, 5), country="PE")
    night.say("Lima's rule does not help without a country, nor from another one.")
    night.judge(CAMERA, QUIPU, "retrieve", time, DENY)
    night.judge(CAMERA, QUIPU, "retrieve", time, DENY, country="DE")
    night.say("lund.example.org is not lund.example.")
    night.judge(CAMERA, STRANGER, "update", time, DENY)
    night.judge(CAMERA, STRANGER, "retrieve", time, permit(3, 5), country="CL")
    night.hour("21:05. Lund exposes. A camera of Kyoto asks to move the same mount; it may look from Chile, and not move.")
    time = evening("21:05:30")
    night.judge(CAMERA, LUND_CAMERA, "update", time, permit(1, 9))
    night.judge(CAMERA, KYOTO_CAMERA, "update", time, DENY, country="CL")
    night.judge(CAMERA, KYOTO_CAMERA, "retrieve", time, permit(3, 5), country="CL")
    night.judge(CAMERA, KYOTO_CAMERA, "delete", time, DENY, country="CL")
    night.say("Lund's control stores the image. Type 4 and type 3 may be created, type 23 and an unknown type may not.")
    night.judge(ARCHIVE, LUND_CAMERA, "create", time, permit(1, 10), kind=CONTENT)
    night.judge(ARCHIVE, LUND_CAMERA, "create", time, permit(1, 10), kind=f"000{CONTAINER}")
    night.judge(ARCHIVE, LUND_CAMERA, "create", time, DENY, kind=SUBSCRIPTION)
    night.judge(ARCHIVE, LUND_CAMERA, "create", time, DENY)
    night.say("Unauthenticated it may not. Reading the archive is not touched by child types.")
    night.judge(ARCHIVE, LUND_CAMERA, "create", time, DENY, kind=CONTENT, known=False)
    night.judge(ARCHIVE, LUND_CAMERA, "retrieve", time, permit(1, 9), kind=SUBSCRIPTION, known=False)
    night.say("Lima creates from its own network, in both families, with and without a type.")
    night.judge(ARCHIVE, QUIPU, "create", time, permit(3, 6), address="88.77.255.1")
    night.judge(ARCHIVE, QUIPU, "create", time, permit(3, 6), kind=SUBSCRIPTION, address="2001:DB8:7::1")
    night.judge(ARCHIVE, QUIPU, "create", time, permit(3, 6), address="2001:db8:7:ffff:ffff:ffff:ffff:ffff")
    night.judge(ARCHIVE, QUIPU, "create", time, DENY, address="2001:db8:8::")
    night.judge(ARCHIVE, QUIPU, "create", time, DENY, address="88.78.0.0")
    night.judge(ARCHIVE, QUIPU, "create", time, DENY, address="::ffff:584d:1")
    night.judge(ARCHIVE, QUIPU, "create", time, DENY)
    night.judge(ARCHIVE, QUIPU + "/x", "create", time, DENY, address="88.77.255.1")
    night.say("Perth is suspended. Its rule admits no operation.")
    night.judge(ARCHIVE, WALLABY, "retrieve", time, DENY)


def allotment(night):
    night.hour("22:15 to 00:30. Kyoto's allotment at the spectrograph, at its edges.")
    inside, outside = permit(2, 0), DENY
    for time, answer in (
        (evening("21:15:00"), outside),
        (evening("22:14:59"), outside),
        (evening("22:15:00"), inside),
        (evening("22:59:59"), inside),
        (evening("23:00:00"), inside),
        (evening("23:14:59"), inside),
        (evening("23:59:59"), inside),
        (morning("00:00:00"), inside),
        (morning("00:29:59"), inside),
        (morning("00:30:00"), outside),
        (morning("01:00:00"), outside),
        (80_100, inside),
        (80_099, outside),
        (1_799, inside),
        (1_800, outside),
    ):
        night.judge(SPECTROGRAPH, NAOKO, "update", time, answer)
    night.say("Inside the allotment the others stay outside, and Kyoto only changes and does not delete.")
    time = evening("23:10:00")
    night.judge(SPECTROGRAPH, ASTRID, "update", time, DENY)
    night.judge(SPECTROGRAPH, KYOTO_CAMERA, "update", time, permit(2, 0), known=False)
    night.judge(SPECTROGRAPH, NAOKO, "delete", time, DENY)
    night.say("A rule with two contexts: hour 22 from one network, hour 4 from another. They are not mixed.")
    two = (
        Context((window(hours=[22]),), blocks("88.77.0.0/16")),
        Context((window(hours=[4]),), blocks("116.27.123.0/24")),
    )
    night.add(KYOTO, 1, rule("all", operations=["retrieve"], contexts=two))
    night.judge(SPECTROGRAPH, ROSA, "retrieve", 80_100, permit(2, 1), address="88.77.255.1")
    night.judge(SPECTROGRAPH, ROSA, "retrieve", 80_100, DENY, address="116.27.123.9")
    night.judge(SPECTROGRAPH, ROSA, "retrieve", morning("04:59:59"), permit(2, 1), address="116.27.123.9")
    night.say("Day 1 and weekday 1 must hold together: 1 May 2000, and neither 3 January nor 1 February.")
    night.add(KYOTO, 2, rule("all", operations=["discover"], contexts=[Context((window(days=[1], weekdays=[1]),))]))
    night.judge(SPECTROGRAPH, ROSA, "discover", 10_454_400, permit(2, 2))
    night.judge(SPECTROGRAPH, ROSA, "discover", 172_800, DENY)
    night.judge(SPECTROGRAPH, ROSA, "discover", 2_678_400, DENY)


def own_policies(night):
    night.hour("00:40. Who may read and change the house's own policy? Links play no part, nor do the rules for resources.")
    time = morning("00:40:00")
    night.judge("policy:0", CONSOLE, "retrieve", time, permit(0, 2), known=False)
    night.judge("policy:0", INES, "retrieve", time, permit(0, 3))
    night.judge("policy:0", INES, "update", time, permit(0, 3))
    night.judge("policy:0", INES, "update", time, DENY, known=False)
    night.judge("policy:0", CONSOLE, "update", time, DENY)
    night.judge("policy:0", CONSOLE, "discover", time, DENY)
    night.judge("policy:000", WALLABY, "retrieve", time, DENY)
    night.say("The rules for the policy do not open the mast. Policies without such rules deny; none is needed to ask.")
    night.judge(MAST, INES, "update", time, DENY)
    night.judge("policy:1", ASTRID, "retrieve", time, DENY)
    night.judge("policy:63", INES, "retrieve", time, DENY)
    night.judge("policy:64", INES, "retrieve", time, refused(8))


def leavers_and_tokens(night):
    night.hour("01:00. Ines's shift ends. She keeps what everyone of the house may do and loses the crew's rights.")
    time = morning("01:00:00")
    night.call(f"leave {INES}")
    night.judge("policy:0", INES, "update", time, DENY)
    night.judge(MAST, INES, "retrieve", time, permit(0, 0))
    night.say("Leaving is noted above the tokens: a presented pair does not bring the crew's rights back.")
    night.call(f"present {INES} night-crew")
    night.judge("policy:0", INES, "update", time, DENY)
    night.call(f"readmit {INES}")
    night.judge("policy:0", INES, "update", time, permit(0, 3))
    night.say("Rosa shows a token for the rest of the night. After clearing, the crew list alone counts.")
    night.judge("policy:0", ROSA, "update", time, DENY)
    night.call(f"present {ROSA} night-crew")
    night.judge("policy:0", ROSA, "update", time, permit(0, 3))
    night.call("clear")
    night.judge("policy:0", ROSA, "update", time, DENY)
    night.judge("policy:0", INES, "update", time, permit(0, 3))
    night.say("The token layer takes eight pairs. A pair of the crew list takes a place too; the ninth is refused.")
    night.call(f"present {INES} night-crew")
    for place in range(2, 9):
        night.call(f"present //visitors.example/{place} night-crew")
    night.call(f"present {ROSA} night-crew", refused(21))
    night.judge("policy:0", ROSA, "update", time, DENY)
    night.judge("policy:0", "//visitors.example/8", "update", time, permit(0, 3))
    night.say("What the layer holds is accepted again. What is no identity or no standing is found first.")
    night.call("present //visitors.example/2 night-crew")
    night.call("present rosa night-crew", refused(13))
    night.call(f"present {ROSA} night*", refused(13))
    night.call("clear")
    night.call(f"present {ROSA} night-crew")
    night.judge("policy:0", ROSA, "update", time, permit(0, 3))
    night.say("Sixteen leavers, the seventeenth is refused; one comes back, and its place is free.")
    for place in range(1, 17):
        night.call(f"leave //visitors.example/{place}")
    night.call(f"leave {ROSA}", refused(21))
    night.judge("policy:0", ROSA, "update", time, permit(0, 3))
    night.call("leave //visitors.example/16")
    night.call("leave visitors", refused(13))
    night.call("readmit visitors", refused(13))
    night.call("readmit //visitors.example/17")
    night.call(f"leave {ROSA}", refused(21))
    night.call("readmit //visitors.example/1")
    night.call(f"leave {ROSA}")
    night.judge("policy:0", ROSA, "update", time, DENY)
    night.call(f"readmit {ROSA}")
    night.say("Rows of the crew list with texts that nobody can have are taken, and do nothing.")
    night.call("member rosa night-crew")
    night.call(f"member {QUIPU} night*")
    night.judge("policy:0", QUIPU, "update", time, DENY)


def withdrawn(night):
    night.hour("02:10. Lima's rule for readers is withdrawn. The camera denies what only that rule admitted.")
    time = morning("02:10:00")
    night.judge(CAMERA, ASTRID, "retrieve", time, permit(1, 9, 2), country="CL")
    night.call("withdraw 3 5")
    night.judge(CAMERA, ASTRID, "retrieve", time, permit(1, 9), country="CL")
    night.judge(CAMERA, QUIPU, "retrieve", time, DENY, country="CL")
    night.call("withdraw 3 5", refused(11))
    night.say("Its number can be taken again, also on the other side; a number that is taken cannot.")
    night.add(LIMA, 5, rule("standing=/obs/group7", side="selfPrivileges"))
    night.add(LIMA, 5, rule("all"), refused(10))
    night.call(f"member {QUIPU} /obs/group7")
    night.judge("policy:3", QUIPU, "retrieve", time, permit(3, 5))
    night.judge(CAMERA, QUIPU, "retrieve", time, DENY, country="CL")
    night.say("Lund is unlinked from the camera and linked again. The archive keeps its link.")
    night.call("unlink 7 1")
    night.judge(CAMERA, ASTRID, "retrieve", time, DENY)
    night.judge(ARCHIVE, ASTRID, "retrieve", time, permit(1, 9))
    night.call("unlink 7 1")
    night.call("link 7 1")
    night.judge(CAMERA, ASTRID, "retrieve", time, permit(1, 9))


def refusals(night):
    night.hour("03:00. Tired fingers: what is refused, and what is found first.")
    time = morning("03:00:00")
    night.call("add 64 0 1120", refused(8))
    night.call("add 0 1024 112000", refused(8))
    night.call("withdraw 64 0", refused(8))
    night.call("withdraw 0 1024", refused(8))
    night.call("withdraw 63 1023", refused(11))
    night.call("link 16 1", refused(9))
    night.call("link 16 64", refused(9))
    night.call("link 15 64", refused(8))
    night.call("unlink 15 64", refused(8))
    night.judge(16, INES, "retrieve", 3155760000, refused(9), country="cl")
    night.judge(15, INES, "retrieve", 3155760000, refused(14), country="cl")
    night.judge(15, INES, "retrieve", 3155759999, refused(15), country="cl")
    night.judge(15, INES, "retrieve", 3155759999, DENY, country="CL")
    night.judge("policy:4294967295", INES, "retrieve", 4294967295, refused(8), country="--")
    night.judge(16, "ines", "retrieve", 3155760000, refused(13), country="cl")
    night.judge(MAST, INES, "retrieve", time, refused(15), country="Cl")
    night.judge(MAST, INES, "retrieve", time, permit(0, 0), country="ZZ")
    night.say("Notes with faults, under a number that is taken: the note is looked at first.")
    night.add_broken(LUND, 9, "1120", "1 at 16 bits")
    night.add_broken(LUND, 9, "-", "1 at 0 bits")
    night.add_broken(LUND, 9, "1100", "2 at 8 note")
    night.add_broken(LUND, 9, "11204161", "3 at 24 note")
    night.add_broken(LUND, 9, "11280020" + "00" * 8, "4 at 32 note")
    night.add_broken(LUND, 9, "112800041080", "5 at 33 note")
    night.add_broken(LUND, 9, "112800016141", "6 at 32 note")
    night.add_broken(PERTH, 7, "11200000", "7 at 24 note")
    night.add(LUND, 9, "112000", refused(10))
    night.judge(CAMERA, ASTRID, "update", time, permit(1, 9))
    night.say("Two calls that this console does not serve.")
    night.call(f"role {INES} retrieve 3", "unreadable: role is not served yet")
    night.call(f"request cse 3 target:7 {INES} authenticated retrieve 5 - - -", "unreadable: request is not served yet")


def small_register(night):
    night.hour("04:30. The old dome has a register of three rules and two targets. The big one is gone, the crew list stays.")
    time = morning("04:30:00")
    night.call("open old.cerro 3 2")
    night.judge(1, ASTRID, "retrieve", time, DENY)
    night.judge(CAMERA, ASTRID, "retrieve", time, refused(9))
    night.judge("policy:0", INES, "update", time, DENY)
    night.add(1, 2, rule("/console", operations=["update"]))
    night.add(1, 1, rule("standing=night-crew", operations=["update"]))
    night.add(0, 3, rule("all", operations=["update"], authenticated=True))
    night.add(5, 5, rule("all"), refused(12))
    night.add(1, 2, rule("all"), refused(10))
    night.add_broken(5, 5, "1120", "1 at 16 bits")
    night.call("link 1 1")
    night.call("link 1 0")
    night.call("link 2 0", refused(9))
    night.say("The new home domain holds for SP-relative patterns. One rule admits, then two, then all three, then two.")
    night.judge(1, CONSOLE, "update", time, permit(0, 3))
    night.judge(1, "//old.cerro/console", "update", time, permit(0, 3, 2))
    night.call("member //old.cerro/console night-crew")
    night.judge(1, "//old.cerro/console", "update", time, permit(0, 3, 3))
    night.judge(1, "//old.cerro/console", "update", time, permit(1, 1, 2), known=False)
    night.say("One rule goes, another takes its row, and the register is full again.")
    night.call("withdraw 1 1")
    night.add(1, 0, rule("domain=old.cerro", operations=["update"]))
    night.add(1, 1, rule("all"), refused(12))
    night.judge(1, "//old.cerro/console", "update", time, permit(1, 0, 2), known=False)
    night.say("A refused opening closes nothing. A register without rows takes no rule, one without targets no link.")
    night.call("open old*cerro 9 9", refused(13))
    night.judge(1, "//old.cerro/console", "update", time, permit(1, 0, 2), known=False)
    night.call("open old.cerro 0 0")
    night.add(0, 0, rule("all"), refused(12))
    night.call("link 0 0", refused(9))
    night.judge(0, INES, "retrieve", time, refused(9))
    night.judge("policy:0", INES, "retrieve", time, DENY)
    night.say("05:10. Shutters closed. The visitors are struck from the list of leavers, and the tokens are cleared.")
    for place in range(2, 17):
        night.call(f"readmit //visitors.example/{place}")
    night.call("clear")


PARTS = (
    before_the_register,
    policies,
    dusk,
    camera,
    allotment,
    own_policies,
    leavers_and_tokens,
    withdrawn,
    refusals,
    small_register,
)


def night_lines():
    night = Night()
    for part in PARTS:
        part(night)
    return night.lines


def main():
    stated = night_lines()
    lines = [line.encode() for line, _ in stated]
    counts = collections.Counter()
    for (line, wanted), (_, given) in zip(stated, journal_expected.answers(lines)):
        if wanted != given:
            sys.exit(f"{line}\n  stated: {wanted}\n  given:  {given}")
        if given:
            counts[given.split()[0].rstrip(":")] += 1
    FILE.write_bytes(b"".join(line + b"\n" for line in lines))
    print(f"{FILE.stat().st_size} bytes, {len(lines)} lines, {sum(counts.values())} calls, each with a stated answer")
    print(", ".join(f"{name} {count}" for name, count in counts.items()))


if __name__ == "__main__":
    main()
