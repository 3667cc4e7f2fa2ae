"""Whether one rule covers another at a home domain, as docs/RULES.md states it.

Patterns are compared by Python's regular expressions, blocks by its ipaddress.
"""
import re

ANY = rb"[^/]*"  # what a star of a covering pattern stands for


# Entries


def full_form(pattern, home):
    return pattern if pattern.startswith(b"//") else b"//" + home + pattern


def pieces(form):
    """What stands between the stars; stars that stand together say the same as one."""
    return re.split(rb"\*+", form)


def literal(piece):
    return re.escape(piece)


def expression(form):
    """The regular expression of a full form: each star is [^/]*, every other byte is itself.

    A star that another star follows is joined with the bytes between the two, and the first place that fits is
    kept: (?>[^/]*?BYTES). A later place would leave fewer bytes to the stars that follow, so no match is lost, and
    patterns with many stars need no long search.
    """
    first, *rest = map(literal, pieces(form))
    if not rest:
        return first
    *inner, last = rest
    return first + b"".join(rb"(?>%b?%b)" % (ANY, piece) for piece in inner) + ANY + last


def pattern_covers(one, other, home):
    """The stars of the other pattern are bytes like any others."""
    return re.fullmatch(expression(full_form(one, home)), full_form(other, home), re.DOTALL) is not None


def domain_covers(domain, pattern, home):
    return full_form(pattern, home).startswith(b"//" + domain + b"/")


def entry_covers(one, other, home):
    if one.kind == "all":
        return True
    if one.kind == "pattern":
        return other.kind == "pattern" and pattern_covers(one.text, other.text, home)
    if one.kind == "domain" and other.kind == "pattern":
        return domain_covers(one.text, other.text, home)
    return one == other


# Constraints


def window_covers(one, other):
    return all(mine >= theirs for mine, theirs in zip(one.sets, other.sets))


def block_covers(one, other):
    return one.version == other.version and other.subnet_of(one)


def country_covers(one, other):
    return one == other


# Lists


def each_covered(mine, theirs, covers):
    """Each of theirs is covered by at least one of mine."""
    return all(any(covers(one, other) for one in mine) for other in theirs)


def list_covers(mine, theirs, covers):
    return not mine or (bool(theirs) and each_covered(mine, theirs, covers))


def context_covers(one, other):
    return (
        list_covers(one.windows, other.windows, window_covers)
        and list_covers(one.blocks, other.blocks, block_covers)
        and list_covers(one.countries, other.countries, country_covers)
    )


# Rules


def side_covers(one, other):
    return one.side == other.side


def flag_covers(one, other):
    return not one.authenticated or other.authenticated


def operations_cover(one, other):
    return one.operations >= other.operations


def originators_cover(one, other, home):
    return each_covered(one.originators, other.originators, lambda mine, theirs: entry_covers(mine, theirs, home))


def types_cover(one, other):
    return list_covers(one.types, other.types, lambda mine, theirs: mine == theirs)


def contexts_cover(one, other):
    return list_covers(one.contexts, other.contexts, context_covers)


def covers(one, other, home):
    """Whether the first rule covers the second."""
    return (
        side_covers(one, other)
        and flag_covers(one, other)
        and operations_cover(one, other)
        and originators_cover(one, other, home)
        and types_cover(one, other)
        and contexts_cover(one, other)
    )
