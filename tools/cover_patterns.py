"""Cases of covering for patterns; cover_cases.py puts them into its journal."""
import random

from cover_rules import HOME, LONG_HOME, SEED, maybe, nudged, random_segment, rule, with_stars


def single_segments(journal):
    journal.group("Stars that stand for nothing, for one byte, for many.")
    journal.open("h.x")
    journal.table(
        """
        /*       covers  /a /abc
        /**      covers  /a
        /***     covers  /a
        /a*      covers  /a
        /a*      misses  /b /ba
        /*a      covers  /a
        /*a      misses  /ab
        /*a*     covers  /a
        /*a*     misses  /b
        /**a**   covers  /a
        /a*b     covers  /ab
        /a**b    covers  /ab
        /*a*b*   covers  /ab
        /a*b*c   covers  /abc /axbyc /abbcc /abcbc
        /a*b*c   misses  /ac /ab /bc /acb /abcd /xabc
        /a*a     covers  /aa
        /a*a     misses  /a
        /*a*a    misses  /a
        /*a*a*   covers  /baba
        """
    )
    journal.group("The first place that fits is not the right one, or there is none.")
    journal.table(
        """
        /*ab        covers  /aab /abab
        /*ab        misses  /aba
        /*aab       covers  /aaaab
        /*aab       misses  /aabb
        /a*bc       covers  /abbc /abcbc
        /a*bc       misses  /abcb
        /*ab*ab     covers  /abab /aababbab
        /*ab*ab     misses  /ab /aab
        /*aba*aba   covers  /abaaba
        /*aba*aba   misses  /ababa
        /*a*ab      covers  /aab
        /*a*ab      misses  /ab
        /ab*ab      misses  /ab
        /ab*ba      covers  /abba
        /ab*ba      misses  /aba
        /*b*a       misses  /ab
        """
    )
    journal.group("Stars of the covered pattern are bytes; only a star of the covering one takes them.")
    journal.table(
        """
        /*       covers  /* /** /****
        /**      covers  /*
        /***     covers  /*
        /a       misses  /* /a* /*a
        /ab      misses  /a* /*b /*
        /a*      covers  /a* /ab* /a**
        /a*      misses  /* /*a
        /a**     covers  /a*
        /*a      covers  /*a /b*a
        /*a      misses  /a*
        /*b      covers  /a*b
        /a*b     covers  /a*b /ab*b
        /a*b     misses  /*b /a*
        /a*c     covers  /a*b*c
        /a*b*c   covers  /a*b*c /a*bb*c
        /a*b*c   misses  /a*c
        /*a*     covers  /a* /*a /b*ab
        /*a*     misses  /b*b /*
        /*a*a*   covers  /*a*a
        /*a*a*   misses  /*a*
        /*a*b    misses  /*b
        /a*)     misses  /a**
        /a)      misses  /a*
        /a+      misses  /a*
        """
    )


def segments(journal):
    journal.group("Stars at the ends of segments: a star stands for no slash.")
    journal.table(
        """
        /a*/b    covers  /a/b /ax/b
        /a*/b    misses  /a /axb /ax/bx
        /*/b     covers  /x/b
        /*/b     misses  /b
        /a/*b    covers  /a/b /a/xb
        /a/*b    misses  /a/bx
        /a/*     covers  /a/b /a/*
        /a/*     misses  /a /ab/c
        /*a/*b   covers  /aa/bb
        /*a/*b   misses  /ab/ba
        /a*/b*   covers  /a*/b*
        /a*/b*   misses  /*/b
        /a*b     misses  /a/b /ax/xb
        /*       misses  /a/b
        /**      misses  /a/b
        /*/*     covers  /*/*
        /*/*     misses  /a /ab
        /**/**   covers  /*/*
        """
    )
    journal.group("Two segments against three.")
    journal.table(
        """
        //*/*     covers  //a/b
        //*/*     misses  //a/b/c //*/*/*
        //*/*/*   covers  //a/b/c //*/*/*
        //*/*/*   misses  //a/b //*/*
        //a/*     misses  //a/b/c
        //a*/c    misses  //a/b/c
        //*/c     misses  //a/b/c
        //**/**   misses  //a/b/c
        //a/b     misses  //a/b/c
        //a/b/c   misses  //a/b
        """
    )


def home_forms(journal):
    journal.group("SP-relative against absolute, both ways, at the home domain h.x.")
    journal.open("h.x")
    journal.table(
        """
        /a            covers  //h.x/a
        /a            misses  //a/a //h.y/a //hxx/a //h.x.y/a //.x/a //h./a //H.X/a
        //h.x/a       covers  /a
        //h.x/a       misses  /a/b /h.x/a
        //H.X/a       misses  /a
        //hax/a       misses  /a
        //h.xx/a      misses  /a
        //xh.x/a      misses  /a
        /a/b          covers  //h.x/a/b
        /a/b          misses  //a/b
        //h.x/a/b     covers  /a/b
        //h.x/a/b     misses  /a
        //a/b         misses  /a/b
        /*            covers  //h.x/*
        //h.x/*       covers  /*
        /a*           covers  //h.x/ab*
        //h.x/a*      covers  /ab*
        /h.x/a        misses  //h.x/a
        //h.x/h.x/a   covers  /h.x/a
        """
    )
    journal.group("Stars of the first segment against the home domain.")
    starred = "//*/a //**/a //h*/a //h.*/a //*.x/a //*x/a //h*x/a //h.x*/a //*h.x/a //*h*.*x*/a //*h.x*/*"
    for text in starred.split():
        journal.table(f"{text} covers /a")
    for text in "//*x.h/a //*hx/a //h*y/a //h.x?*/a //*./a //.*/a //*/a/b".split():
        journal.table(f"{text} misses /a")
    journal.table(
        """
        //h.*x/a*   covers  /a*
        //h*/*      covers  //h.*/*
        //h.*/*     misses  //h*/*
        /a          misses  //*/a //h.*/a
        /*          misses  //h.*/a //*/*
        //*/a       misses  /a/b
        """
    )
    journal.group("The same notes at another home domain have other answers.")
    for home in ("a", "h.x", "ab", "A", "a"):
        own = home == "a"
        journal.open(home)
        journal.cover(rule("/b"), rule("//a/b"), own)
        journal.cover(rule("//a/b"), rule("/b"), own)
        journal.cover(rule("/*"), rule("//a/b*"), own)
        journal.cover(rule("/a"), rule("/a"), True)
        journal.cover(rule("//*a*/b"), rule("/b"), "a" in home)
        journal.cover(rule("/b"), rule("//*/b"), False)


def long_forms(journal):
    journal.group("Full forms of more than 40 bytes, up to 66; the home domain has 24 bytes.")
    journal.open(LONG_HOME)
    home = LONG_HOME
    tail = "abcdefghijklmnopqrstuvwxyzABCDEFGHIJKLM"  # 39 bytes
    halves = tail[:19] + "/" + tail[20:]
    stars = "*" * 39
    journal.table(
        f"""
        //*/*                   covers  /{tail}
        //*/*                   misses  /{halves}
        //*/*/*                 covers  /{halves}
        /{tail}                 covers  /{tail}
        /{tail}                 misses  /{tail[:-1]}N /{tail[:-1]} /{tail[:-1]}* /{stars}
        /{halves}               covers  /{halves}
        /{tail[:-1]}            misses  /{tail}
        /{tail[:-1]}*           covers  /{tail}
        /{tail[:-2]}*           covers  /{tail} /{tail[:-1]}
        /*{tail[1:]}            covers  /{tail}
        /*{tail[1:-1]}N         misses  /{tail}
        /*{tail[20:]}           covers  /{tail}
        /*{tail[20:-1]}N        misses  /{tail}
        /{halves[:-1]}*         covers  /{halves}
        /{halves[:-1]}*         misses  /{tail}
        /*/{tail[20:]}          covers  /{halves}
        /*/{tail[20:-1]}N       misses  /{halves}
        //{home}/{tail[:13]}    covers  /{tail[:13]}
        /{tail[:13]}            covers  //{home}/{tail[:13]}
        /{tail[:13]}            misses  //{home}/{tail[:12]}N
        //{home}/{tail[:12]}*   covers  /{tail}
        //{home}/*              covers  /{tail}
        //{home}/*              misses  /{halves}
        //{home[:-1]}*/*        covers  /{tail}
        //{home[:-1]}x*/*       misses  /{tail}
        //{home}x/*             misses  /{tail}
        //{home[:-1]}/*         misses  /{tail}
        //*{home[-4:]}/*M       covers  /{tail}
        //*{home[-4:]}/*N       misses  /{tail}
        //{home}/a/*            covers  /a/{tail[:37]}
        //{home}/a/*            misses  /b/{tail[:37]}
        domain={home}           covers  /{tail} /{halves} //{home}/{tail[:13]}
        domain={home}           misses  //{home}x/{tail[:12]}
        domain={home[:-1]}      misses  /{tail}
        /{stars}                covers  /{tail} //{home}/a /{stars}
        /{stars}                misses  //{home}/a/b //{home[:-1]}/a
        """
    )
    journal.group("First segments of more than 24 bytes.")
    first = "p" * 30
    journal.table(
        f"""
        //{first}/a    covers  //{first}/a
        //{first}/a    misses  //{first[1:]}/a
        //{first}*/a   covers  //{first}pp/a
        //{first}*/a   misses  //{first[1:]}/a
        //{first}/*    covers  //{first}/abc
        //*/a          covers  //{first}/a
        """
    )


def near_misses(journal):
    journal.group("One byte more, one less, another one at each place.")
    journal.open(HOME)
    base = "/myCSE7/C9886"
    for place in range(1, len(base)):
        if base[place] == "/":
            continue
        before, after = base[:place], base[place + 1 :]
        journal.table(
            f"""
            {base}                    misses  {before}x{after} {before}{after} {before}*{after}
            {before}*{after}          covers  {before}x{after} {before}{after}
            {before}*{base[place:]}   covers  {before}x*{base[place:]}
            """
        )
    journal.group("Bytes that have a meaning elsewhere have none here, and case counts.")
    journal.table(
        r"""
        /.        covers  /.
        /.        misses  /a
        /a.*      misses  /ab
        /a+       misses  /aa
        /a?       misses  /a /ab
        /[ab]     misses  /a
        /(a)      misses  /a
        /a|b      misses  /a
        /a{2}     misses  /aa
        /^a$      misses  /a
        /\a       misses  /a
        /\*       covers  /\a
        /\*       misses  /*
        /a\*      covers  /a\
        /a[*]     covers  /a[b]
        /a[*]     misses  /a
        /#        covers  /#
        /%        misses  /a
        /myCSE*   misses  /MYCSE7
        /mycse*   misses  /myCSE7
        """
    )
    journal.group("A star stands for every visible byte but the slash.")
    visible = "".join(chr(byte) for byte in range(0x21, 0x7F) if chr(byte) not in "/*,")
    for start in range(0, len(visible), 36):
        piece = visible[start : start + 36]
        journal.table(f"/* covers /{piece}")
        journal.table(f"//*/a covers //{piece}/a")
        journal.table(f"/{piece} covers /{piece}")
    for byte in "!)+-.0~":
        journal.table(f"/a* covers /a{byte}")
        journal.table(f"/a{byte} misses /a*")
        journal.table(f"/*{byte}* covers /*a{byte}a*")


def many_stars(journal):
    journal.group("Many stars and few letters: the search must stay short.")
    journal.open("a" * 24)
    a, stars = "a" * 39, "*a" * 17
    journal.table(
        f"""
        //*a*a*a*a/b            covers  //{a[:30]}/b //{a[:30]}ba/b //aaaa/b //*a*a*a*a/b
        //*a*a*a*a/b            misses  //{a[:30]}/c //{a[:30]}b/b //aaa/b //*a*a*a*/b
        //{stars}/b             covers  //{a[:36]}/b //{a[:17]}/b //{a[:34]}ba/b //{stars}/b /b
        //{stars}/b             misses  //{a[:36]}/c //{a[:16]}/b //{a[:35]}b/b /c /{a[:36]}/b
        /{stars}/b              covers  /{a[:36]}/b
        /{stars}/b              misses  /{a[:36]}/c /{a[:35]}b/b
        /{stars}aaaaa           covers  /{a}
        /{stars}aaaab           misses  /{a}
        /{stars}*b              misses  /{a}
        /{stars}*               covers  /{a}
        /{"a*" * 19}            covers  /{a} /{a[:19]}
        /{"a*" * 19}            misses  /{a[:18]}
        /{"a*" * 19}b           covers  /{a[:38]}b
        /{"a*" * 19}b           misses  /{a}
        /{"*" * 37}b            covers  /{a[:38]}b
        /{"*" * 37}b            misses  /{a}
        /*ab*ab*ab*ab*ab*ab*b   covers  /{"ab" * 6}b /{"ab" * 7}
        /*ab*ab*ab*ab*ab*ab*b   misses  /{"ab" * 6}a
        /*aab*aab*aab*aab       covers  /{"aab" * 13}
        /*aab*aab*aab*aab       misses  /{"aab" * 12}aba /{"aab" * 3}ab
        """
    )


def strings(alphabet, most):
    """All strings of 1 to most letters."""
    row, result = [""], []
    for _ in range(most):
        row = [text + letter for text in row for letter in alphabet]
        result += row
    return result


def short_segments(journal):
    journal.group("Every pair of segments of 1 to 3 bytes out of a and *.")
    journal.open(HOME)
    journal.all_pairs([rule("/" + text) for text in strings("a*", 3)])
    journal.group("Every pair of segments of 1 or 2 bytes out of a, b and *, one of each pair absolute.")
    journal.open("h")
    for one in strings("ab*", 2):
        for other in strings("ab*", 2):
            journal.cover(rule("//h/" + one), rule("/" + other))


def pattern_of(rng, segments, home):
    """SP-relative if the first segment is the home domain, mostly."""
    if segments[0] == home and maybe(rng, 0.8):
        return "/" + "/".join(segments[1:])
    return "//" + "/".join(segments)


def random_patterns(journal):
    rng = random.Random(SEED)
    for home in ("a", "b", "ab", "aaba"):
        journal.group(f"Random patterns out of a, b, * and /, each with one that got more stars. Home domain {home}.")
        journal.open(home)
        for place in range(120):
            most = rng.choice((2, 3, 6))
            covered = [random_segment(rng, most) for _ in range(rng.randint(2, 3))]
            covered[0] = home if maybe(rng, 0.6) else covered[0]
            covering = [with_stars(rng, segment) if maybe(rng, 0.7) else segment for segment in covered]
            if place % 2:
                changed = rng.randrange(len(covering))
                covering[changed] = nudged(rng, covering[changed])
            pair = [rule(pattern_of(rng, segments, home)) for segments in (covering, covered)]
            journal.cover(*pair, None if place % 2 else True)
        for _ in range(20):
            pair = [[random_segment(rng, 2) for _ in range(rng.randint(2, 3))] for _ in range(2)]
            journal.cover(*(rule(pattern_of(rng, segments, home)) for segments in pair))


GROUPS = (
    single_segments,
    segments,
    home_forms,
    long_forms,
    near_misses,
    many_stars,
    short_segments,
    random_patterns,
)
