"""Dependency trees: read, printed, their truth, and the leaves that count."""
from groups import cuts
from lines import rows

LEAF = "c/d"


def empty_any_of():
    # Whether it holds where one without members does; where such a one doesn't, none of them holds.
    table = [
        ("|| ( a? ( c/d ) )", "yes"),
        ("|| ( )", "yes"),
        ("|| ( || ( ) )", "yes"),
        ("|| ( a? ( c/d ) c/e )", "no"),
        ("|| ( ( c/e ) )", "no"),
    ]
    cases = [(there, text, holds) for text, holds in table for there in ["", "d-1"]]
    fails = rows("truth", [("", there, text, "no") for there, text, _ in cases])
    return fails + rows("truth_if_empty_holds", [("", *case) for case in cases])


def truth_with_one_package():
    # Whether the text holds with c/d-1 alone, for an asker without the flag a, and for one with it.
    table = [
        ("c/d !c/d !!c/d", "yes", "yes"),
        ("c/e", "no", "no"),
        ("<c/d-1", "no", "no"),
        ("a? ( c/e )", "yes", "no"),
        ("!a? ( c/e )", "no", "yes"),
        ("( c/d a? ( c/e ) )", "yes", "no"),
        ("|| ( ( c/d c/e ) c/e )", "no", "no"),
        ("|| ( c/e ( c/d ) )", "yes", "yes"),
        ("|| ( a? ( c/e ) c/d )", "yes", "yes"),
        ("|| ( !a? ( c/d ) )", "yes", "no"),
        ("|| ( a? ( ) )", "no", "yes"),
        ("|| ( ( a? ( c/e ) ) )", "yes", "no"),
        ("|| ( || ( ) a? ( || ( c/d ) ) )", "no", "yes"),
        ("a? ( a? ( c/e ) )", "yes", "no"),
        ("", "yes", "yes"),
    ]
    off = [("", "d-1", text, without) for text, without, _ in table]
    return rows("truth", off + [("a", "d-1", text, with_a) for text, _, with_a in table])


def printed_and_its_leaves():
    text = " >=c/a-1:0=\ta? ( !c/b\r\n|| ( c/d !a? ( c/e[x?] ) ) ) (  ( c/f ) )"
    printed = ">=c/a-1:0= a? ( !c/b || ( c/d !a? ( c/e[x?] ) ) ) ( ( c/f ) )"
    leaves = [("", text, ">=c/a-1:0= c/f"), ("a", text, ">=c/a-1:0= !c/b c/d c/f")]
    return rows("depend", [(text, printed)]) + rows("leaves", leaves)


def first_faults():
    table = [
        ("c/a ( ( c/b )", "the group at 4 is not closed"),
        ("c/a )", "no group for the parenthesis at 4 to close"),
        ("c/a (c/b )", "a parenthesis without a space in the word at 4"),
        ("c/a || c/b", "no atom at 4"),
        ("^^ ( c/a )", "no atom at 0"),
        ("?? ( c/a )", "no atom at 0"),
        ("c/a-1", "no atom at 0"),
        ("-a? ( c/b )", "no atom at 0"),
        ("|| ( a? ( c/a ( !c/b ) ) )", "the block at 16 stands in an any-of group"),
    ]
    return rows("depend", table)


def cut_at_every_byte():
    text = "c/d || ( a? ( =c/e-1 ) ) !c/f"
    places = ". 0 0 . . 4 4 4 (7 (7 9 9 9 (7 (7 14 14 14 14 14 (7 (7 (7 (7 . . 25 25 25 ."
    return rows("depend", cuts(text, places, "atom"))


def sixty_four_open_groups():
    opened = "the group at 0 is not closed"
    return rows("depend", [("( " * 64, opened), ("( " * 64 + "(", "more than 64 groups are open")])


def sixty_four_groups_in_one_another():
    read = []
    for opener in ["||", "a?"]:
        text = f"{opener} ( " * 64 + LEAF + " )" * 64
        read += rows("depend", [(text, text)])
        read += rows("truth", [("a", "d-1", text, "yes")])
        read += rows("leaves", [("a", text, LEAF)])
    return read


def a_text_of_64_kilobytes():
    text = " ".join([LEAF] * 16_384)
    return rows("depend", [(text, text)])


TESTS = [
    empty_any_of,
    truth_with_one_package,
    printed_and_its_leaves,
    first_faults,
    cut_at_every_byte,
    sixty_four_open_groups,
    sixty_four_groups_in_one_another,
    a_text_of_64_kilobytes,
]
