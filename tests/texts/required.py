"""REQUIRED_USE: read, printed, its truth, and its first broken expression."""
from groups import cuts
from lines import rows


def truth_over_flags():
    # Whether it holds where a alone is on, and where a and b are; if not, what is broken first.
    table = [
        ("^^ ( a b )", "yes", "no 0"),
        ("?? ( a b )", "yes", "no 0"),
        ("|| ( b c )", "no 0", "yes"),
        ("|| ( )", "no 0", "no 0"),
        ("^^ ( )", "no 0", "no 0"),
        ("?? ( )", "yes", "yes"),
        ("|| ( b? ( a ) )", "no 0", "yes"),
        ("a b? ( !a )", "yes", "no 1"),
        ("( a !b )", "yes", "no 0"),
        ("^^ ( ( a b ) c )", "no 0", "yes"),
        ("?? ( ( a b ) a )", "yes", "no 0"),
        ("|| ( ?? ( a b ) c )", "yes", "no 0"),
        ("b? ( ^^ ( a b ) )", "yes", "no 0"),
        ("", "yes", "yes"),
    ]
    alone = [("a", text, broken) for text, broken, _ in table]
    return rows("broken", alone + [("a b", text, broken) for text, _, broken in table])


def groups_without_members_that_hold():
    table = [
        ("|| ( )", "yes"),
        ("^^ ( )", "yes"),
        ("?? ( )", "yes"),
        ("|| ( b? ( a ) )", "yes"),
        ("^^ ( b? ( a ) )", "yes"),
        ("|| ( b? ( a ) c )", "no 0"),
        ("^^ ( a ( a ) )", "no 0"),
        ("a || ( b )", "no 1"),
    ]
    return rows("broken_if_empty_holds", [("a", text, broken) for text, broken in table])


def printed_with_single_spaces():
    text = " ^^ (\ta\n!b ) !c? ( ?? ( d ) ( e ) || ( f ) )"
    return rows("required", [(text, "^^ ( a !b ) !c? ( ?? ( d ) ( e ) || ( f ) )")])


def first_faults():
    table = [
        ("a ( ( b )", "the group at 2 is not closed"),
        ("a )", "no group for the parenthesis at 2 to close"),
        ("a (b )", "a parenthesis without a space in the word at 2"),
        ("a b[(+)]", "a parenthesis without a space in the word at 2"),
        ("a || b", "no item at 2"),
        ("-a", "no item at 0"),
        ("-a? ( b )", "no item at 0"),
    ]
    return rows("required", table)


def cut_at_every_byte():
    text = "a || ( b? ( !a ) )"
    places = ". . . 2 2 2 (5 (5 (5 7 7 (5 (5 12 (5 (5 (5 (5 ."
    return rows("required", cuts(text, places, "item"))


def sixty_four_groups_in_one_another():
    read = []
    for opener, without in [("||", "no 0"), ("^^", "no 0"), ("a?", "yes")]:
        text = f"{opener} ( " * 64 + "a" + " )" * 64
        read += rows("required", [(text, text)])
        read += rows("broken", [("a", text, "yes"), ("", text, without)])
    return read


def a_text_of_64_kilobytes():
    text = " ".join(["!f0"] * 16_384)
    return rows("required", [(text, text)])


TESTS = [
    truth_over_flags,
    groups_without_members_that_hold,
    printed_with_single_spaces,
    first_faults,
    cut_at_every_byte,
    sixty_four_groups_in_one_another,
    a_text_of_64_kilobytes,
]
