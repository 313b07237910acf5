"""The texts of an installed package's record: CONTENTS, EAPI, SLOT, USE and IUSE."""
from flags import RISING
from lines import rows

# The digests of nothing and of `abc` in RFC 1321.
NOTHING = "d41d8cd98f00b204e9800998ecf8427e"
ABC = "900150983cd24fb0d6963f7d28e17f72"


def odd_but_right_texts():
    table = [
        ("", ""),
        (f"obj /a {NOTHING} 0\n", f"a={NOTHING}|"),
        (f"obj /a b {ABC} 17", f"a b={ABC}|"),
        ("sym /l -> a -> b c 1\n", "l=a -> b c|"),
        ("sym /l ->  -> 12\n", "l= ->|"),
        ("sym /l -> - 0\nsym /k -> \t 0\n", "l=-|k=\t|"),
        ("dir /a\ndir /a\ndir /a b\r\n", ""),
        ("dir /a\nsym /a -> b 0\n", "a=b|"),
        ("sym /var -> x 0\nsym /var/lib/portage/jobs/1 -> x 0\n", ""),
        ("sym /var/db/pkg/c -> x 0\nsym /var/db/pkg/c -> x 0\n", ""),
        ("sym /var/lib/portage/world -> x 0\n", "var/lib/portage/world=x|"),
        ("sym /-a -> x 0\nsym /.b -> x 0\n", "-a=x|.b=x|"),
    ]
    return rows("contents", table)


def faulty_lines():
    table = [
        ("\n", 1),
        ("dir /a\n\n", 2),
        ("dir /\n", 1),
        ("dir a\n", 1),
        ("fif /a\n", 1),
        (f"obj /a {NOTHING} 0 \n", 1),
        (f"obj /a {NOTHING.upper()} 0\n", 1),
        (f"obj /a {NOTHING} -1\n", 1),
        ("sym /l -> \t\nsym /l -> 0\n", 1),
        ("sym /l -> x 0\nsym /l -> y 0\n", 2),
        (f"sym /l -> x 0\nobj /l {NOTHING} 0\n", 2),
        ("sym /l/../k -> x 0\n", 1),
    ]
    fault = "line {} is none of a package's paths"
    return rows("contents", [(text, fault.format(at)) for text, at in table])


def odd_but_right_values():
    slots = rows("slots", [(" 0/2 \n", "0 2"), ("3", "3 3")])
    flags = rows("use", [("\n", ""), (" ssl  x\nssl ", "ssl x ")])
    return slots + flags + rows("known", [("+ssl -x x y\n", "ssl x y ")])


def faulty_values():
    slots = rows("slots", [(text, "none") for text in ["\n", "0 1", "0/1/2"]])
    flags = rows("use", [("x +y z", bad_word(2))]) + rows("known", [(" x +-y", bad_word(3))])
    return slots + flags


def editions():
    """Each that is read, with blanks around it."""
    table = [("{}", "5678"), ("{}\n", "5678"), ("{}\r\n", "5678"), ("\t {} \r\n\n", "5678")]
    return rows("eapi", [(text.format(it), it) for text, all_of in table for it in all_of])


def texts_of_no_edition():
    """No word, two words, blanks that are none, words of other editions, and others."""
    texts = [
        "", "\n", "\r\n", " \t", "8 8", "5 6", "8\n8\n", "8\r\n7\r\n", "\f8", "8\v", "8\0",
        "0", "1", "2", "3", "4", "9", "10", "55", "08", "007", "+8", "-8", "8.0", "8-r0", "\"8\"",
        "EAPI=8", "eight", "\u0668", "8\u00a0",
    ]
    return rows("eapi", [(text, "none") for text in texts])


def bad_word(at):
    return f"the word at {at} is none of a flag"


def texts_of_64_kib():
    names = [f"{number:04}" for number in range(1_500)]
    text = "".join(f"obj /{name} {NOTHING} 0\n" for name in names)
    owned = "".join(f"{name}={NOTHING}|" for name in names)
    blanks = " " * 65_536
    single = rows("eapi", [(f"{blanks}8", "8")]) + rows("slots", [(f"{blanks}0", "0 0")])
    flags = [(" ".join(RISING), "".join(f"{flag} " for flag in RISING))]
    return rows("contents", [(text, owned)]) + single + rows("use", flags) + rows("known", flags)


TESTS = [
    odd_but_right_texts,
    faulty_lines,
    odd_but_right_values,
    faulty_values,
    editions,
    texts_of_no_edition,
    texts_of_64_kib,
]
