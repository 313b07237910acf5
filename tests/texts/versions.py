"""Versions: PMS 3.2 and 3.3, and the rule of `=..*`."""
import random

from lines import pairs, rows
from version_order import begins, compare

# Pairs that PMS 3.3 makes equal.
EQUAL = """
    1.0=1.00 1.010=1.01 1_p=1_p0 1-r0=1 01=1 4.0=4.0 1.0-r1=1.0-r1 1.0-r0=1.0 00=0
    1.02=1.020 1.010=1.0100 1.0.0=1.00.000 1_alpha=1_alpha0 1_alpha01=1_alpha1 1_p_p0=1_p0_p
    1-r01=1-r1 1-r00=1 1.010a_rc-r0=1.01a_rc0 0099=99 00000000000000000000000000000000000001=1
"""

# Pairs of which PMS 3.3 makes the first the lesser. Those of the second paragraph are in Portage's
# own tests of its comparison too, with the same answers.
LESS = """
    1.01<1.1 1.9<1.10 1.2<1.2.0 1<1a 1_alpha<1 1<1_p 1_alpha<1_alpha_p

    5.0<6.0 5<5.0 1.0-r0<1.0-r1 1.0<1.0-r1 1.0<1.0.0 1.0b<1.0.0 1_p1<1b_p1 1.1<1.1b 12.2b<12.2.5
    999999999999999999999999999998<999999999999999999999999999999 1.0_pre2<1.0_p2 1.0_alpha2<1.0_p2
    1.0_alpha1<1.0_beta1 1.0_beta3<1.0_rc3 1.001000000000000000001<1.001000000000000000002
    1.00100000000<1.001000000000000001 1.0_alpha<1.0_pre 0<0.0
"""

# Numbers behind a dot: with a zero in front as texts, else as integers.
LESS_NUMBERS = """
    1.002<1.02 1.02<1.2 1.1<1.10 1.99<1.100 1.0<1.01 1.0<1.1 1.0<1.10 1.09<1.1 1.010<1.10 1.2<1.20
    1.0.3<1.0.20 1.0.9<1.1 9<10 9<010
    99999999999999999999999999999999999998<99999999999999999999999999999999999999
    1.10000000000000000000000000000000000000<1.99999999999999999999999999999999999999
"""

# Letters come before suffixes, and behind the count of numbers.
LESS_LETTERS = "1a<1b 1z<1.0 1_p<1a 1_p9<1a_alpha 1a_alpha<1a 1.2a<1.2.1 1.2z<1.10"

LESS_SUFFIXES = """
    1_alpha<1_beta 1_beta<1_pre 1_pre<1_rc 1_rc<1_p 1_rc99<1 1_alpha2<1_alpha10
    1_p1_alpha<1_p1 1_p1<1_p1_p 1_p<1_p_p0 1_alpha_rc<1_alpha 1_alpha_p<1_alpha1
    1_beta_alpha3<1_beta_p2
"""

LESS_REVISIONS = "1-r1<1-r2 1-r9<1-r10 1_alpha-r9<1 1-r9<1a 1-r1<1.0"

BEGUN = """
    1.2*1.2 1.2*1.2.3 1.2*1.2a 1.2*1.2-r4 1.2_alpha*1.2_alpha3 1_p0*1_p 1_p1*1_p1_p4
    1_alpha_p*1_alpha0_p3 1.2a*1.2a_p1 1.02*1.020.3 01*1.5_rc 1.2-r1*1.2-r01 1.2-r0*1.2
"""

NOT_BEGUN = """
    1.2*1.20 1.2*1.02 1.2_alpha*1.2_beta 1.2_alpha*1.2 1.2_alpha*1.2.0_alpha 1.2_alpha*1.2a_alpha
    1_p0*1_p1 1_alpha_p*1_alpha1_p3 1.2a*1.2 1.2a*1.2.1a 1.2.3*1.2 1.2-r1*1.2.1-r1 1.2-r0*1.2-r1
"""

PAIRS = 3000


def texts_of_versions():
    texts = "0 1.02.3 10z 1_p 1_alpha1_beta_pre2_rc 2.4b_rc1-r03 1_p20060101 1-r0".split()
    whole = rows("is_version", [(text, "yes") for text in texts])
    return whole + rows("stop", [(text, "none") for text in texts])


def where_other_texts_stop():
    table = [
        ("", "0"),
        ("a1", "0"),
        ("1.", "2"),
        ("1..2", "2"),
        ("1A", "1"),
        ("1ab", "2"),
        ("1a.2", "2"),
        ("1_prx", "4"),
        ("1_gamma", "2"),
        ("1_", "2"),
        ("1-2", "2"),
        ("1-r", "3"),
        ("1-r1_p", "4"),
        ("1_p-r1.0", "6"),
    ]
    return rows("stop", table) + rows("is_version", [(text, "no") for text, _ in table])


def version_comparisons():
    less = LESS + LESS_NUMBERS + LESS_LETTERS + " " + LESS_SUFFIXES + LESS_REVISIONS
    turned = " ".join(">".join(reversed(pair.split("<"))) for pair in less.split())
    other = " ".join("=".join(reversed(pair.split("="))) for pair in EQUAL.split())
    equal = pairs("compare", EQUAL + other, "=", "=")
    return equal + pairs("compare", less, "<", "<") + pairs("compare", turned, ">", ">")


def asterisk_matches():
    return pairs("begins", BEGUN, "*", "yes") + pairs("begins", NOT_BEGUN, "*", "no")


def faults_of_versions():
    many = "123456789012345678901234567890123456789"
    table = [
        ("", "a version is empty"),
        ("1.", "no version goes on with what stands at byte 2"),
        (many, "the number at byte 0 has more than 38 digits"),
        (f"1_p{many}", "the number at byte 3 has more than 38 digits"),
        (f"1a{many}", "no version goes on with what stands at byte 2"),
        ("1" + ".1" * 127, "1" + ".1" * 127),
        ("1" + ".1" * 128, "a version is longer than 255 bytes"),
    ]
    return rows("version", table)


def a_version_and_its_copy():
    copied = rows("version", [("1.02a_rc1-r3", "1.02a_rc1-r3")])
    return copied + rows("same_base", [("1.02a_rc1-r3", "1.020a_rc1-r4", "yes")])


def random_comparisons():
    """Pairs that a plain second computation answers, near to each other more often than not."""
    table = [near_pair(random.Random(at)) for at in range(PAIRS)]
    return rows("compare", [(one, other, compare(one, other)) for one, other in table])


def random_asterisks():
    table = [near_pair(random.Random(at)) for at in range(PAIRS)]
    return rows("begins", [(one, other, begins(one, other)) for one, other in table])


def near_pair(choice):
    """Two versions, of which the second has some parts of the first one."""
    one, other = parts(choice), parts(choice)
    mixed = [a if choice.random() < 0.7 else b for a, b in zip(one, other)]
    return "".join(one), "".join(mixed)


def parts(choice):
    """The texts of a version's parts: four of numbers, a letter, two suffixes and a revision."""
    numbers = [f".{number(choice)}" if choice.random() < 0.4 else "" for _ in range(3)]
    letter = choice.choice(["", "", "", "a", "b"])
    suffixes = [suffix(choice) if choice.random() < 0.4 else "" for _ in range(2)]
    revision = choice.choice(["", "", "-r0", "-r1", "-r01", "-r10"])
    return [number(choice), *numbers, letter, *suffixes, revision]


def number(choice):
    return choice.choice(["0", "00", "1", "01", "010", "10", "2", "9", "090", "99"])


def suffix(choice):
    kind = choice.choice(["alpha", "beta", "pre", "rc", "p"])
    return f"_{kind}{choice.choice(['', '', '0', '1', '01', '10'])}"


TESTS = [
    texts_of_versions,
    where_other_texts_stop,
    version_comparisons,
    asterisk_matches,
    faults_of_versions,
    a_version_and_its_copy,
    random_comparisons,
    random_asterisks,
]
