"""The variables of configuration files, over the files that set them (PMS 5.2.4, 5.3.1)."""
import random

from lines import rows

FILES = 300
WORDS = ["a", "b", "c", "-a", "-b", "-c", "-*"]


def question(asked, files):
    """What is asked, and files, each of lines KEY=VALUE; the Nth is etc/N."""
    return ";".join([asked, *(f"etc/{at}\n{file}" for at, file in enumerate(files, 1))])


def asking(query, table):
    """A row for each (asked, file, file, .., answer) of the table."""
    return rows(query, [(question(asked, files), wanted) for asked, *files, wanted in table])


def of_use(table):
    """Rows for what USE comes to over files, by what stands in each behind `USE=`."""
    return asking("stacked", [("USE", *(f"USE={it}" for it in files), it) for *files, it in table])


def words_over_files():
    table = [
        ("a b", "c", "a b c "),
        ("a b", "-a c", "b c "),
        ("a -a b", "b "),
        ("-a", "a", "a "),
        ("-a", ""),
        ("a ab", "-a", "ab "),
        (" a\t b\r", "", "a b "),
    ]
    return of_use(table)


def a_word_stands_once_where_it_was_first_seen():
    table = [
        ("a b a", "b a c", "a b c "),
        ("a b", "-a", "a", "b a "),
        ("a b", "-a a", "b a "),
        ("a a", "-a", ""),
    ]
    return of_use(table)


def all_words_are_taken_away():
    table = [
        ("a b", "-* c", "c "),
        ("a", "b -*", ""),
        ("a", "-*", "a", "a "),
        ("a -* b", "c", "b c "),
        ("a", "-*b", "a "),
        ("-* a", "-* b", "c", "b c "),
    ]
    return of_use(table)


def the_last_assignment_of_a_file_counts():
    table = [
        ("USE", "USE=a\nUSE=b", "b "),
        ("USE", "USE=a", "USE=-*\nUSE=b", "a b "),
        ("USE", "USE=a", "USE=b\nUSE=", "a "),
        ("USE", "USE=a\nARCH=x\nUSE=-a\nL10N=y", "USE=b", "b "),
    ]
    return asking("stacked", table)


def other_variables_say_nothing():
    table = [
        ("USE", ""),
        ("USE", "", "USER=a\nUS=b\nuse=c", ""),
        ("USE", "USER=a\nUSE=d\nUSE_EXPAND=e", "d "),
        ("L10N", "USE=a\nL10N=de", "L10N=fr -de", "fr "),
    ]
    return asking("stacked", table)


def values_that_files_replace():
    table = [
        ("ARCH", "none"),
        ("ARCH", "ARCHES=x86", "", "none"),
        ("ARCH", "ARCH=x86", "ARCH=amd64", "=amd64"),
        ("ARCH", "ARCH=amd64", "CHOST=x", "=amd64"),
        ("ARCH", "ARCH=x86\nARCH=amd64\nCHOST=x", "=amd64"),
        ("CFLAGS", "CFLAGS=-O2 -g", "CFLAGS= -O3  -g", "= -O3  -g"),
        ("CFLAGS", "CFLAGS=-O2", "CFLAGS=-*", "=-*"),
        ("CFLAGS", "CFLAGS=-O2", "CFLAGS=", "="),
    ]
    return asking("last", table)


def expanded_variables():
    # Over all files, without USE, and not those of USE_EXPAND_IMPLICIT.
    table = [
        ("", ""),
        ("", "USE_EXPAND=ABI_X86 L10N", "USE_EXPAND=-ABI_X86 CPU", "L10N CPU "),
        ("", "USE_EXPAND=ABI_X86", "USE_EXPAND=-* L10N", "L10N "),
        ("", "USE_EXPAND=USE", ""),
        ("", "USE_EXPAND=L10N USE USER use", "L10N USER use "),
        ("", "USE_EXPAND_IMPLICIT=ARCH\nUSE=a", ""),
        ("", "USE_EXPAND=L10N\nUSE_EXPAND=CPU", "CPU "),
    ]
    return asking("expanded", table)


def flags_of_expanded_variables():
    # The variable is in lower case, and the word stays.
    table = [
        ("VIDEO_CARDS nouveau", "video_cards_nouveau"),
        ("abi_X86 64", "abi_x86_64"),
        ("L10N pt-BR", "l10n_pt-BR"),
    ]
    return asking("flag_of", table)


def values_that_may_stand():
    # Changes of flags, names of variables, a value that nothing is said of, one that a later
    # assignment of its file replaces, and a variable that a later file stops expanding.
    table = [
        ["USE=a -b -* c+_@-"],
        ["ARCH=amd64"],
        ["USE=", "USE_EXPAND=", "USE_EXPAND_IMPLICIT="],
        ["USE_EXPAND=A_1 -_B -* c"],
        ["USE_EXPAND_IMPLICIT=ARCH -ELIBC -*"],
        ["CFLAGS=-O2 --x=.", "USER=+ .", "L10N=."],
        ["USE=+\nUSE=a\nARCH=\nARCH=b"],
        ["USE_EXPAND=L10N\nL10N=.\nL10N=de -fr -*"],
        ["USE_EXPAND=L10N\nL10N=.", "USE_EXPAND=-L10N"],
        ["USE_EXPAND=CPU L10N USE\nL10N=+ -+", "USE=a"],
    ]
    return asking("judge", [("", "ok")] + [("", *files, "ok") for files in table])


def words_that_may_not_stand():
    table = [
        ("USE", "+a --a - a.b a,b *"),
        ("USE_EXPAND", "1A A-B --A - * A. +A"),
        ("USE_EXPAND_IMPLICIT", "1A A-B --A - * A. +A"),
        ("ARCH", "-amd64 -* ~amd64 +a a.b"),
        ("L10N", ". -. a.b -a/b *"),
    ]
    read = [(key, word) for key, words in table for word in words.split()]
    bad = [("", f"USE_EXPAND=L10N\n{key}={word}", "etc/1 2") for key, word in read if key != "USE"]
    bad += [("", "A=", f"USE=a {word} b", "etc/2 1") for key, word in read if key == "USE"]
    return asking("judge", bad)


def the_first_bad_value():
    # By its file and line: of those that count, also where a later file replaces it, and where a
    # later file makes its variable an expanded one. A flag can't begin with the `_` of a variable.
    table = [
        ("", "ARCH=", "etc/1 1"),
        ("", "ARCH=a b", "etc/1 1"),
        ("", "A=\nUSE=+\nARCH=+", "USE=+", "etc/1 2"),
        ("", "USE=+\nARCH=+\nUSE=+", "etc/1 2"),
        ("", "USE=+\nARCH=a\nUSE=+", "etc/1 3"),
        ("", "USE=a\nUSE=+", "etc/1 2"),
        ("", "USE=+\nUSE=a", "USE=a", "A=\nUSE=+", "etc/3 2"),
        ("", "ARCH=+", "ARCH=amd64", "etc/1 1"),
        ("", "A=1\nL10N=.", "USE_EXPAND=L10N\nUSE=+", "etc/1 2"),
        ("", "USE_EXPAND=_A", "_A=b", "etc/2 1"),
    ]
    return asking("judge", table)


def words_over_random_files():
    rng = random.Random(5)
    lists = [random_files(rng) for _ in range(FILES)]
    return asking("stacked", [("USE", *map(written, it), standing(it)) for it in lists])


def random_files(rng):
    """Up to four files, each of up to three pairs of a variable and words."""
    return [[random_pair(rng) for _ in range(rng.randrange(4))] for _ in range(rng.randrange(5))]


def random_pair(rng):
    words = rng.choices(WORDS, weights=[4, 4, 4, 2, 2, 2, 1], k=rng.randrange(6))
    return rng.choice(["USE", "USE", "USER"]), words


def written(pairs):
    return "\n".join(f"{key}={' '.join(words)}" for key, words in pairs)


def standing(files):
    """What USE comes to over files of such pairs, each word with a space behind it."""
    stands = {}
    for word in [word for pairs in files for word in dict(pairs).get("USE", [])]:
        if word == "-*":
            stands.clear()
        elif word.startswith("-"):
            stands.pop(word[1:], None)
        else:
            stands.setdefault(word)
    return "".join(f"{word} " for word in stands)


TESTS = [
    words_over_files,
    a_word_stands_once_where_it_was_first_seen,
    all_words_are_taken_away,
    the_last_assignment_of_a_file_counts,
    other_variables_say_nothing,
    values_that_files_replace,
    expanded_variables,
    flags_of_expanded_variables,
    values_that_may_stand,
    words_that_may_not_stand,
    the_first_bad_value,
    words_over_random_files,
]
