"""The entries of the repository's cache: their lines, their fields, and what they say."""
from lines import rows

# The digest of `abc` in RFC 1321.
ABC = "900150983cd24fb0d6963f7d28e17f72"
STALE = "900150983cd24fb0d6963f7d28e17f73"

# An entry of an ebuild `abc` with every key.
WHOLE = f"""\
BDEPEND=virtual/pkgconfig
DEFINED_PHASES=compile install
DEPEND=dev-libs/icu:=
DESCRIPTION=A = sign
EAPI=8
HOMEPAGE=https://example.org
IDEPEND=c/i
INHERIT=flags
IUSE=+nls test
KEYWORDS=amd64 ~arm64
LICENSE=GPL-3+
PDEPEND=c/q
PROPERTIES=live
RDEPEND=dev-libs/icu:= nls? ( virtual/libintl )
REQUIRED_USE=test? ( nls )
RESTRICT=!test? ( test )
SLOT=0/2.12
SRC_URI=https://example.org/a.tar.xz
_eclasses_=flags\t{ABC}
_md5_={ABC}
"""


# The keys of the classes of dependencies, and the editions whose packages have that class (PMS 8.1).
CLASSES = {
    "RDEPEND": "5678",
    "PDEPEND": "5678",
    "DEPEND": "5678",
    "BDEPEND": "78",
    "IDEPEND": "8",
}


def in_form(edition):
    return f"in form of {edition}"


def entry_of(edition, more=""):
    """The smallest entry of an edition, with these lines behind it."""
    return f"EAPI={edition}\nSLOT=0\n_md5_={ABC}\n{more}"


def entries_of_an_ebuild():
    # With every key, with none but those that must be there, of another ebuild, and faults of
    # lines, of EAPI before other fields, and of a field. What is told of an entry: its slots and
    # flags, those on by default, keywords, RDEPEND, PDEPEND, DEPEND, BDEPEND, IDEPEND, and
    # REQUIRED_USE.
    whole = [
        "0/2.12 nls test ",
        "nls ",
        "amd64 ~arm64 ",
        "dev-libs/icu:= nls? ( virtual/libintl )",
        "c/q",
        "dev-libs/icu:=",
        "virtual/pkgconfig",
        "c/i",
        "test? ( nls )",
    ]
    table = [
        (WHOLE, "; ".join(whole)),
        (f"SLOT=3\n_md5_={ABC}\nEAPI=8", "; ".join(["3/3 "] + [""] * 8)),
        (f"EAPI=8\nSLOT=0\n_md5_={STALE}\n", f"stale: {STALE}, not {ABC}"),
        ("EAPI", "line 1 has no equals sign"),
        ("SLOT=0\nSLOT=0\n", "SLOT twice"),
        ("EAPI=4\nIUSE=--a\n", "edition 4"),
        (f"EAPI=8\nSLOT=0\n_md5_={ABC[:-1]}\n", "field _md5_"),
        (b"EAPI=8\n\xff=\n", "an entry that is not UTF-8"),
    ]
    return rows("entry", table)


def fields_of_entries():
    # Every field, none but those that must be there, an edition that goes before what is absent,
    # the absent ones in their order, and the first line that isn't in form.
    table = [
        (f"DEPEND=c/p\nEAPI=8\nIUSE=+a -b\nREQUIRED_USE=a\nSLOT=0/2\n_md5_={ABC}", in_form(8)),
        (f"SLOT=0\n_md5_={ABC}\nEAPI=8\nX=(\n", in_form(8)),
        ("EAPI=4\n", "edition 4"),
        ("EAPI=8 \nSLOT=(\n", "edition 8 "),
        ("SLOT=0\n", "field EAPI"),
        ("EAPI=8\n_md5_=x\n", "field SLOT"),
        ("EAPI=8\nSLOT=0\nIUSE=--a\n", "field _md5_"),
        (f"EAPI=8\nSLOT=0\r\n_md5_={ABC.upper()}\n", "field SLOT"),
        (f"EAPI=8\nRDEPEND=( c/p\nSLOT=\n_md5_={ABC}\n", "field RDEPEND"),
    ]
    return rows("fields", table)


def editions():
    """The smallest entry of each, and texts of EAPI that are those of none."""
    read = [(entry_of(it), in_form(it)) for it in "5678"]
    odd = ["", "4", "9", "10", "08", "8 ", " 8", "8\r", "8\t", "7 8", "eight", "EAPI=8", "+8", "8.0"]
    return rows("fields", read + [(entry_of(it), f"edition {it}") for it in odd])


def classes_by_edition():
    """A key of a class that the edition lacks may have any value, and gives nothing."""
    table = []
    for key, editions in CLASSES.items():
        for it in "5678":
            told = f"field {key}" if it in editions else in_form(it)
            table += [(entry_of(it, f"{key}={text}\n"), told) for text in ("(", "c/x )", "c/x-1")]
            table.append((entry_of(it, f"{key}=c/x\n"), in_form(it)))
    return rows("fields", table)


def needs_by_edition():
    lines = "".join(f"{key}=c/{key.lower()}\n" for key in CLASSES)
    table = []
    for it in "5678":
        needs = [f"c/{key.lower()}" if it in CLASSES[key] else "" for key in CLASSES]
        table.append((entry_of(it, lines), "; ".join(["0/0 ", "", "", *needs, ""])))
    return rows("entry", table)


def required_use_in_each_edition():
    table = [(entry_of(it, "REQUIRED_USE=^^ ( )\n"), in_form(it)) for it in "5678"]
    faults = [(entry_of(it, "REQUIRED_USE=^^ (\n"), "field REQUIRED_USE") for it in "5678"]
    return rows("fields", table + faults)


def an_entry_that_is_cut():
    """Of each edition, at every byte."""
    equals = ["line {} has no equals sign".format(at) for at in (1, 2, 3)]
    told = ["field EAPI"] + [equals[0]] * 4 + ["edition "] + ["field SLOT"] * 2
    told += [equals[1]] * 4 + ["field _md5_"] * 3 + [equals[2]] * 5 + ["field _md5_"] * 32
    cuts = [(entry_of(it)[:end], what) for it in "5678" for end, what in enumerate(told)]
    return rows("fields", cuts + [(entry_of(it)[:-1], in_form(it)) for it in "5678"])


def pairs_of_entries():
    # A last line without its newline, a value with an equals sign and white space at its end, empty
    # keys and values, no lines, and each fault; of two faults the one that is tried first.
    table = [
        ("EAPI=8\nSLOT=0", "EAPI:8|SLOT:0|"),
        ("A=b=c \n=\nB=\n", "A:b=c |:|B:|"),
        ("", ""),
        ("\n", "line 1 has no equals sign"),
        ("EAPI", "line 1 has no equals sign"),
        ("A=1\n\nB=2\n", "line 2 has no equals sign"),
        ("# x\nA=1\n", "line 1 has no equals sign"),
        ("X=1\nY=2\nY=3\nX=4\n", "Y twice"),
        ("=\n=\n", " twice"),
        ("A=1\nA=2\nB", "line 3 has no equals sign"),
    ]
    return rows("pairs", table)


def entries_that_are_not_utf8():
    return rows("pairs", [(b"A=1\nA\xc3\n", "an entry that is not UTF-8")])


def texts_of_64_kib():
    keys, value = [f"K{number:04}" for number in range(1_024)], "x" * 57
    text = "".join(f"{key}={value}\n" for key in keys)
    pairs = rows("pairs", [(text, "".join(f"{key}:{value}|" for key in keys))])
    needs = " ".join(["c/d"] * 16_384)
    entry = f"EAPI=8\nRDEPEND={needs}\nSLOT=0\n_md5_={ABC}\n"
    said = "; ".join(["0/0 ", "", "", needs] + [""] * 5)
    return pairs + rows("fields", [(entry, in_form(8))]) + rows("entry", [(entry, said)])


TESTS = [
    entries_of_an_ebuild,
    fields_of_entries,
    editions,
    classes_by_edition,
    needs_by_edition,
    required_use_in_each_edition,
    an_entry_that_is_cut,
    pairs_of_entries,
    entries_that_are_not_utf8,
    texts_of_64_kib,
]
