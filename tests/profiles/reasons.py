"""Which packages are candidates, what else hides one (PMS 14.3), and the order of all of them."""
import asked
from repositories import AMD64, CACHE, TOP, ebuild_path, entry, entry_path, line
from repositories import package, packages, row
from trees import PROGRAM, check, executable, link, user

EBUILD = "# c/p-1\n"
ENTRY, SOURCE = entry_path("c/p-1"), ebuild_path("c/p-1")


def judged(text, reason):
    """A row of one package with this entry."""
    return row({ENTRY: text, SOURCE: EBUILD}, f"{reason} c/p-1")


def entries_without_an_ebuild():
    # None at all, a link, a folder, one of another version; the fault of the entry comes behind.
    table = [
        {},
        {SOURCE: link("p-2.ebuild")},
        {f"{SOURCE}/x": EBUILD},
        {ebuild_path("c/p-2"): EBUILD},
        {ebuild_path("c/p-1-r0"): EBUILD},
        {ebuild_path("d/p-1"): EBUILD},
    ]
    rows = [row({ENTRY: entry(EBUILD), **tree}, "no_ebuild c/p-1") for tree in table]
    faulty = [entry(EBUILD, EAPI="4"), entry("x"), "%", entry(EBUILD, KEYWORDS="x86")]
    return check(rows + [row({ENTRY: text}, "no_ebuild c/p-1") for text in faulty])


def entries_at_fault():
    # An entry of another EAPI or of another ebuild is told as that, and any other that isn't in
    # form as a bad one.
    whole = entry(EBUILD)
    table = [
        (whole, "visible"),
        (whole[:-1], "visible"),
        (whole + "X=(\n", "visible"),
        (entry(EBUILD, EAPI="4"), "eapi"),
        (entry(EBUILD, EAPI="08"), "eapi"),
        (entry(EBUILD, EAPI=""), "eapi"),
        (entry(EBUILD[:-1]), "stale"),
        (entry(""), "stale"),
        (entry(EBUILD, EAPI=None), "bad_entry"),
        (entry(EBUILD, SLOT=None), "bad_entry"),
        (entry(EBUILD, SLOT=""), "bad_entry"),
        (entry(EBUILD, SLOT="-1"), "bad_entry"),
        (entry(EBUILD, _md5_=None), "bad_entry"),
        (entry(EBUILD, _md5_="0" * 31), "bad_entry"),
        (entry(EBUILD, IUSE="--a"), "bad_entry"),
        (entry(EBUILD, RDEPEND="( c/q"), "bad_entry"),
        (entry(EBUILD, REQUIRED_USE="a ("), "bad_entry"),
        (whole + "SLOT=0\n", "bad_entry"),
        (whole + "X\n", "bad_entry"),
        (whole.encode() + b"X=\xff\n", "bad_entry"),
        ("", "bad_entry"),
    ]
    return check([judged(*it) for it in table])


def entries_of_each_edition():
    """A key of a class that the edition lacks may have any value (PMS 8.1)."""
    table = []
    for edition in "5678":
        table.append((entry(EBUILD, EAPI=edition), "visible"))
        for key, editions in {"BDEPEND": "78", "IDEPEND": "8", "DEPEND": "5678"}.items():
            told = "bad_entry" if edition in editions else "visible"
            table.append((entry(EBUILD, EAPI=edition, **{key: "( c/q"}), told))
    odd = ["4", "9", "8 ", " 8", "eight"]
    return check([judged(*it) for it in table + [(entry(EBUILD, EAPI=it), "eapi") for it in odd]])


def the_first_of_two_reasons():
    # Lines without form, EAPI, fields, the ebuild, keywords, masks.
    masked = {ENTRY: entry("x"), SOURCE: EBUILD, "p/top/package.mask": "c/p"}
    table = [
        (entry(EBUILD, EAPI="4") + "X\n", "bad_entry"),
        (entry(EBUILD, EAPI="4", SLOT=None), "eapi"),
        (entry("x", EAPI="4"), "eapi"),
        (entry("x", SLOT=""), "bad_entry"),
        (entry("x", KEYWORDS="x86"), "stale"),
        (entry(EBUILD, EAPI="4", KEYWORDS="x86"), "eapi"),
        (entry(EBUILD, SLOT="", KEYWORDS="x86"), "bad_entry"),
    ]
    return check([judged(*it) for it in table] + [row(masked, "stale c/p-1")])


def links_and_executable_files():
    # A link is no entry, even to one; an executable file is one, and an ebuild.
    whole = entry(EBUILD)
    linked = {ENTRY: link("p-2"), SOURCE: EBUILD, **package("c/p-2")}
    run = {ENTRY: executable(whole), SOURCE: executable(EBUILD)}
    return check([row(linked, "visible c/p-2"), row(run, "visible c/p-1")])


def what_else_stands_in_the_cache():
    # Texts that are no names of packages, whatever they hold, and entries elsewhere.
    names = [
        "Manifest.gz",
        "c/p",
        "c/p-1.tar",
        "c/p-1.gz",
        "c/p-1-r",
        "c/-1",
        "c/p-1-2",
        "c/.p-1",
        "c/+p-1",
        ".c/p-1",
        "-c/p-1",
        "c/d/p-1",
        "c/p-1/p-1",
        "c-1",
    ]
    strays = {f"{CACHE}/{name}": "%" for name in names}
    elsewhere = {
        f"{TOP}/metadata/c/p-3": entry(EBUILD),
        f"{CACHE}-x/c/p-3": entry(EBUILD),
        "var/db/repos/other/metadata/md5-cache/c/p-3": entry(EBUILD),
        ebuild_path("c/p-3"): EBUILD,
    }
    found = package("c/p-2")
    table = [({**strays, **found}, "visible c/p-2"), ({**elsewhere, **found}, "visible c/p-2")]
    return check([row(*it) for it in table] + [row(strays, ""), row({}, "")])


def packages_in_their_order():
    # Names in byte order, where the slash counts too: `+`, `-` and `.` stand before it.
    names = ["A/p-1", "a+b/p-1", "a-b/p-1", "a.b/p-1", "a/P-1", "a/p-1", "a/p+-1", "a/p-x-1"]
    names += ["a/p0-1", "a/pa-1", "a0/p-1", "a_/p-1", "aa/p-1", "b/a-1"]
    return check([in_order(names)])


def in_order(names):
    """A row of packages, which the tree has the other way round."""
    return row(packages(*names[::-1]), *[f"visible {name}" for name in names])


def versions_in_their_order():
    # The greater one first (PMS 3.3), and of equal ones the one whose text is smaller.
    ordered = ["10", "9", "2.10", "2.9", "2.1", "2.01", "2", "1.0", "1b", "1a", "1_p1"]
    ordered += ["1_p", "1_p0", "1-r10", "1-r2", "1-r1", "01", "1", "1-r0", "1_rc2", "1_rc1"]
    ordered += ["1_pre", "1_beta", "1_alpha3", "1_alpha", "0.9"]
    return check([in_order([f"c/p-{version}" for version in ordered])])


def visible_and_hidden_apart():
    # Those that are visible and the others are told apart, each in that order.
    tree = {
        **packages("c/p-2", "c/p-1", "a/z-1"),
        **package("c/p-3", KEYWORDS="x86"),
        **package("b/q-1", EAPI="4"),
        entry_path("c/q-1"): "%",
        "p/top/package.mask": "=c/p-2",
    }
    visible = ["visible a/z-1", "visible c/p-1"]
    hidden = ["eapi b/q-1", "keyword c/p-3", "masked c/p-2", "no_ebuild c/q-1"]
    return check([row(tree, *visible, *hidden)])


def configurations_at_fault():
    # Nothing is told of the repository then.
    table = [{"package.unmask": "%"}, {"package.accept_keywords": "~x"}, {"make.conf": "%"}]
    return check([row({**package("c/p-1"), **user(files)}, "config") for files in table])


def calls_that_fail():
    # Up to some call its failure is told; behind it none is made.
    tree = {**AMD64, **packages("c/p-1", "c/p-2"), entry_path("d/p-1"): "%"}
    answers = yield PROGRAM, [line(tree, call) for call in range(81)]
    whole, *failing = answers
    told = failing.index(whole)
    wanted = ["failed"] * told + [whole] * (len(failing) - told)
    if whole != "visible c/p-2\tvisible c/p-1\tno_ebuild d/p-1" or told < 20 or failing != wanted:
        raise asked.Wrong(f"{whole}: {told} calls fail, and then come {failing[told:]}")


TESTS = [
    entries_without_an_ebuild,
    entries_at_fault,
    entries_of_each_edition,
    the_first_of_two_reasons,
    links_and_executable_files,
    what_else_stands_in_the_cache,
    packages_in_their_order,
    versions_in_their_order,
    visible_and_hidden_apart,
    configurations_at_fault,
    calls_that_fail,
]
