"""What whole runs say and leave."""
from in_memory import EXEC, LINK, PLAIN, answers, run_case
from repository import ebuild_path, entry, entry_path
from trees import (
    DONE,
    ONE,
    case,
    check,
    image_of,
    installed,
    offered,
    run,
    sample_tree,
    told_each,
    text_file,
    texts,
    tree_of,
)

# what a merge of `c/p-1` leaves beside what its package places
STANDING = {
    "etc/portage/make.profile/make.defaults": (PLAIN, b'ARCH="amd64"\nACCEPT_KEYWORDS="amd64"\n'),
    "var/db/pkg/c/p-1/EAPI": (PLAIN, b"8\n"),
    "var/db/pkg/c/p-1/SLOT": (PLAIN, b"0\n"),
    "var/db/repos/gentoo/c/p/p-1.ebuild": (PLAIN, b"# c/p-1\n"),
    "var/db/repos/gentoo/metadata/md5-cache/c/p-1": (
        PLAIN,
        b"EAPI=8\nKEYWORDS=amd64\nSLOT=0\n_md5_=2550655ccae65e59797f665e80c9c1ef\n",
    ),
}
CONTENTS = "var/db/pkg/c/p-1/CONTENTS"


def check_again(tree):
    """A second merge does nothing."""
    again = run("=c/p-1", tree, ONE)
    check(again.told(), "0 emerge: ok 0\n")
    check(again.tree, tree)


def one_file_into_an_empty_tree():
    answer = run("=c/p-1", sample_tree(), ONE)
    check(answer.told(), DONE)
    check((answer.history, answer.acknowledged, answer.refusals), ("1", "1", "0"))
    listed = b"obj /usr/bin/p d41d8cd98f00b204e9800998ecf8427e 0\n"
    check(answer.tree, {**STANDING, "usr/bin/p": (PLAIN, b""), CONTENTS: (PLAIN, listed)})
    check_again(answer.tree)


def words_that_are_no_command():
    words = (
        "=c/p-", "=c/p-1.", "=/p-1", "=c/-1", "!c/p", "!!=c/p-1", "=c/p-1:", "c/p[x", ">=c/p-1*",
        "c", "c/p::gentoo", "c/p-1", "c /p", "\\",
    )
    came = told_each([run_case([word], sample_tree(), {}) for word in words])
    for word, it in zip(words, came):
        check(it, f"2 emerge: Usage: bad atom {word}\n")


def words_and_what_they_come_to():
    not_built = "20 emerge: NotBuilt: Command\n"
    table = (
        ("", "2 emerge: Usage\n"),
        ("--help", "2 emerge: Usage\n"),
        ("--load 2 c/p", "2 emerge: Usage\n"),
        ("--jobs 17 =c/p-1", "2 emerge: Usage: bad number 17\n"),
        ("--jobs 2 =c/p-1", DONE),
        ("=c/p-1 --tree x", DONE),
        ("=c/p-1 c/p", DONE),
        ("--flag-changes 1 c/p", DONE),
        ("--update c/p", DONE),
        ("--backtrack 1 c/p", DONE),
        ("--pretend c/p", "0 plan 1\ngroup 1\nadd c/p-1:0/0\nemerge: ok 0\n"),
        ("--plan p", "3 emerge: BadText: p 0\n"),
        ("--unmerge c/p", "7 emerge: NoCandidate: c/p\n"),
        ("--load 2", not_built),
        ("--repair", not_built),
        ("--repair c/p", not_built),
        ("@world", "3 emerge: BadText: var/lib/portage/world 0\n"),
        ("@world c/p", "3 emerge: BadText: var/lib/portage/world 0\n"),
    )
    came = told_each([case(words, sample_tree(), ONE) for words, _ in table])
    for (words, wanted), it in zip(table, came):
        check(it, wanted, words)


def a_plan_that_is_shown_changes_nothing():
    """The plan of a package that is there has no group."""
    there = tree_of(offered("c/p-1"), installed("c/p-1", ONE))
    for tree, groups in ((sample_tree(), "group 1\nadd c/p-1:0/0\n"), (there, "")):
        answer = run("--pretend c/p", tree, ONE)
        check(answer.told(), f"0 plan 1\n{groups}emerge: ok 0\n")
        check((answer.history, answer.acknowledged, answer.tree), ("", "", tree))


def beside(path):
    """The sample, and one more file."""
    return tree_of(offered("c/p-1"), {path: text_file("\x01")})


def judged(reason, **values):
    """A tree whose one candidate has these values, and what a run for it says."""
    tree = tree_of(offered("c/p-1", **values))
    return tree, f"7 emerge: NoCandidate: c/p (c/p-1 {reason})\n"


def candidates_that_may_not_come():
    """Each reason why one may not. Of two of them the one is told that is looked at first: the
    ebuild, the EAPI, the entry's form, its ebuild's bytes, keywords, masks, flags, the atom."""
    path = entry_path("c/p-1")
    told = "7 emerge: NoCandidate: c/p (c/p-1 {})\n"
    masked = texts({"etc/portage/package.mask": "c/p\n"})
    rows = [
        (tree_of({path: text_file("\x01")}), told.format("NoEbuild")),
        judged("Eapi", EAPI="4", KEYWORDS="x86"),
        (tree_of(offered("c/p-1"), texts({ebuild_path("c/p-1"): ""})), told.format("Stale")),
        (tree_of(offered("c/p-1"), texts({path: entry("", SLOT="/")})), told.format("BadEntry")),
        judged("Keyword", KEYWORDS="x86 ~amd64"),
        (tree_of(offered("c/p-1", IUSE="x", REQUIRED_USE="x"), masked), told.format("Masked")),
        judged("RequiredUse", IUSE="x", REQUIRED_USE="x"),
    ]
    came = told_each([case("c/p", tree, ONE) for tree, _ in rows])
    for (_, wanted), it in zip(rows, came):
        check(it, wanted)


def images_that_are_refused():
    collision, bad = "13 emerge: Collision: ", "14 emerge: BadImage: "
    # what also stands in the tree, the image, and the last line
    table = (
        ("etc/x", "- a\n- a/b", f"{collision}Ancestor a/b a\n"),
        ("etc/x", "- a/b\n- a", f"{collision}Ancestor a a/b\n"),
        ("usr", "- usr/bin/p", f"{collision}Unowned usr\n"),
        ("var/db/pkg", "- usr/bin/p", f"{collision}Unowned var/db/pkg\n"),
        ("usr/bin/p/x", "- b\n- usr/bin/p", f"{collision}Unowned usr/bin/p\n"),
        ("etc/x", "- b\n- var/db/pkg/x", f"{bad}Reserved var/db/pkg/x\n"),
        ("etc/x", "x var/lib/portage", f"{bad}Reserved var/lib/portage\n"),
        ("etc/x", "l var/db a", f"{bad}Reserved var/db\n"),
        ("etc/x", "- a\n- b\nl a b", f"{bad}Twice a\n"),
        ("etc/x", "- a\n- a\nl b", f"{bad}Link b\n"),
    )
    came = answers([case("=c/p-1", beside(at), image_of(text)) for at, text, _ in table])
    for (at, text, wanted), answer in zip(table, came):
        check(answer.told(), wanted, text)
        check(answer.tree, beside(at), text)


def unowned_file_in_the_way():
    path = "etc/portage/make.profile/make.defaults"
    answer = run("=c/p-1", sample_tree(), image_of(f"- usr/bin/q\nx {path}"))
    check(answer.told(), f"13 emerge: Collision: Unowned {path}\n")
    check(answer.tree, sample_tree())


def a_package_of_files_of_each_kind():
    image = image_of("x usr/bin/run abc\nl usr/lib/p.so p.so.1\n- usr/lib-p\n- etc/p abc")
    answer = run("=c/p-1", sample_tree(), image)
    check(answer.told(), DONE)
    # the digests of `abc` and of nothing are RFC 1321's
    listed = (
        b"obj /etc/p 900150983cd24fb0d6963f7d28e17f72 0\n"
        b"obj /usr/bin/run 900150983cd24fb0d6963f7d28e17f72 0\n"
        b"obj /usr/lib-p d41d8cd98f00b204e9800998ecf8427e 0\n"
        b"sym /usr/lib/p.so -> p.so.1 0\n"
    )
    check(answer.tree, {
        **STANDING,
        "etc/p": (PLAIN, b"abc"),
        "usr/bin/run": (EXEC, b"abc"),
        "usr/lib-p": (PLAIN, b""),
        "usr/lib/p.so": (LINK, b"p.so.1"),
        CONTENTS: (PLAIN, listed),
    })
    check_again(answer.tree)


def a_package_without_files():
    answer = run("=c/p-1", sample_tree(), [])
    check(answer.told(), DONE)
    check(answer.tree, {**STANDING, CONTENTS: (PLAIN, b"")})
    check_again(answer.tree)


def a_builder_that_fails():
    answer = run("=c/p-1", sample_tree(), ONE, broken=True)
    check(answer.told(), "15 emerge: BuildFailed: c/p-1\n")
    check((answer.faults, answer.resting), ("1", "1"))
    check(answer.tree, sample_tree())


def first_write_fails():
    answer = run("=c/p-1", sample_tree(), ONE, write=1)
    check(answer.told(), "17 emerge: OutputFault\n")
    check((answer.history, answer.acknowledged), ("1", ""))


def last_line_fails():
    rows = (
        ("=c/p-1", {"write": 2}, "17 done 1 +c/p-1\n"),
        ("=c/p-2", {"write": 1}, "17 "),
        ("c", {"write": 1}, "17 "),
        ("=c/p-1", {"write": 1, "fail": 1}, "16 "),
    )
    came = told_each([case(word, sample_tree(), ONE, **faults) for word, faults, _ in rows])
    for (word, faults, wanted), it in zip(rows, came):
        check(it, wanted, f"{word} {faults}")


def builders_are_at_rest_behind_each_ending():
    words = ("=c/p-1", "=c/p-2", "c")
    ends = [(word, ONE, {"fail": call}) for word in words for call in range(1, 100)]
    ends += [("=c/p-1", ONE, it) for it in ({}, {"broken": True}, {"write": 1}, {"write": 2})]
    ends += [("=c/p-1", image_of(it), {}) for it in ("l usr/a", "- a\n- a/b", "- var/db/pkg/a")]
    came = answers([case(word, sample_tree(), image, **faults) for word, image, faults in ends])
    for (word, image, faults), answer in zip(ends, came):
        check(answer.resting, "1", f"{word} with {image} and {faults}")


def each_failing_call_is_told():
    calls = int(run("=c/p-1", sample_tree(), ONE).calls)
    check(calls > 5, True)
    cases = [case("=c/p-1", sample_tree(), ONE, fail=call) for call in range(1, calls + 1)]
    *others, last = told_each(cases)
    for call, it in enumerate(others, 1):
        check((it[:3], it.endswith("emerge: DeviceFault\n")), ("16 ", True), f"at call {call}")
    check(last, "16 done 1 +c/p-1\nemerge: DeviceFault\n")


TESTS = [
    one_file_into_an_empty_tree,
    words_that_are_no_command,
    words_and_what_they_come_to,
    a_plan_that_is_shown_changes_nothing,
    candidates_that_may_not_come,
    images_that_are_refused,
    unowned_file_in_the_way,
    a_package_of_files_of_each_kind,
    a_package_without_files,
    a_builder_that_fails,
    first_write_fails,
    last_line_fails,
    builders_are_at_rest_behind_each_ending,
    each_failing_call_is_told,
]
