"""Which candidates their keywords and the masks keep back (PMS 7.3.3, 5.2.4)."""
from repositories import TOP, package, packages, row
from trees import check, user

LINES = "package.accept_keywords"
STABLE, TESTING = "amd64", "~amd64"


def keyword_row(keywords, lines, is_visible, files=None):
    """A row of one package with these keywords, and lines of package.accept_keywords."""
    tree = {**package("c/p-1", KEYWORDS=keywords), **user({LINES: lines, **(files or {})})}
    return row(tree, f"{'visible' if is_visible else 'keyword'} c/p-1")


def keywords_of_the_profile():
    # Each keyword is a word of its own: not a part of another one, nor of another arch. A package
    # that works elsewhere only isn't accepted, and neither is one without keywords.
    table = [
        (STABLE, True),
        ("~x86 amd64 -arm", True),
        ("-* amd64", True),
        (TESTING, False),
        ("x86 ~arm", False),
        ("amd64-linux", False),
        ("md64 amd6", False),
        ("-amd64", False),
        ("-*", False),
        ("", False),
    ]
    absent = row(package("c/p-1", KEYWORDS=None), "keyword c/p-1")
    return check([keyword_row(keywords, "", seen) for keywords, seen in table] + [absent])


def keywords_of_the_user():
    # ACCEPT_KEYWORDS of make.conf counts in place of the profile's; the last one of it does.
    table = [
        (STABLE, "ACCEPT_KEYWORDS=~x86", False),
        ("x86", "ACCEPT_KEYWORDS=~x86", False),
        ("~x86", "ACCEPT_KEYWORDS=~x86", True),
        (STABLE, 'ACCEPT_KEYWORDS="$ACCEPT_KEYWORDS ~amd64"', True),
        (TESTING, 'ACCEPT_KEYWORDS="$ACCEPT_KEYWORDS  ~amd64"', True),
        (TESTING, "ACCEPT_KEYWORDS=~amd64\nACCEPT_KEYWORDS=amd64", False),
        (STABLE, "ACCEPT_KEYWORDS=", False),
        ("-*", "ACCEPT_KEYWORDS=**", True),
        ("", "ACCEPT_KEYWORDS='x **'", True),
    ]
    conf = [(keywords, {"make.conf": text}, seen) for keywords, text, seen in table]
    return check([keyword_row(keywords, "", seen, files) for keywords, files, seen in conf])


def a_line_for_a_package():
    # Only the packages that its atom matches; without words it has `~ARCH`.
    table = [
        (TESTING, "c/p ~amd64", True),
        (TESTING, "c/p", True),
        ("~x86", "c/p", False),
        (STABLE, "c/p", True),
        ("~x86", "c/p ~arm ~x86", True),
        ("x86", "c/p ~x86", False),
        (TESTING, "c/q ~amd64", False),
        (TESTING, "d/p ~amd64", False),
        (TESTING, "=c/p-1 ~amd64", True),
        (TESTING, ">c/p-1 ~amd64", False),
        (TESTING, "c/p:0", True),
        (TESTING, "c/p:1", False),
        (TESTING, "c/p ~amd64\n-c/p ~amd64", False),
        (TESTING, "c/p\n-c/p ~amd64", True),
    ]
    return check([keyword_row(*it) for it in table])


def words_that_accept_everything():
    # `**` accepts a package whatever its keywords are, and another word of asterisks doesn't.
    table = [
        ("", "c/p **", True),
        ("-*", "c/p **", True),
        ("~x86 -amd64", "c/p **", True),
        ("x86", "c/q **", False),
        ("x86", "c/p *", False),
        ("~x86", "c/p ~*", False),
        ("x86", "c/p ** -**", False),
        (STABLE, "c/p -**", True),
    ]
    return check([keyword_row(*it) for it in table])


def words_that_take_back():
    # `-x` takes back x, and `-*` each keyword; of all words that speak of a keyword the last
    # counts, in the order of the lines.
    table = [
        (STABLE, "c/p -amd64", False),
        (STABLE, "c/p -~amd64", True),
        ("amd64 x86", "c/p -x86", True),
        ("amd64 x86", "c/p x86 -amd64", True),
        (STABLE, "c/p -*", False),
        ("-*", "c/p -*", False),
        (STABLE, "c/p -* amd64", True),
        (STABLE, "c/p -* ~amd64", False),
        (TESTING, "c/p -* ~amd64", True),
        (TESTING, "c/p ~amd64 -*", False),
        ("x86", "c/p ** -*", False),
        ("x86", "c/p -* **", True),
        (TESTING, "c/p -~amd64 ~amd64", True),
        (TESTING, "c/p ~amd64\nc/p -~amd64", False),
        (TESTING, "c/p -~amd64\n=c/p-1 ~amd64", True),
        (TESTING, "c/p ~amd64\n=c/p-2 -~amd64", True),
        (TESTING, "c/p -*\nc/p", True),
        (STABLE, "c/p -*\nc/p", False),
    ]
    return check([keyword_row(*it) for it in table])


# Two packages of one name, and another of that name in another category.
THREE = {**package("c/p-2", SLOT="1"), **packages("c/p-1-r1", "d/p-1")}
NAMES = ["c/p-2", "c/p-1-r1", "d/p-1"]


def mask_row(masks, unmasks, masked, files=None):
    """A row of the three packages, of which those with these names are masked: by masks of the
    profile, unmasks of the user, and perhaps other files."""
    tree = {**THREE, "p/top/package.mask": masks, **user({"package.unmask": unmasks})}
    visible = [f"visible {name}" for name in NAMES if name not in masked.split()]
    hidden = [f"masked {name}" for name in NAMES if name in masked.split()]
    return row({**tree, **(files or {})}, *visible, *hidden)


def masks_and_unmasks():
    # An unmask counts whatever mask there is, and unmasks nothing but what its atom matches.
    table = [
        ("", "", ""),
        ("c/p", "", "c/p-2 c/p-1-r1"),
        ("c/q", "", ""),
        (">=c/p-2", "", "c/p-2"),
        ("<c/p-2", "", "c/p-1-r1"),
        ("=c/p-1", "", ""),
        ("~c/p-1", "", "c/p-1-r1"),
        ("=c/p-1*", "", "c/p-1-r1"),
        ("c/p:1", "", "c/p-2"),
        ("c/p:0\n=d/p-1", "", "c/p-1-r1 d/p-1"),
        ("c/p", "c/p", ""),
        ("c/p", "=c/p-2", "c/p-1-r1"),
        ("c/p", "c/p:0", "c/p-2"),
        ("c/p\nd/p", "d/p", "c/p-2 c/p-1-r1"),
        ("c/p\n=c/p-2\nc/p:1", "=c/p-2", "c/p-1-r1"),
        ("c/p", "c/p\n-c/p", "c/p-2 c/p-1-r1"),
        ("", "c/p", ""),
    ]
    return check([mask_row(*it) for it in table])


def masks_of_three_places():
    # The repository's, the profile's and the user's count alike. The user takes back an equal mask
    # of either, and a mask with another text stays.
    below = {f"{TOP}/profiles/package.mask": "d/p\n"}

    def by_user(masks):
        return {**below, **user({"package.mask": masks})}

    table = [
        ("=c/p-2", "", "c/p-2 d/p-1", below),
        ("=c/p-2", "", "c/p-2 c/p-1-r1 d/p-1", by_user("c/p:0\n")),
        ("=c/p-2", "", "c/p-2", by_user("-d/p\n")),
        ("c/p", "", "d/p-1", by_user("-c/p\n")),
        ("c/p", "", "c/p-2 c/p-1-r1 d/p-1", by_user("-=c/p-2\n")),
        ("c/p\n=c/p-2", "", "c/p-2 d/p-1", by_user("-c/p\n")),
        ("", "d/p", "c/p-1-r1", by_user("=c/p-1-r1\n")),
        ("", "=c/p-2", "", by_user("c/p:1\n-d/p\n")),
    ]
    return check([mask_row(*it) for it in table])


def keywords_before_masks():
    # A package without a keyword that is accepted isn't told as masked.
    tree = {**package("c/p-1", KEYWORDS=TESTING), **package("c/p-2"), "p/top/package.mask": "c/p"}
    unmasked = {**tree, **user({"package.unmask": "c/p"})}
    accepted = {**tree, **user({LINES: "c/p"})}
    return check(
        [
            row(tree, "masked c/p-2", "keyword c/p-1"),
            row(unmasked, "visible c/p-2", "keyword c/p-1"),
            row(accepted, "masked c/p-2", "masked c/p-1"),
        ]
    )


TESTS = [
    keywords_of_the_profile,
    keywords_of_the_user,
    a_line_for_a_package,
    words_that_accept_everything,
    words_that_take_back,
    masks_and_unmasks,
    masks_of_three_places,
    keywords_before_masks,
]
