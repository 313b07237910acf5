"""What a tree offers: the flags of its candidates, and their variants (PMS 5.2, 5.3, 11.1)."""
from repositories import AMD64, package, packages
from trees import PROFILE, check, fields, link, user


def row(tree, *wanted, flips=0, call=0):
    """A tree with a profile on amd64, or one of its own, and the fields that are wanted."""
    return line({**AMD64, **tree}, flips, call), "\t".join(wanted)


def line(tree, flips=0, call=0):
    """The line that asks what the tree offers, of which this call fails, where so many flags may be
    flipped."""
    return f"offers\t{flips}\t{fields(tree, call)}"


def layers_of_flags():
    # IUSE, make.defaults, the profile's package.use, make.conf and the user's package.use, each of
    # which turns around what the one before it said; then forced and masked flags.
    iuse = "+a b +c d e f"
    base = {"p/top/make.defaults": "ARCH=amd64\nACCEPT_KEYWORDS=amd64\nUSE='-a b'\n"}
    uses = {**base, "p/top/package.use": "c/p a -b\n"}
    conf = {**uses, **user({"make.conf": "USE='-a b'"})}
    last = {**conf, **user({"package.use": "c/p a -b d\n"})}
    fixed = {**last, "p/top/use.force": "e f\n", "p/top/package.use.mask": "c/p f d\n"}
    table = [({}, "a c"), (base, "b c"), (uses, "a c"), (conf, "b c"), (last, "a c d"),
             (fixed, "a c e")]
    tree = package("c/p-1", IUSE=iuse)
    return check([
        row({**files, **tree}, "implicit amd64", "offer c/p-1 amd64", f"variant {in_order(on)}")
        for files, on in table
    ])


def items_with_and_without_atoms():
    """What is said of all packages and what is said of one are heard in the order of their lines."""
    head = {"p/top/make.defaults": "ARCH=amd64\nACCEPT_KEYWORDS=amd64\n", "p/top/parent": "../a\n"}
    table = [
        ({"p/a/package.use.force": "c/p a\n", "p/top/use.force": "-a b\n"}, "b"),
        ({"p/a/use.force": "a b\n", "p/a/package.use.force": "c/q -b\nc/p -a\n"}, "b"),
        (
            {
                "p/a/use.force": "a\n",
                "p/a/package.use.force": "c/p -a\n",
                "p/top/use.force": "a\n",
            },
            "a",
        ),
        (
            {
                "p/a/use.force": "a b c\n",
                "p/a/package.use.force": "c/p -a\nc/p -b\n",
                "p/top/use.force": "b -c\n",
                "p/top/package.use.force": "c/q a\nc/p c\n",
            },
            "b c",
        ),
    ]
    tree = package("c/p-1", IUSE="a b c")
    return check([
        row(
            {**head, "p/a/eapi": "", **files, **tree},
            "implicit amd64",
            "offer c/p-1 amd64",
            f"variant {in_order(on)}",
        )
        for files, on in table
    ])


def in_order(flags):
    return " ".join(sorted([*flags.split(), "amd64"]))


def words_that_clear():
    # `-*` of USE takes all away, also what IUSE and expanded variables turn on; that of an expanded
    # variable takes away just its own flags.
    head = "ARCH=amd64\nACCEPT_KEYWORDS=amd64\nUSE_EXPAND='VIDEO_CARDS CPU'\n"
    iuse = "+a b +video_cards_x video_cards_y cpu_x"
    table = [
        ("VIDEO_CARDS=y\nCPU=x\nUSE=b", "", "a b cpu_x video_cards_x video_cards_y"),
        ("VIDEO_CARDS=y\nCPU=x\nUSE='-* b'", "", "b"),
        ("USE='-* b'\nVIDEO_CARDS=y\nCPU=x", "", "b cpu_x video_cards_y"),
        ("VIDEO_CARDS='-* y'\nCPU=x", "", "a cpu_x video_cards_y"),
        ("VIDEO_CARDS=y\nCPU=x", "VIDEO_CARDS=-*", "a cpu_x"),
        ("VIDEO_CARDS=y\nCPU=x", "VIDEO_CARDS='-y'", "a cpu_x video_cards_x"),
        ("VIDEO_CARDS=y\nCPU=x", "USE='-*'", ""),
        ("VIDEO_CARDS=y\nVIDEO_CARDS=", "", "a video_cards_x"),
    ]
    tree = package("c/p-1", IUSE=iuse)
    return check([
        row({"p/top/make.defaults": f"{head}{text}\n", **user({"make.conf": conf}), **tree},
            "implicit amd64", "offer c/p-1 amd64", f"variant {in_order(on)}")
        for text, conf, on in table
    ])


def quotes_of_the_users_file():
    # Both kinds hold words over several lines; double ones alone take values and backslashes in.
    table = [
        ("USE='a\n-b'", "a"),
        ('USE="a\n-b"', "a"),
        ("MORE='c -b'\nUSE=\"a ${MORE}\"", "a c"),
        ('USE="a c\\\n2"', "a b c2"),
        ("USE='a '\"-b\"' c'", "a c"),
    ]
    tree = package("c/p-1", IUSE="a +b c c2")
    read = [
        row({**user({"make.conf": conf}), **tree}, "implicit amd64", "offer c/p-1 amd64",
            f"variant {in_order(on)}")
        for conf, on in table
    ]
    conf = user({"make.conf": "MORE=c\nUSE='a ${MORE}'"})
    return check([*read, row({**conf, **tree}, "text 2 etc/portage/make.conf")])


def implicit_flags():
    # Those of variables that both lists name, over three profiles and make.conf.
    expanded = "USE_EXPAND='KERNEL ELIBC'\nUSE_EXPAND_IMPLICIT=KERNEL\n"
    tree = {
        PROFILE: link("../../p/top"),
        "p/low/make.defaults": f"ARCH=x86\n{expanded}KERNEL=a\n",
        "p/mid/parent": "../low\n",
        "p/mid/make.defaults": "KERNEL='b c'\nELIBC=glibc\n",
        "p/top/parent": "../mid\n",
        "p/top/make.defaults": "ARCH=amd64\nACCEPT_KEYWORDS=amd64\nKERNEL=-a\n",
        **user({"make.conf": "USE_EXPAND_IMPLICIT=\"OTHER\"\nKERNEL='-b d'"}),
        **package("c/p-1", IUSE="elibc_glibc kernel_a kernel_c"),
    }
    implicit = "amd64 kernel_c kernel_d"
    variant = "variant amd64 elibc_glibc kernel_c kernel_d"
    return check([row(tree, f"implicit {implicit}", f"offer c/p-1 {implicit}", variant)])


def variants_of_candidates():
    tree = {
        **packages("c/q-1", "c/q-2"),
        **package("c/p-1", IUSE="+a b c", REQUIRED_USE="^^ ( a b )"),
        **package("c/r-1", IUSE="a", REQUIRED_USE="a !a"),
        **package("c/s-1", KEYWORDS="x86"),
        "p/top/use.force": "c\n",
    }
    plain = ["offer c/q-2 amd64", "variant amd64", "offer c/q-1 amd64", "variant amd64"]
    hidden = ["keyword c/s-1", "required_use c/r-1"]
    base = ["implicit amd64", "offer c/p-1 amd64", "variant a amd64 c"]
    none = [*base, *plain, *hidden]
    two = [*base, "variant amd64 b c", *plain, *hidden]
    return check([row(tree, *none), row(tree, *none, flips=1), row(tree, *two, flips=2)])


def groups_without_members_by_edition():
    # In REQUIRED_USE, by the EAPI of the candidate, whatever a file `eapi` of the profile says.
    rows = []
    for edition in "5678":
        for text in ("|| ( )", "^^ ( )", "^^ ( a? ( b ) )"):
            candidate = package("c/p-1", EAPI=edition, IUSE="a b", REQUIRED_USE=text)
            wanted = ["required_use c/p-1"]
            if edition in "56":
                wanted = ["offer c/p-1 amd64", "variant amd64"]
            for declared in ("5\n", "8\n", "x\n"):
                rows.append(row({"p/top/eapi": declared, **candidate}, "implicit amd64", *wanted))
    return check(rows)


def configurations_without_offers():
    conf = "etc/portage/make.conf"
    return check([
        row(user({"make.conf": "A=1\nUSE='a +b'"}), f"text 2 {conf}"),
        row(user({"make.conf": "A=x y"}), f"text 1 {conf}"),
        row(user({"make.conf": "USE='a +b'", "package.use": "\n!c/p a\n"}),
            "text 2 etc/portage/package.use"),
        row({PROFILE: link("../../p/none")}, "text 0 p/none"),
        row({}, "failed", call=1),
    ])


TESTS = [
    layers_of_flags,
    items_with_and_without_atoms,
    words_that_clear,
    quotes_of_the_users_file,
    implicit_flags,
    variants_of_candidates,
    groups_without_members_by_edition,
    configurations_without_offers,
]
