"""The installed packages of a tree, read from its database, and the first fault of one."""
from cases import case, check

# objects of a tree, each on a line: `path=text` is a plain file, `path@target` a link; `~` stands
# for a newline in a text
BASE = "c/p-1/CONTENTS=\nc/p-1/EAPI=8\nc/p-1/SLOT=0"

PACKAGES = [
    ("", ""),
    (BASE, "c/p-1:0|"),
    ("-c/p-1/x\n.c/p-1/x\nc/-MERGING-p-1/x\nc/.p-1/x\n.lock\nx\nc/x\nc/.lock", ""),
    (
        "c/p-1/CONTENTS=dir /a\nc/p-1/EAPI= 8 \nc/p-1/SLOT=1/2\nc/p-1/x/y=?\nc/p-1/USE@u",
        "c/p-1:1|",
    ),
    ("c/p-1/CONTENTS=sym /a -> b 0\nc/p-1/EAPI=8\nc/p-1/SLOT=0", "c/p-1:0 a|"),
    ("c/p-1/CONTENTS=sym /var/db/pkg/c/p-1/x -> b 0\nc/p-1/EAPI=8\nc/p-1/SLOT=0", "c/p-1:0|"),
]

# the files are listed in another order: a hyphen comes before a slash
ORDERED = [
    (["c/p-1-r1", "c/p-1"], "c/p-1:0|c/p-1-r1:0|"),
    (["a/x-1", "a-b/x-1"], "a-b/x-1:0|a/x-1:0|"),
]

NO_PACKAGES = [
    ("c/p/x", "name var/db/pkg/c/p"),
    ("+c/p-1/x", "name var/db/pkg/+c/p-1"),
    ("c/p-1/x/y", "missing var/db/pkg/c/p-1/CONTENTS"),
    ("c/p-1/CONTENTS=?", "missing var/db/pkg/c/p-1/EAPI"),
    ("c/p-1/CONTENTS=?\nc/p-1/EAPI=9", "missing var/db/pkg/c/p-1/SLOT"),
    ("c/p-1/CONTENTS=?\nc/p-1/EAPI@8\nc/p-1/SLOT=?", "missing var/db/pkg/c/p-1/EAPI"),
    ("c/p-1/CONTENTS=?\nc/p-1/EAPI=9\nc/p-1/SLOT=0", "eapi var/db/pkg/c/p-1/EAPI"),
    ("c/p-1/CONTENTS=?\nc/p-1/EAPI=8\nc/p-1/SLOT=0", "text var/db/pkg/c/p-1/CONTENTS 1"),
    (
        "c/p-1/CONTENTS=?\nc/p-1/EAPI=8\nc/p-1/SLOT=0\nc/p-1/BDEPEND= (",
        "dep var/db/pkg/c/p-1/BDEPEND 0",
    ),
    ("c/p-1/CONTENTS=\nc/p-1/EAPI=8\nc/p-1/SLOT=0/", "text var/db/pkg/c/p-1/SLOT 1"),
    ("c/p-1-r1/x\nc/p-1/x", "missing var/db/pkg/c/p-1/CONTENTS"),
    ("c/p/x\nc/o-1/x", "missing var/db/pkg/c/o-1/CONTENTS"),
]

# one more file of a package, and its first fault
FAULTS = [
    ("USE=a +b", "text var/db/pkg/c/p-1/USE 1"),
    ("USE=a~b~-c d~+", "text var/db/pkg/c/p-1/USE 3"),
    ("IUSE=+a -b~~c ++d", "text var/db/pkg/c/p-1/IUSE 3"),
    ("DEPEND=c/x ( c/y", "dep var/db/pkg/c/p-1/DEPEND 4"),
    ("IDEPEND= ~ c/x )", "dep var/db/pkg/c/p-1/IDEPEND 4"),
    ("PDEPEND=|| ( c/x !c/y )", "dep var/db/pkg/c/p-1/PDEPEND 9"),
    ("RDEPEND=c/x~ c/y[", "dep var/db/pkg/c/p-1/RDEPEND 5"),
    ("BDEPEND=(c/x )", "dep var/db/pkg/c/p-1/BDEPEND 0"),
    ("REQUIRED_USE=a %", "dep var/db/pkg/c/p-1/REQUIRED_USE 2"),
]

# an edition, a file of what the package needs, and the first fault: of a class that the edition lacks
# nothing is read
EDITIONS = [
    ("5", "BDEPEND=(", "c/p-1:0|"),
    ("6", "BDEPEND=(", "c/p-1:0|"),
    ("6", "IDEPEND=(", "c/p-1:0|"),
    ("7", "IDEPEND=(", "c/p-1:0|"),
    ("7", "BDEPEND=(", "dep var/db/pkg/c/p-1/BDEPEND 0"),
    ("8", "IDEPEND=(", "dep var/db/pkg/c/p-1/IDEPEND 0"),
    ("5", "DEPEND=(", "dep var/db/pkg/c/p-1/DEPEND 0"),
]

# links that packages own, one each, and the answer
OWNED = [
    (["a", "a-b", "ab"], "c/p-0:0 a|c/p-1:0 a-b|c/p-2:0 ab|"),
    (["b", "a", "a", "b"], "twice a"),
    (["a", "a/b", "z", "z"], "twice z"),
    (["a/c", "a-b/x", "a-b", "a", "a/b"], "nested a a/b"),
]

# an equals operator that binds no subslot is dropped, and so are the marks of defaults
WHOLE = """c/p-1/CONTENTS=
c/p-1/EAPI=8~
c/p-1/SLOT=0~
c/p-1/RDEPEND= c/x:= c/y:0/2=~~ u? ( c/z )
c/p-1/BDEPEND=|| ( c/x:0= c/y )
c/p-1/REQUIRED_USE=u? ( !v )~
c/p-1/IUSE=v +u -w
c/p-1/USE=u t
c/p-1/other=?"""
WHOLE_TOLD = "c/x c/y:0/2= u? ( c/z )||| ( c/x:0 c/y )|u? ( !v )|u v w |t u "


def objects(text):
    """These objects as the parts of a case."""
    return "\t".join(line.replace("~", "\\n") for line in text.splitlines())


def reads(rows):
    return [(case("read", objects(text)), told) for text, told in rows]


def of_folder(folder, contents=""):
    return f"{folder}/CONTENTS={contents}\n{folder}/EAPI=8\n{folder}/SLOT=0"


def records_of_each_edition():
    """A file of a class that the edition lacks says nothing, whatever it holds."""
    table = {"BDEPEND": "78", "IDEPEND": "8", "RDEPEND": "5678"}
    rows = []
    for it in "5678":
        record = f"c/p-1/CONTENTS=\nc/p-1/EAPI={it}\nc/p-1/SLOT=0"
        rows.append((record, "c/p-1:0|"))
        for name, editions in table.items():
            told = f"dep var/db/pkg/c/p-1/{name} 0" if it in editions else "c/p-1:0|"
            rows.append((f"{record}\nc/p-1/{name}=(", told))
    return check(reads(rows))


def texts_of_no_edition():
    rows = []
    for text in ("", "~", "4", "9", "08", "8 8", "8~7", "eight", "EAPI=8"):
        record = f"c/p-1/CONTENTS=\nc/p-1/EAPI={text}\nc/p-1/SLOT=0"
        rows.append((record, "eapi var/db/pkg/c/p-1/EAPI"))
    return check(reads(rows))


def packages_of_all_editions_side_by_side():
    lines = [of_folder(f"c/p{it}-1").replace("EAPI=8", f"EAPI={it}") for it in "8675"]
    return check(reads([("\n".join(lines), "c/p5-1:0|c/p6-1:0|c/p7-1:0|c/p8-1:0|")]))


def packages_and_what_is_passed_over():
    return check(reads(PACKAGES))


def packages_in_byte_order_of_their_folders():
    rows = [("\n".join(map(of_folder, names)), told) for names, told in ORDERED]
    return check(reads(rows))


def folders_that_are_no_packages():
    return check(reads(NO_PACKAGES))


def the_first_fault_of_each_file():
    return check(reads([(f"{BASE}\nc/p-1/{file}", told) for file, told in FAULTS]))


def what_an_edition_lacks_is_ignored():
    base = "c/p-1/CONTENTS=\nc/p-1/SLOT=0"
    rows = [(f"{base}\nc/p-1/EAPI={eapi}\nc/p-1/{file}", told) for eapi, file, told in EDITIONS]
    return check(reads(rows))


def owning(links):
    folders = [of_folder(f"c/p-{at}", f"sym /{link} -> x 0") for at, link in enumerate(links)]
    return "\n".join(folders)


def paths_in_the_way_of_each_other():
    return check(reads([(owning(links), told) for links, told in OWNED]))


def a_call_of_the_device_that_fails_is_told():
    """One call lists the folders, and eleven read the files of the package."""
    rows = [(case("failing", str(call), objects(BASE)), "failed") for call in range(1, 13)]
    return check([*rows, (case("failing", "13", objects(BASE)), "c/p-1:0|")])


def a_whole_record():
    return check([(case("record", objects(WHOLE)), WHOLE_TOLD)])


TESTS = [
    packages_and_what_is_passed_over,
    records_of_each_edition,
    texts_of_no_edition,
    packages_of_all_editions_side_by_side,
    packages_in_byte_order_of_their_folders,
    folders_that_are_no_packages,
    the_first_fault_of_each_file,
    what_an_edition_lacks_is_ignored,
    paths_in_the_way_of_each_other,
    a_call_of_the_device_that_fails_is_told,
    a_whole_record,
]
