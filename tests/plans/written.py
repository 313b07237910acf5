"""The files that are written of an installed package."""
from cases import case, check
from databases import objects

# what is said of packages in odd ways, and the files that are written of each
PACKAGES = [
    (
        """c/p-1/CONTENTS=dir /u
c/p-1/EAPI= 8
c/p-1/SLOT=0/0
c/p-1/USE=~
c/p-1/other=?""",
        """c/p-1/CONTENTS=
c/p-1/EAPI=8~
c/p-1/SLOT=0~""",
    ),
    (
        """c/q-1.2-r3/CONTENTS=sym /u/b -> a 17~dir /u~obj /u/a 0cc175b9c0f1b6a831c399e269772661 5
c/q-1.2-r3/EAPI=8~
c/q-1.2-r3/SLOT=2/3
c/q-1.2-r3/RDEPEND= c/x:= c/y:0/2=~~ u? ( c/z )
c/q-1.2-r3/PDEPEND=c/s
c/q-1.2-r3/DEPEND=>=c/t-1 !!c/u[v]
c/q-1.2-r3/BDEPEND=|| ( c/x:0= c/y )
c/q-1.2-r3/IDEPEND= ~
c/q-1.2-r3/REQUIRED_USE=u? ( !v )~
c/q-1.2-r3/IUSE=v +u -w
c/q-1.2-r3/USE=u t""",
        """c/q-1.2-r3/BDEPEND=|| ( c/x:0 c/y )~
c/q-1.2-r3/CONTENTS=obj /u/a 0cc175b9c0f1b6a831c399e269772661 0~sym /u/b -> a 0~
c/q-1.2-r3/DEPEND=>=c/t-1 !!c/u[v]~
c/q-1.2-r3/EAPI=8~
c/q-1.2-r3/IUSE=u v w~
c/q-1.2-r3/PDEPEND=c/s~
c/q-1.2-r3/RDEPEND=c/x c/y:0/2= u? ( c/z )~
c/q-1.2-r3/REQUIRED_USE=u? ( !v )~
c/q-1.2-r3/SLOT=2/3~
c/q-1.2-r3/USE=t u~""",
    ),
    (
        """c/r-1/CONTENTS=
c/r-1/EAPI= 6
c/r-1/SLOT=0
c/r-1/BDEPEND=c/x (
c/r-1/RDEPEND=|| ( )""",
        """c/r-1/CONTENTS=
c/r-1/EAPI=6~
c/r-1/RDEPEND=|| ( )~
c/r-1/SLOT=0~""",
    ),
]


def writes(rows):
    return [(case("written", objects(said)), objects(files)) for said, files in rows]


def the_files_of_packages():
    return check(writes(PACKAGES))


def what_is_written_is_written_alike_again():
    return check(writes([(files, files) for _, files in PACKAGES]))


def what_each_edition_has():
    """The files of a package with something to say in each class; those of a class that its edition
    lacks aren't written."""
    classes = {"BDEPEND": "78", "DEPEND": "5678", "IDEPEND": "8"}
    rows = []
    for it in "5678":
        others = [f"c/p-1/EAPI={it}~", "c/p-1/RDEPEND=|| ( )~", "c/p-1/SLOT=0~"]
        needs = [f"c/p-1/{name}=c/x~" for name in classes]
        kept = [f"c/p-1/{name}=c/x~" for name, editions in classes.items() if it in editions]
        said, written = (sorted([*some, *others, "c/p-1/CONTENTS="]) for some in (needs, kept))
        rows.append(("\n".join(said), "\n".join(written)))
    return check(writes(rows))


def flags_of_its_own_alone():
    """The flag `t` is enabled, but none of the package's own."""
    lines = "c/p-1/CONTENTS=\nc/p-1/EAPI=8\nc/p-1/SLOT=0\nc/p-1/IUSE=v +u w\nc/p-1/USE=w u t"
    return check([(case("flags", objects(lines)), "u w ")])


TESTS = [
    the_files_of_packages,
    what_is_written_is_written_alike_again,
    what_each_edition_has,
    flags_of_its_own_alone,
]
