"""What the user's files say behind the profile."""
import asked
from trees import EMPTY, PROGRAM, REPOSITORY_MASKS, check, executable, line, link, row, under, user

# A profile of two levels, each with rules and masks.
PROFILE = {
    REPOSITORY_MASKS: "c/s\nc/t\n",
    "p/top/parent": "../base",
    "p/base/make.defaults": "P=1 R='r'\n",
    "p/base/package.use": "c/p x\nc/p y\n",
    "p/base/package.mask": "c/p\n",
    "p/top/make.defaults": "P=$P$R\n",
    "p/top/package.use": "c/q -x\nc/p x\n",
    "p/top/package.mask": "c/r\n",
    "p/top/use.force": "f\n",
    "p/top/package.use.mask": "c/p m\n",
}
DEFAULTS = ["default 1:P=1", "default 1:R=r", "default 1:P=1r"]
FLAGS = ["hide c/p m", "force f"]


def variables_of_the_user():
    # `$` in single quotes stands for itself; a value is that of the file's own earlier lines, else
    # of the profile, and isn't looked through again.
    conf = "A=\"$P\"\nP='2 $R' # two\nB=\"$P \\\"q\\\"\n\\\\$R\" C=$D\n"
    wanted = ["conf 1:A=1r", "conf 2:P=2 $R", 'conf 3:B=2 $R "q"\\n\\r', "conf 4:C="]
    rules = ["profile_use c/p x", "profile_use c/p y", "profile_use c/q -x", "profile_use c/p x"]
    masks = ["mask c/s", "mask c/t", "mask c/p", "mask c/r"]
    tree = {**PROFILE, **user({"make.conf": conf})}
    return check([row(tree, *DEFAULTS, *wanted, *rules, *masks, *FLAGS)])


def rules_and_masks_behind_the_profile():
    # A hyphen takes back every equal rule of the user and of the profile, and a mask of the profile
    # and of the repository. A rule with its changes in another order is another one.
    files = {
        "package.use": "c/q z\n-c/p x\n-c/q  z\nc/q z  -w\n-c/q -w z\nc/p x\n",
        "package.mask": "-c/p\nc/p:1\n-c/s\nc/r\nc/u\n-c/u\n",
    }
    wanted = ["profile_use c/p y", "profile_use c/q -x", "use c/q z -w", "use c/p x"]
    masks = ["mask c/t", "mask c/r", "mask c/p:1"]
    return check([row({**PROFILE, **user(files)}, *DEFAULTS, *wanted, *masks, *FLAGS)])


def unmasks_and_keywords():
    # Keywords are any words; a line goes where its words stand in the same order.
    files = {
        "package.unmask": "c/r\n=c/p-1*\nc/r\nc/x\n-c/x\n",
        "package.accept_keywords": "c/p ~amd64 **\nc/q\n-c/p ~amd64\t**\n-c/q ~x\n"
        "c/p ** ~amd64\nc/r -x * %! #\nc/q\n",
    }
    wanted = [
        "unmask c/r",
        "unmask =c/p-1*",
        "keywords c/q",
        "keywords c/p ** ~amd64",
        "keywords c/r -x * %! #",
        "keywords c/q",
    ]
    return check([row(user(files), *wanted)])


def rules_in_three_places():
    # The user's rules are in a folder, whose second file takes back a rule of the first one.
    folder = {"1": "c/p c\nc/p d", "2": "-c/p c\n-c/p a\n", ".3": "%"}
    tree = {
        "p/top/parent": "../base",
        "p/base/package.use": "c/p a\nc/q a\n",
        "p/top/package.use": "-c/q a\nc/p b\n",
        **under("etc/portage/package.use", folder),
    }
    return check([row(tree, "profile_use c/p b", "use c/p d")])


def files_that_are_missing():
    # A link counts as missing, and a folder for make.conf; an executable file is one.
    files = {
        "make.conf/x": "%",
        "package.use": link("x"),
        "package.mask": executable("c/p"),
        "package.unmask": link("package.mask"),
        "package.accept_keywords/c": link("b"),
        "package.accept_keywords/b": "c/p ~b",
    }
    return check([row(user(files), "mask c/p", "keywords c/p ~b")])


def each_call_that_fails():
    # Up to some call its failure is told; behind it none is made.
    files = {"make.conf": "A=1", "package.use/a": "c/p a", "package.mask": "c/p"}
    tree = {**EMPTY, **PROFILE, **user(files)}
    answers = yield PROGRAM, [line(tree, call) for call in range(81)]
    whole, *failing = answers
    told = failing.index(whole)
    wanted = ["failed"] * told + [whole] * (len(failing) - told)
    if told < 20 or failing != wanted:
        raise asked.Wrong(f"{told} calls fail, and then come {failing[told:]}")


TESTS = [
    variables_of_the_user,
    rules_and_masks_behind_the_profile,
    unmasks_and_keywords,
    rules_in_three_places,
    files_that_are_missing,
    each_call_that_fails,
]
