"""The words of the command line: commands, and why other words are none."""
from lines import rows


def commands():
    # The count of atoms, whether @world, --update and --repair stand there, and both limits.
    table = [
        ("c/p", "merge 1 false false false 10000 0"),
        ("=c/p-1 c/q:0 c/r[x]", "merge 3 false false false 10000 0"),
        ("@world", "merge 0 true false false 10000 0"),
        ("--update @world c/p", "merge 1 true true false 10000 0"),
        ("--repair", "merge 0 false false true 10000 0"),
        ("--repair c/p", "merge 1 false false true 10000 0"),
        ("--backtrack 20000 c/p", "merge 1 false false false 20000 0"),
        ("c/p --flag-changes=2", "merge 1 false false false 10000 2"),
        ("--plan /p/q", "plan p/q"),
        ("--plan=p", "plan p"),
        ("--unmerge c/p c/q", "unmerge 2"),
        ("--load 4000", "load 4000"),
        ("--load 0000000001", "load 1"),
        ("-- c/p", "merge 1 false false false 10000 0"),
    ]
    return rows("command", table)


def how_a_command_runs():
    # Whether it only shows the plan, its jobs, and whether it goes on after a group that fails.
    table = [
        ("c/p", "false 1 false"),
        ("--pretend c/p", "true 1 false"),
        ("--jobs 16 c/p", "false 16 false"),
        ("--keep-going c/p", "false 1 true"),
        ("--plan p --pretend --jobs 2 --keep-going", "true 2 true"),
        ("--unmerge c/p --pretend", "true 1 false"),
        ("--load 5", "false 4 false"),
    ]
    return rows("run", table)


def words_for_the_host():
    table = [
        ("c/p", "/ /var/cache/portage/images nothing"),
        ("--tree t --images i --build-with b c/p", "t i b"),
        ("--load 5 --tree t", "t /var/cache/portage/images nothing"),
        ("--plan p --images i", "/ i nothing"),
        ("--unmerge c/p --build-with b", "/ /var/cache/portage/images b"),
    ]
    return rows("host", table)


def words_that_are_no_command():
    table = [("", "usage"), ("--jobs 17 c/p", "bad number 17"), ("!c/p", "bad atom !c/p")]
    return rows("command", table)


def flags_and_options_that_there_are_not():
    texts = [
        "--pre c/p",
        "-p c/p",
        "--pretend=true c/p",
        "--pretend --pretend c/p",
        "--jobs 1 --jobs 1 c/p",
        "c/p --jobs",
        "--jobs --pretend c/p",
        "--help",
        "--version",
        "-h",
        "-V",
    ]
    return no_commands(texts)


def no_commands(texts):
    return rows("command", [(text, "usage") for text in texts])


def words_that_do_not_go_together():
    texts = [
        "--update",
        "--plan p c/p",
        "--plan p --update",
        "--plan p --repair",
        "--plan p --backtrack 1",
        "--plan p --load 1",
        "--plan ../p",
        "--plan //p",
        "--unmerge",
        "--unmerge --repair c/p",
        "--unmerge --update c/p",
        "--unmerge --flag-changes 1 c/p",
        "--unmerge --plan p",
    ]
    return no_commands(texts)


def words_that_do_not_go_with_a_load():
    others = [
        "c/p",
        "--repair",
        "--repair c/p",
        "--pretend",
        "--jobs 2",
        "--keep-going",
        "--update",
        "--backtrack 5",
        "--unmerge",
    ]
    return no_commands([f"--load 5 {words}" for words in others])


def texts_that_are_no_number():
    table = [
        ("--jobs 0 c/p", "0"),
        ("--jobs= c/p", ""),
        ("--jobs +1 c/p", "+1"),
        ("--jobs 1x c/p", "1x"),
        ("--jobs 00000000001 c/p", "00000000001"),
        ("--jobs 4294967297 c/p", "4294967297"),
        ("--backtrack 0 c/p", "0"),
        ("--backtrack 20001 c/p", "20001"),
        ("--flag-changes 3 c/p", "3"),
        ("--load 0", "0"),
        ("--load 4001", "4001"),
        ("--backtrack b --jobs j !c/p", "j"),
    ]
    return rows("command", [(text, f"bad number {word}") for text, word in table])


def words_that_are_no_atom():
    table = [
        ("c/p-1", "c/p-1"),
        ("c/p !!c/q c", "!!c/q"),
        ("@world @worlds c", "@worlds"),
        ("--unmerge @world", "@world"),
        ("--unmerge c/p c", "c"),
        ("c/p -- --pretend", "--pretend"),
    ]
    return rows("command", [(text, f"bad atom {word}") for text, word in table])


TESTS = [
    commands,
    how_a_command_runs,
    words_for_the_host,
    words_that_are_no_command,
    flags_and_options_that_there_are_not,
    words_that_do_not_go_together,
    words_that_do_not_go_with_a_load,
    texts_that_are_no_number,
    words_that_are_no_atom,
]
