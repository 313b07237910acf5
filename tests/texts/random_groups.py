"""Groups that are drawn by chance, and their truth by a plain second computation (PMS 8.2)."""
import random

from lines import rows

SEED = 1
CASES = 300

# the groups of which not all members have to hold
OF_SOME = ("||", "^^", "??")
FLAGS = ("", "a", "b", "a b")


def drawn(chance, openers, leaves, depth=3):
    """A leaf, or an opener and its members."""
    if depth == 0 or chance.random() < 0.4:
        return chance.choice(leaves)
    members = [drawn(chance, openers, leaves, depth - 1) for _ in range(chance.randrange(4))]
    return chance.choice(openers), members


def text_of(it):
    if isinstance(it, str):
        return it
    opener, members = it
    return " ".join([*opener.split(), "(", *map(text_of, members), ")"])


def is_met(opener, flags):
    """Whether a group isn't a conditional one, or its condition is met."""
    if opener in ("", *OF_SOME):
        return True
    flag = opener.rstrip("?")
    return flag[1:] not in flags if flag.startswith("!") else flag in flags


def counts(it, flags):
    """Whether it is a member of the group around it."""
    return isinstance(it, str) or is_met(it[0], flags)


def truth(it, flags, holds, empty_holds):
    """Whether it is true, where a leaf is as `holds` says."""
    if isinstance(it, str):
        return holds(it)
    opener, members = it
    values = [truth(one, flags, holds, empty_holds) for one in members if counts(one, flags)]
    if opener not in OF_SOME:
        return all(values) or not is_met(opener, flags)
    if not values:
        return empty_holds or opener == "??"
    true = values.count(True)
    return {"||": true >= 1, "^^": true == 1, "??": true <= 1}[opener]


def dependency_trees():
    """Trees with c/d there and c/e not, by the flags of the package that asks."""
    chance = random.Random(SEED)
    asked = {False: [], True: []}
    for _ in range(CASES):
        items = [drawn(chance, ["", "||", "||", "a?", "!b?"], ["c/d", "c/e"]) for _ in range(2)]
        flags, text = chance.choice(FLAGS), " ".join(map(text_of, items))
        for empty_holds, table in asked.items():
            held = [truth(it, flags.split(), "c/d".__eq__, empty_holds) for it in items]
            table.append((flags, "d-1", text, "yes" if all(held) else "no"))
    return rows("truth", asked[False]) + rows("truth_if_empty_holds", asked[True])


def expressions_of_flags():
    """Expressions of REQUIRED_USE, and of those that are false the place of the first false one."""
    chance = random.Random(SEED)
    openers = ["", "||", "^^", "??", "a?", "!b?"]
    asked = {False: [], True: []}
    for _ in range(CASES):
        items = [drawn(chance, openers, ["a", "!a", "b", "!b"]) for _ in range(2)]
        flags, text = chance.choice(FLAGS), " ".join(map(text_of, items))
        on = flags.split()
        for empty_holds, table in asked.items():
            held = [truth(it, on, lambda leaf: is_met(f"{leaf}?", on), empty_holds) for it in items]
            table.append((flags, text, "yes" if all(held) else f"no {held.index(False)}"))
    return rows("broken", asked[False]) + rows("broken_if_empty_holds", asked[True])


def printed():
    """Each group is printed as it was written, whatever one without members comes to."""
    chance = random.Random(SEED)
    trees = [drawn(chance, ["", "||", "a?", "!b?"], ["c/d", ">=c/e-1:0="]) for _ in range(CASES)]
    flags = [drawn(chance, ["", *OF_SOME, "a?", "!b?"], ["a", "!b"]) for _ in range(CASES)]
    return rows("depend", [(text_of(it),) * 2 for it in trees]) + rows(
        "required", [(text_of(it),) * 2 for it in flags]
    )


TESTS = [dependency_trees, expressions_of_flags, printed]
