"""A second computation of what a tree offers, from what its files say, told by their parts.

`levels` are the folders of the profile from the lowest, each by the names of its files: those of
variables have pairs of a variable and its words, and the others pairs of an atom (None for all
packages) and its changes of flags. `user` has the same of the user's files. A package has its name,
the flags of IUSE with their signs, and the parts of REQUIRED_USE.
"""
import itertools

# the packages that an atom means, where it isn't a name
MEANT = {"=c/p-1": ["c/p-1"], ">=c/p-2": ["c/p-2"], "<c/p-2": ["c/p-1"]}


def is_meant(atom, name):
    return atom in (None, name.rsplit("-", 1)[0]) or name in MEANT.get(atom, [])


def counted(assigned):
    """The assignments that count: of each variable the last of the file, in the order of lines."""
    last = {key: at for at, (key, _) in enumerate(assigned)}
    return [it for at, it in enumerate(assigned) if last[it[0]] == at]


class Rules:
    """What the files say of flags."""

    def __init__(self, levels, user):
        self.profile = [counted(level["make.defaults"]) for level in levels]
        self.conf = [counted(user["make.conf"])]
        self.profile_uses = lines_of(levels, "package.use")
        self.uses = user["package.use"]
        self.forces = lines_of(levels, "use.force", "package.use.force")
        self.masks = lines_of(levels, "use.mask", "package.use.mask")
        self.expanded = self.standing("USE_EXPAND")
        self.implicit = {*self.words("ARCH")[-1], *self.implicit_of_variables()}

    def words(self, variable):
        """The words of a variable, file by file."""
        files = itertools.chain(*self.profile, *self.conf)
        return [words for key, words in files if key == variable]

    def standing(self, variable):
        """Those that stand once all files are read."""
        found = []
        for word in itertools.chain(*self.words(variable)):
            found = [it for it in found if word not in ("-*", f"-{it}")]
            found += [] if word.startswith("-") or word in found else [word]
        return found

    def implicit_of_variables(self):
        named = [it for it in self.standing("USE_EXPAND_IMPLICIT") if it in self.expanded]
        return [f"{it.lower()}_{word}" for it in named for word in self.standing(it)]

    def is_on(self, package, flag):
        """Whether a flag of IUSE is on, where it is neither forced nor masked."""
        on = package["iuse"][flag] == "+"
        on = self.behind_words(self.profile, flag, on)
        on = behind_lines(self.profile_uses, package, flag, on)
        on = self.behind_words(self.conf, flag, on)
        return behind_lines(self.uses, package, flag, on)

    def behind_words(self, files, flag, on):
        """Whether a flag is on behind the words of USE and of the variables that are expanded."""
        begins = {"USE": "", **{it: f"{it.lower()}_" for it in self.expanded}}
        for key, words in itertools.chain(*files):
            if key in begins and flag.startswith(begins[key]):
                on = behind_changes(words, flag[len(begins[key]) :], on)
        return on


def lines_of(levels, *names):
    return [line for level in levels for name in names for line in level[name]]


def behind_changes(changes, flag, on):
    for change in changes:
        on = change == flag or (on and change not in ("-*", f"-{flag}"))
    return on


def behind_lines(lines, package, flag, on):
    """Whether a flag is on behind the lines that are meant for the package."""
    for atom, changes in lines:
        if is_meant(atom, package["name"]):
            on = behind_changes(changes, flag, on)
    return on


def holds(part, on):
    """Whether a part of REQUIRED_USE holds where just these flags are on."""
    kind, *rest = part
    if kind == "flag":
        return (rest[0] in on) == rest[1]
    if kind == "if":
        return (rest[0] in on) != rest[1] or all(holds(it, on) for it in rest[2])
    true = [holds(it, on) for it in rest[0]].count(True)
    return {"||": true > 0, "^^": true == 1, "??": true < 2}[kind]


def variants(rules, package, flips):
    """The flags of each package that may come of this one, in the order in which they are told."""
    known = sorted(package["iuse"])
    forced = {it for it in known if behind_lines(rules.forces, package, it, False)}
    masked = {it for it in known if behind_lines(rules.masks, package, it, False)}
    base = {it for it in known if it in forced or rules.is_on(package, it)} - masked
    base |= rules.implicit
    free = [it for it in known if it not in forced | masked | rules.implicit]
    flipped = itertools.chain(*(itertools.combinations(free, n) for n in range(flips + 1)))
    chosen = [base.symmetric_difference(it) for it in flipped]
    return [on for on in chosen if all(holds(it, on) for it in package["required"])]


def text_of(word, flags):
    return " ".join([word, *sorted(flags)])


def fields(rules, packages, flips):
    """What is told of all packages."""
    found, refused = [text_of("implicit", rules.implicit)], []
    for package in packages:
        chosen = variants(rules, package, flips)
        if chosen:
            found.append(text_of(f"offer {package['name']}", rules.implicit))
            found += [text_of("variant", on) for on in chosen]
        else:
            refused.append(f"required_use {package['name']}")
    return found + refused
