"""Categories, names of packages, slots and flags, values of SLOT, and sets of flags."""
from lines import rows


def names_that_gentoo_uses():
    categories = "dev-libs virtual x11-libs sys-kernel"
    packages = "icu gtk+ libstdc++ font-100dpi a2ps foo-1bar X"
    slots = "0 3.12 1.1_rc sub-slot"
    flags = "doc python_targets_python3_12 cpu_flags_x86_3dnow l10n_de-1901"
    kinds = [("category", categories), ("package", packages), ("slot_name", slots), ("flag", flags)]
    read = [rows(query, [(name, name) for name in names.split()]) for query, names in kinds]
    return sum(read, rows("version_text", [("1.2_p3-r4", "yes")]))


def first_faults():
    start = "a name begins with a byte that it may not begin with"
    version = "a package name ends in a hyphen and a version"
    flags = [("-x", start), ("!a", start), ("a.b", bad_byte(1)), ("", "an empty name")]
    packages = [("a-1", version), ("a-1-r2", version), ("a.b", bad_byte(1))]
    others = rows("slot_name", [("+0", start)]) + rows("category", [("!a", bad_byte(0))])
    return rows("flag", flags) + rows("package", packages) + others


def bad_byte(at):
    return f"a name has a byte at {at} that it may not have"


def names_of_the_greatest_length():
    table = [("a" * 255, "a" * 255), ("a" * 256, "a name of more than 255 bytes")]
    kinds = ["category", "package", "slot_name", "flag"]
    return [row for kind in kinds for row in rows(kind, table)]


def flags_are_a_set():
    # A plus for each word that changed the set, a dot for each other one, and the flags then.
    return rows("set", [("b a c a", "+++. a b c"), ("b a c a -b -b", "+++.+. a c"), ("", "")])


def values_of_slot():
    good = [("0", "0"), ("5.4", "5.4"), ("0/2", "0/2"), ("0/0", "0"), ("1_a/2.3+", "1_a/2.3+")]
    bad = ["", "/", "0/", "/0", "0/1/2", "-x", "0/.1"]
    return rows("slot", good + [(text, "none") for text in bad])


TESTS = [
    names_that_gentoo_uses,
    first_faults,
    names_of_the_greatest_length,
    flags_are_a_set,
    values_of_slot,
]
