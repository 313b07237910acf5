"""Trees for ask_offers, and rows of one and the candidates that are wanted of it."""
from repository import CACHE, TOP, ebuild_path, entry, entry_path, package, packages
from trees import PROFILE, fields, link

# On amd64, whose stable packages alone are accepted.
AMD64 = {
    PROFILE: link("../../p/top"),
    "p/top/make.defaults": "ARCH=amd64\nACCEPT_KEYWORDS=amd64\n",
}


def line(tree, call=0):
    """The line that asks for the candidates of the tree, of which this call fails."""
    return f"candidates\t{fields(tree, call)}"


def row(tree, *wanted):
    """A tree with the profile above, or one of its own, and the fields that are wanted."""
    return line({**AMD64, **tree}), "\t".join(wanted)
