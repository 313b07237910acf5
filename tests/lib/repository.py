"""The files of a repository's packages, by their paths in a tree."""
import hashlib

TOP = "var/db/repos/gentoo"
CACHE = f"{TOP}/metadata/md5-cache"


def entry_path(package):
    return f"{CACHE}/{package}"


def ebuild_path(package):
    """The path of the ebuild of a package such as `c/p-1-r2`."""
    category, rest = package.split("/")
    parts = rest.split("-")
    behind = 2 if parts[-1][0] == "r" and parts[-1][1:].isdigit() and len(parts) > 2 else 1
    return f"{TOP}/{category}/{'-'.join(parts[:-behind])}/{rest}.ebuild"


def entry(ebuild, **values):
    """The text of an entry for this ebuild; a key that is None is left out."""
    digest = hashlib.md5(ebuild.encode()).hexdigest()
    pairs = {"EAPI": "8", "KEYWORDS": "amd64", "SLOT": "0", "_md5_": digest, **values}
    return "".join(f"{key}={value}\n" for key, value in pairs.items() if value is not None)


def package(name, **values):
    """The entry and the ebuild of a package."""
    ebuild = f"# {name}\n"
    return {entry_path(name): entry(ebuild, **values), ebuild_path(name): ebuild}


def packages(*names):
    """Packages that are alike, by their paths."""
    return {path: held for name in names for path, held in package(name).items()}
