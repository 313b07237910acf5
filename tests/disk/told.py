"""How the programs are told paths, bytes and objects, and how they tell them: see `ask_lines`."""
from asked import Wrong

THEN = " -> "
JOBS = "var/lib/portage/jobs"


def hexed(text):
    """A text or bytes as the hex that a program is told."""
    return (text.encode() if isinstance(text, str) else bytes(text)).hex()


def held(path, content, kind="-"):
    """An object that stands at a path."""
    return f"{kind} {hexed(content)} {path}"


def line(*fields):
    return "\t".join(str(field) for field in fields)


def objects_in(text):
    """The objects of a field: by each path its kind and its bytes."""
    found = {}
    for part in text.split(THEN) if text else []:
        kind, content, path = part.split(" ", 2)
        found[path] = (kind, bytes.fromhex(content))
    return found


def same(what, wanted, came):
    if came != wanted:
        raise Wrong(f"{what}: wanted {wanted}, came {came}")
