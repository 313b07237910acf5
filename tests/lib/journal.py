"""The files of the merge journal, as docs/formats.md has them."""
import hashlib
import struct

JOBS = "var/lib/portage/jobs"
OPEN = b"\x01"


def journal_path(group, name):
    """The path of a file of the journal of a group."""
    return f"{JOBS}/{group:08x}/{name}"


def stage_path(group, index):
    return journal_path(group, f"stage/{index:08x}")


def sized(form, data):
    return struct.pack(form, len(data)) + data


def record(group, removals, placements):
    """The record of a group: the paths that it removes, and of each object that it places the
    number of its kind, its path and its bytes."""
    text = b"EMJR\x01" + struct.pack(">II", group, len(removals))
    text += b"".join(sized(">H", path.encode()) for path in removals)
    text += struct.pack(">I", len(placements))
    for kind, path, data in placements:
        text += struct.pack(">BQ", kind, len(data)) + hashlib.md5(data).digest()
        text += sized(">H", path.encode())
    return text
