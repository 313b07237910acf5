"""The journal's records: their bytes, faults, names and digests."""
import hashlib
import os

import unproved
from asked import rows_at_once
from told import JOBS, hexed, line

# how long a placed file may be
LONGEST = unproved.LIMITS["MOST_FILE_BYTES"] if os.environ.get("UNPROVED") else 268_435_456
# Group 1, which removes `a` and places an empty plain file at `b`.
EXAMPLE = bytes.fromhex(
    "454d4a5201 00000001 00000001 0001 61 00000001 00"
    "0000000000000000 d41d8cd98f00b204e9800998ecf8427e 0001 62"
)
TOLD = "1\tremove a\tplace - 0 d41d8cd98f00b204e9800998ecf8427e b"

KINDS = ["-", "x", "l"]


def told(group, removals, placements):
    """A record as the program is told it; a placement is a kind, a length, a digest and a path."""
    gone = [f"remove {path}" for path in removals]
    come = [f"place {kind} {length} {md5} {path}" for kind, length, md5, path in placements]
    return line(group, *gone, *come)


def big(count, number):
    return number.to_bytes(count, "big")


def path_bytes(path):
    return big(2, len(path.encode())) + path.encode()


def placement_bytes(kind, length, md5, path):
    return bytes([KINDS.index(kind)]) + big(8, length) + bytes.fromhex(md5) + path_bytes(path)


def record_bytes(group, removals, placements):
    """A record's bytes, by docs/formats.md."""
    gone = b"".join(path_bytes(path) for path in removals)
    come = b"".join(placement_bytes(*it) for it in placements)
    lead = b"EMJR\x01" + big(4, group)
    return lead + big(4, len(removals)) + gone + big(4, len(placements)) + come


def records():
    """Records of some sizes, each as a group, its removals and its placements. The last one has more
    than 65,536 bytes."""
    digests = [hashlib.md5(text).hexdigest() for text in (b"", b"abc")]
    yield 0, [], []
    yield 4294967295, ["a" * 4095], []
    yield 26, ["a b", "\u00e4/->"], [("x", LONGEST, digests[1], "a" * 4095)]
    for count in (2, 300, 1_500):
        removals = [f"gone/{at}" for at in range(count)]
        placements = [(KINDS[at % 3], at, digests[at % 2], f"new/{at}") for at in range(count)]
        yield count, removals, placements


def the_example_both_ways():
    rows = [
        (line("encode", TOLD), EXAMPLE.hex()),
        (line("decode", EXAMPLE.hex()), TOLD),
        (line("recode", TOLD), TOLD),
    ]
    for record in records():
        rows.append((line("encode", told(*record)), record_bytes(*record).hex()))
        rows.append((line("decode", record_bytes(*record).hex()), told(*record)))
        rows.append((line("recode", told(*record)), told(*record)))
    return rows_at_once("ask_disk", rows)


def with_byte(at, byte):
    return EXAMPLE[:at] + bytes([byte]) + EXAMPLE[at + 1 :]


def the_first_fault():
    """A count or a length past its number is found before what would stand behind it."""
    table = [
        (0, 9, "tag 0"),
        (4, 9, "tag 4"),
        (20, 9, "tag 20"),
        (15, ord("/"), "path 15"),
        (47, ord("."), "path 47"),
        (15, 0xFF, "path 15"),
        (9, 1, "limit"),
        (16, 1, "limit"),
        (21, 1, "limit"),
    ]
    cases = [(with_byte(at, byte), want) for at, byte, want in table]
    cases += [(EXAMPLE[:size], "short") for size in range(len(EXAMPLE))]
    cases += [(EXAMPLE + bytes([byte]), "trailing") for byte in (0, 1, 255)]
    cases += [(with_byte(at, 0), f"tag {at}") for at in range(5)]
    return rows_at_once("ask_disk", [(line("decode", hexed(given)), want) for given, want in cases])


def the_names():
    table = [
        ("gate", 26, 0, f"{JOBS}/0000001a/gate"),
        ("record", 26, 0, f"{JOBS}/0000001a/record"),
        ("token", 26, 0, f"{JOBS}/0000001a/token"),
        ("stage", 0, 0xDEADBEEF, f"{JOBS}/00000000/stage/deadbeef"),
        ("folder", 0, 0, JOBS),
        ("gate", 0xFFFFFFFF, 0, f"{JOBS}/ffffffff/gate"),
    ]
    return rows_at_once("ask_disk", [(line("name", *given), want) for *given, want in table])


def the_digest():
    """The digests are RFC 1321's, and those of Python's library."""
    table = [
        (b"", "d41d8cd98f00b204e9800998ecf8427e"),
        (b"a", "0cc175b9c0f1b6a831c399e269772661"),
        (b"abc", "900150983cd24fb0d6963f7d28e17f72"),
        (b"message digest", "f96b697d7cb7938d525a2f31aaf161d0"),
    ]
    table += [(b"\x80" * size, hashlib.md5(b"\x80" * size).hexdigest()) for size in range(130)]
    return rows_at_once("ask_disk", [(line("digest", hexed(given)), want) for given, want in table])


TESTS = [the_example_both_ways, the_first_fault, the_names, the_digest]
