"""The lines that programs are asked by, and rows of a line and the answer that is wanted."""


def quoted(text):
    """A text or bytes on one line: `%`, and what isn't printable ASCII, as `%` and two digits."""
    data = text if isinstance(text, bytes) else text.encode()
    return "".join(chr(b) if 32 <= b < 127 and b != 37 else f"%{b:02X}" for b in data)


def line(query, *fields):
    return quoted(query + " ") + quoted(" | ").join(quoted(field) for field in fields)


def rows(query, table):
    """A row for each (field, answer) of the table, or (field, field, .., answer)."""
    return [(line(query, *fields), quoted(wanted)) for *fields, wanted in table]


def pairs(query, table, between, wanted):
    """A row with this answer for each word of the table, which is two fields around a mark."""
    return rows(query, [(*word.split(between), wanted) for word in table.split()])
