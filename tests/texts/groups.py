"""What the grammars of dependencies and of REQUIRED_USE share: words, and their shapes."""
from lines import rows


def words_and_their_places():
    text = " || (\tc/p[f(+)]\r\n)"
    return rows("words", [(text, "1 || 4 ( 6 c/p[f(+)] 17 )"), ("", ""), (" ", "")])


def shapes_of_words():
    table = [
        ("(", "opens"),
        (")", "closes"),
        ("(c/p", "glued"),
        ("c/p)", "glued"),
        ("||(", "glued"),
        ("c/p[f(+)]", "item"),
        ("c/p[f(+)])", "glued"),
        ("||", "any of"),
        ("^^", "exactly one"),
        ("??", "at most one"),
        ("f?", "when on"),
        ("!f?", "when off"),
        ("!f", "item"),
    ]
    with_brackets = [("brackets", word, shape) for word, shape in table]
    return rows("shape", with_brackets + [("none", "f[(+)]", "glued")])


def cuts(text, places, item):
    """Each beginning of the text, and its answer.

    The places are, of each, that of the word that is no item, or behind a parenthesis that of the
    first group which is open, or a dot where the beginning is in form.
    """
    table = enumerate(places.split())
    return [(text[:end], answer(place, text[:end], item)) for end, place in table]


def answer(place, text, item):
    if place == ".":
        return " ".join(text.split())
    if place.startswith("("):
        return f"the group at {place[1:]} is not closed"
    return f"no {item} at {place}"


TESTS = [words_and_their_places, shapes_of_words]
