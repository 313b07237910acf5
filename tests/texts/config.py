"""The texts of configuration files: the lines that count, and assignments with their values."""
from lines import rows


def lines_that_count():
    # A line without a newline at the end, a comment, white space before a `#`, carriage returns, a
    # text of blank lines, and a form feed, which is no blank.
    table = [
        ("a\n\nb", "1:a|3:b|"),
        ("# x\n # x\na#\n", "2: # x|3:a#|"),
        ("\r\n=c/p-1 \r\n", "2:=c/p-1 \r|"),
        ("\t \r\n\n", ""),
        ("\t\f \r\n\n", "1:\t\f \r|"),
        ("", ""),
    ]
    return rows("lines", table)


def lines_that_are_not_utf8():
    # The line counts newlines before the first bad byte, also inside a sequence that is cut.
    table = [
        (b"\xff", "line 1 is not UTF-8"),
        (b"a\n#\xc3\nb", "line 2 is not UTF-8"),
        (b"\n\n\xe2\x82", "line 3 is not UTF-8"),
    ]
    return rows("lines", table)


def assignments_in_form():
    # Two on a line, `#` inside values, a value that builds on an earlier one, dollar signs that
    # begin no variable, quotes over lines with every escape, and a comment behind white space.
    table = [
        ("A=1 B=2", "1:A=1|1:B=2|"),
        ("A=x#y\nB=#y\nC='x'#y", "1:A=x#y|2:B=#y|3:C=x#y|"),
        ('USE="a"\nUSE="$USE b"\r\n', "1:USE=a|2:USE=a b|"),
        (
            "A=$ B=$1 C=$(x) D=${} E=${A F=${A-b}",
            "1:A=$|1:B=$1|1:C=$(x)|1:D=${}|1:E=${A|1:F=${A-b}|",
        ),
        (
            "A='a\nb$A'\"c\\\nd\\\"\\\\\\$\\x\"e\\f\nB=1",
            '1:A=a\nb$Acd"\\$\\xe\\f|4:B=1|',
        ),
        ("  # c\n\tA= \nB=-$P${A}x$B_ # why\n", "2:A=|3:B=-x|"),
    ]
    return rows("config", table)


def values_of_earlier_files():
    # An own value goes before that of an earlier file, also where the earlier one stands alone.
    return rows("config", [("P=1 Q=2 Q=$Q$P", "R=$P$Q Q=3 R=$R${Q}4", "1:R=121|1:Q=3|1:R=12134|")])


def assignments_out_of_form():
    table = [
        ('A="x', open_quote(1)),
        ("1=x", bad_key(1)),
        ("A=1\nA='b\nc'\"d\\\"\n", open_quote(3)),
        ("A='x\n\n", open_quote(1)),
        ("A=x y", bad_key(1)),
        ("export A=1", bad_key(1)),
        ("A =1", bad_key(1)),
        ("\n\nA+=1 B='", bad_key(3)),
        ('A="\\', open_quote(1)),
    ]
    return rows("config", table)


def texts_of_64_kib():
    value = "x" * 61
    told = "".join(f"{number}:A={value}|" for number in range(1, 1_025))
    text = f"A={value}\n" * 1_024
    return rows("lines", [(text, told)]) + rows("config", [(text, told)])


def open_quote(line):
    return f"line {line} opens a quote that is not closed"


def bad_key(line):
    return f"line {line} has no key with an equals sign"


TESTS = [
    lines_that_count,
    lines_that_are_not_utf8,
    assignments_in_form,
    values_of_earlier_files,
    assignments_out_of_form,
    texts_of_64_kib,
]
