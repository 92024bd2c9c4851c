"""Texts as a terminal may get them: no sign of them moves its cursor, ends a line, or turns what stands beside it
around."""
import json


def escaped(sign):
    """A sign that isn't printable, as an escape of JSON; a byte of a path that is no text stays."""
    return sign if sign.isprintable() or '\udc80' <= sign <= '\udcff' else json.dumps(sign)[1:-1]


def in_a_line(text):
    """A text in one line."""
    return text if text.isprintable() else ''.join(map(escaped, text))


def in_lines(text):
    """Lines, each of them so."""
    return '\n'.join(map(in_a_line, text.split('\n')))
