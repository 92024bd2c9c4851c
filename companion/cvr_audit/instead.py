"""What a file that is no report seems to be, by its first bytes (docs/FAULTS.md, What a file is
instead)."""
import json
import os
import re

from . import gather, gather_said, gather_source, program
from .fault_words import INSTEAD

HEAD = 4096         # bytes that are looked at
# How each kind begins: the first that fits is the one. The page for a browser has these, too
# (web/instead.js), so they are written as both languages read them.
BEGINNINGS = [
    ('document', r'PK\x03\x04[\s\S]*word/|\xd0\xcf\x11\xe0|\{\\rtf'),
    ('picture', r'\xff\xd8\xff|\x89PNG|GIF8|RIFF[\s\S]{4}WEBP|II\*\x00|MM\x00\*|'
                r'[\s\S]{4}ftyp(?:hei|mif)'),
    ('zip', r'PK\x03\x04'), ('gzip', r'\x1f\x8b'), ('pdf', r'%PDF'), ('mark', r'\xef\xbb\xbf'),
    ('utf-16', r'\xff\xfe|\xfe\xff|[{\[]\x00|\x00[{\[]'),
    ('nothing', r'[ \t\n\r\f\v]*$'), ('json', r'[ \t\n\r\f\v]*[{\[]'), ('xml', r'[ \t\n\r\f\v]*<'),
    ('table', r'[^\n\x00]*[,;\t]'),
]
FORMS = [(kind, re.compile(form.encode())) for kind, form in BEGINNINGS]

# blanks, or the beginning of a word or a number
CUT = re.compile(r'\s*(?:-|tr?u?|fa?l?s?|nu?l?)?')


def kind_of(data):
    """What a text of these bytes seems to be."""
    head = data[:HEAD] if data[:HEAD].strip() else data.lstrip()[:HEAD]
    kind = next((kind for kind, form in FORMS if form.match(head)), 'unknown')
    return kind_of_json(data) if kind == 'json' else kind


def kind_of_json(data):
    """Whether JSON is whole, ends too soon, or is damaged."""
    try:
        text = data.decode('utf-8')
        json.loads(text)
    except UnicodeDecodeError as fault:
        return 'cut' if fault.reason == 'unexpected end of data' else 'damaged'
    except RecursionError:
        return 'json'
    except json.JSONDecodeError as fault:
        is_open = fault.msg.startswith('Unterminated') or CUT.fullmatch(text, fault.pos)
        return 'cut' if is_open else 'damaged'
    except ValueError:      # a number of very many digits
        return 'json'
    return 'json'


def export_in(path):
    """The kind of the export that a file is, if `gather` recognises it. One of reports is no other
    kind."""
    try:
        kind = gather.recognised(gather_source.sources_in([path]), [path])
    except (program.Ended, OSError):
        return None
    return None if kind == 'cdf' else kind


def seems(path, is_json):
    """What a file seems to be and what to do, in words, and the kind of its export. Where `cvr` takes it for
    no JSON and Python does, it has something that not every reader takes."""
    with open(path, 'rb') as file:
        kind = kind_of(file.read())
    if kind == 'json':
        is_ballot = os.path.basename(path) == gather_said.REPORT
        kind = 'strange' if not is_json else 'ballot' if is_ballot else kind
    what, advice = INSTEAD[kind]
    export = export_in(path)
    return what, INSTEAD['gather'][0] if export else advice, export
