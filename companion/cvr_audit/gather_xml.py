"""XML of an export, without entities: these could blow a small file up, or read others."""
import re
import xml.etree.ElementTree as ElementTree
from xml.parsers import expat

from . import gather_said as said
from .gather_source import fault

UNSAFE = 'it has a document type, which may define entities; no export needs one'


class Unsafe(Exception):
    """A document type in the text."""


def stop(*_):
    raise Unsafe


def tree(source):
    """The root of a source, whose names have their namespaces in braces."""
    parser, builder = expat.ParserCreate(namespace_separator='}'), ElementTree.TreeBuilder()

    def full(name):
        return '{' + name if '}' in name else name

    def start(name, members):
        builder.start(full(name), {full(it): text for it, text in members.items()})

    parser.StartElementHandler = start
    parser.EndElementHandler = lambda name: builder.end(full(name))
    parser.CharacterDataHandler = builder.data
    parser.StartDoctypeDeclHandler = parser.EntityDeclHandler = stop
    try:
        parser.Parse(bytes(source.data(said.TREE)), True)
        return builder.close()
    except Unsafe:
        raise fault(source.name, UNSAFE) from None
    except (expat.ExpatError, ValueError, LookupError) as wrong:
        place = getattr(wrong, 'lineno', None)
        text = 'it is no XML, or cut off: %s' % re.sub(r': line .*', '', str(wrong))
        raise fault(source.name, text, place and 'line %d' % place) from None
