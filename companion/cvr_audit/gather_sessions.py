"""What stands beside the sessions in the files of Dominion's JSON: how many there are."""
from . import gather_said as said
from .gather_source import fault
from .reading import spelled

KNOWN = 'Version', 'ElectionId'


class Stated:
    """The numbers of sessions that files state, each with the source, how many came there, and the name
    of the member; and how many came in all."""

    def __init__(self):
        self.came, self.stated = 0, []

    def take(self, source, rest, came):
        """Notes a file: its members but for the sessions, and how many of these came."""
        self.came += came
        for name, value in rest.items():
            if type(value) is int and 'session' in name.lower():
                self.stated.append((source, came, name, value))
            elif name not in KNOWN:
                raise fault(source.name, said.UNKNOWN_BESIDE % spelled(name))

    def see(self, out):
        """Stops where a file states another number than it has. It may state that of all files."""
        for source, came, name, value in self.stated:
            if value not in (came, self.came):
                out.lack(source.name, said.OTHER_SESSIONS % (spelled(name), value, came))
