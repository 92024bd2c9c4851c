"""What a terminal shows during a run over many files."""


class Progress:
    """A line on a terminal that says what goes on, and is gone at the end. Elsewhere, and for one
    file, nothing is written."""

    def __init__(self, log, count):
        self.log, self.width = log, 0
        self.is_shown = count > 1 and log is not None and log.isatty()

    def show(self, text):
        if self.is_shown:
            self.write('\r%s' % text.ljust(self.width))
            self.width = len(text)

    def end(self):
        if self.width:
            self.write('\r%s\r' % (' ' * self.width))
            self.width = 0

    def write(self, text):
        try:
            self.log.write(text)
            self.log.flush()
        except OSError:         # a terminal that is gone ends no run
            self.is_shown = False
