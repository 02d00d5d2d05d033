"""A plain model of a zone's console: its output, of which the last bytes are kept, and the session that has it."""

MOST_OUTPUT = 4096


class Console:
    """The console of a zone: the output that nobody took yet, the session that has it, and that session's escape byte,
    or None."""

    def __init__(self):
        self.output, self.holder, self.escape = b"", None, None

    def write(self, line):
        """Writes a line. Of all output the last bytes are kept."""
        self.output = (self.output + line + b"\n")[-MOST_OUTPUT:]

    def take(self):
        """Takes the output, as lines. What follows the last newline is one, too, where it isn't empty."""
        lines = self.output.decode().split("\n")
        self.output = b""
        return lines if lines[-1] else lines[:-1]
