"""What ends a command: faults of a plan and refusals with status 1, and what leaves nothing to do with status 2."""


class Fault(Exception):
    """One fault in words, of the line that is being read."""


class Refused(Exception):
    """A command that is refused: one or more sentences."""

    def __init__(self, *sentences):
        super().__init__("\n".join(sentences))
        self.sentences = list(sentences)


class Unusable(Exception):
    """Wrong usage, or no program to do the work."""
