"""How a command ends: 0 done, 1 a difference or a failure was found, 2 wrong words, 3 a bad file or run, 4 a tool is missing."""
DONE, FOUND, USAGE, BAD_INPUT, MISSING = 0, 1, 2, 3, 4


class Trouble(Exception):
    """Why a command cannot go on, in a line for its user."""

    def __init__(self, cause, code=BAD_INPUT):
        super().__init__(cause)
        self.code = code
