"""What a person did wrong, or what failed outside, told in one line and never as a traceback."""


class Fault(Exception):
    """A line for people: which file, place or word, and what is wrong with it. The command ends with status 2."""
