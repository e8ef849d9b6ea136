"""Star runs, for both comparisons with git."""
import re


def one_star(text):
    """The text, each run of three stars or more made one; an escaped star is none of a run."""
    return re.sub(rb"(\\.)|\*{3,}", lambda found: found[1] or b"*", text, flags=re.S)
