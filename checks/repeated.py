"""Parts of a table that stand for a text many times: <N*T> is T, N times, where a # in T counts from 0; in <A..B*T> it counts
from A to B."""
import re

TIMES = re.compile(r"<(?:(\d+)\.\.)?(\d+)\*([^>]*)>")


def counted(found):
    """A part that is counted: its piece so many times, with the number of each in the place of its #."""
    first, last, piece = found.groups()
    numbers = range(int(first), int(last) + 1) if first else range(int(last))
    return "".join(piece.replace("#", str(number)) for number in numbers) if "#" in piece else piece * len(numbers)


def written_out(text):
    """The text with these parts written out."""
    return TIMES.sub(counted, text)
