"""The lines of pages that are made: texts in lines of at most WIDTH, and what stands between two marks of a page."""
WIDTH = 120
# code with blanks is cut only where it is longer
SHORT = 60


def wrapped(text, first="", rest=""):
    """A text in lines of at most WIDTH, which are cut at blanks, but not in short pieces of code."""
    lines, line = [], first
    for word in words_of(text):
        if len(line) + len(word) > WIDTH and line.strip() not in ("", "-"):
            lines.append(line.rstrip())
            line = rest
        line += word + " "
    return lines + [line.rstrip()]


def words_of(text):
    """The pieces of a text between blanks, where a short piece of code is not cut."""
    held = "\0".join(part if n % 2 == 0 or len(part) > SHORT else part.replace(" ", "\1")
                     for n, part in enumerate(text.split("`")))
    return [word.replace("\0", "`").replace("\1", " ") for word in held.split(" ")]


def between(text, mark, lines):
    """A page with these lines between `<!-- MARK -->` and `<!-- end -->`. None: it has no such marks."""
    before, begin, rest = text.partition(f"<!-- {mark} -->\n")
    _, end, after = rest.partition("<!-- end -->\n")
    return "\n".join([before + begin, *lines, "", end + after]) if end else None
