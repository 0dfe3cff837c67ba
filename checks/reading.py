"""What the sources say: the functions of a file of src/ with their contracts, and the calls of a file of proofs/."""
import re

FUNCTION = re.compile(r"(\s*)(pub(?:\(\w+\))? )?(?:const |unsafe |extern \"C\" )*fn (\w+)")
BLOCK = re.compile(r"(impl|pub trait|pub\(crate\) trait|trait)\b(.*)\{$")
TOKEN = re.compile(r"[(){}\[\];,]|[^\s(){}\[\];,]+")
# what stands between calls, beside the operators
WORDS = {"let", "in", "λ", "as", "elim", "where", "=", "|"}


class Function:
    """A function as it stands in a file: where, whose it is, its signature and its clauses."""

    def __init__(self, path, owner, trait, is_public, name):
        self.path, self.owner, self.trait = path, owner, trait
        self.is_public, self.name = is_public, name
        self.doc, self.signature, self.asks, self.has_ensures, self.module = "", "", [], False, ""
        self.line, self.clauses = 0, 0

    def shown(self):
        """The signature, with the type that it is a method of."""
        text = re.sub(r"^pub |^pub\(crate\) ", "", self.signature)
        text = re.sub(r"^(?:const |unsafe |extern \"C\" )*fn ", "", text)
        return f"{self.owner}::{text}" if self.owner else self.module + text


def first_sentence(doc):
    sentence = re.split(r"\. (?=[A-Z`])", " ".join(doc))[0].rstrip(".")
    return sentence + "." if sentence else ""


def joined(lines):
    """The lines of a header on one line, as one would write it there."""
    text = " ".join(line.strip() for line in lines)
    return text.replace("( ", "(").replace(", )", ")").replace(" )", ")")


def clauses(lines):
    """What a header says after its signature: pairs of a word, as `requires`, and the text in its braces."""
    kept = [line.strip() for line in lines if not line.strip().startswith("//")]
    text, found, at = " ".join(kept), [], 0
    for start in re.finditer(r"\b(requires|ensures)\b( \w+)? \{", text):
        if start.start() < at:
            continue
        depth, end = 1, start.end()
        while depth:
            depth += {"{": 1, "}": -1}.get(text[end], 0)
            end += 1
        found.append((start[1], text[start.end():end - 1].strip()))
        at = end
    return found


def functions(path):
    """Each function of a file that is no test, with the `impl` or the trait around it."""
    lines = path.read_text().splitlines()
    owner = trait = None
    doc, is_test, at = [], False, 0
    while at < len(lines):
        line = lines[at]
        block = BLOCK.match(line)
        if block:
            owner, trait = owner_of(block[1], block[2])
        elif line == "}":
            owner = trait = None
        if line.strip().startswith("///"):
            doc.append(line.strip()[3:].strip())
        elif re.match(r"\s*#\[", line):
            is_test = is_test or "#[test]" in line
        elif FUNCTION.match(line):
            found = FUNCTION.match(line)
            inner = owner if found[1] else None
            one = Function(path, inner, trait if found[1] else None, found[2] == "pub ", found[3])
            one.doc, one.line = first_sentence(doc), at + 1
            header, at = header_of(lines, at)
            header = [text for text in header if not text.strip().startswith("//")]
            cut = next((n for n, text in enumerate(header) if re.match(r"\s*(requires|ensures)\b", text)), len(header))
            one.signature = re.sub(r" ?\{\}?$|;$", "", joined(header[:cut])).strip()
            said = clauses(header[cut:])
            one.clauses = len(said)
            one.asks = [text for word, text in said if word == "requires"]
            one.has_ensures = any(word == "ensures" for word, _ in said)
            if not is_test:
                yield one
            doc, is_test = [], False
        elif line.strip():
            doc, is_test = [], False
        at += 1


def owner_of(word, rest):
    """The type that a block of functions is of, and the trait that it is an `impl` of, if it is of one."""
    rest = rest.strip()
    if word != "impl":
        name = re.match(r"(\w+)", rest)[1]
        return name, ("a trait", word == "pub trait")
    if rest.startswith("<"):
        depth = 0
        for n, c in enumerate(rest):
            depth += {"<": 1, ">": -1}.get(c, 0)
            if depth == 0:
                rest = rest[n + 1:].strip()
                break
    if " for " in rest:
        done, _, of = rest.partition(" for ")
        return re.match(r"(\w+)", of)[1], (done.strip(), False)
    return re.match(r"(\w+)", rest)[1], None


def header_of(lines, at):
    """The lines of a function's header, and the number of the last one."""
    start, indent = at, len(lines[at]) - len(lines[at].lstrip())
    while True:
        text = lines[at].rstrip()
        depth = len(text) - len(text.lstrip())
        if depth == indent and text.endswith(("{", "{}", ";", "};")):
            return lines[start:at] + ([lines[at]] if text.strip() not in ("{", "{}") else []), at
        if at > start and text.endswith("};") and text.lstrip().startswith(("ensures", "requires")):
            return lines[start:at + 1], at
        at += 1


def joins(token):
    """Whether a token can be a part of a call: a name, or `_`."""
    return token not in WORDS and (re.search(r"\w", token) is not None or "◌" in token) and not token.endswith(".")


def calls(lines):
    """Of each call of a file, the number of the line that it begins in, and how many of its arguments are `_`."""
    left, own, runs = 0, False, [[0, 0]]

    def ended():
        call = runs[-1]
        runs[-1] = [0, 0]
        return [tuple(call)] if call[1] else []

    for number, line in enumerate(lines, 1):
        text = re.sub(r"(^|\s)--(\s.*)?$", "", line)
        if not text.strip():
            continue
        indent = len(text) - len(text.lstrip())
        if len(runs) == 1 and (own or indent <= left):
            yield from ended()
            left, own = indent, False
        for token in TOKEN.findall(text):
            if token in "([{":
                runs[-1][0] = runs[-1][0] or number
                runs.append([0, 0])
            elif token in ")]}":
                yield from ended()
                if len(runs) > 1:
                    runs.pop()
            elif joins(token):
                runs[-1][0] = runs[-1][0] or number
                runs[-1][1] += token == "_"
            elif token == "=" or token.endswith("."):
                runs[-1] = [0, 0]
            else:
                yield from ended()
        own = text.rstrip().endswith(" where")
    yield from ended()
