"""The lemmas of the crates' proofs/, and what each of them says, where the names of bound variables make no difference.

A lemma is a signature in proofs/, at the left margin, in a module with parameters, or under the `where` of a clause. What a
`let` states is none, nor what answers a goal of a function. The parameters of a module are a part of what its lemmas say.
"""
import re

SIGNATURE = re.compile(r"^(?:pub )?([^\s(){}\[\]:;,]+) : (.*)$")
DEFINITION = re.compile(r"^((?:(?:abbrev|unfoldable|pub) )*(?:record |data )?)([^\s(){}\[\]:;,]+) ")
NOT_LEMMAS = ("abbrev", "unfoldable", "record", "data", "use", "mod", "module", "unfolding", "mutual", "--")
TOKEN = re.compile(r"[(){}\[\],;]|[^\s(){}\[\],;]+")
VARIABLE = re.compile(r"[\w'-]+")


class Block:
    """A file, a module with parameters, what is under a `where`, or the fields of a record: it is indented by more than `opener`.

    `bound` are the names that the clause of a `where` binds, `own` those that are defined in the block and can't be had outside.
    """

    def __init__(self, kind, opener, line, parameters="", bound=()):
        self.kind, self.opener, self.line, self.parameters, self.bound = kind, opener, line, parameters, set(bound)
        self.indent, self.own = None, set()


class Lemma:
    """A lemma: its name, its line, its statement as it stands, and the blocks around it, the file first."""

    def __init__(self, name, line, statement, blocks):
        self.name, self.line, self.statement, self.blocks = name, line, statement, blocks
        self.crate, self.place, self.whole, self.alone = "", "", None, None

    def is_local(self):
        return any(block.kind == "where" for block in self.blocks)

    def parameters(self):
        return " → ".join(block.parameters for block in self.blocks if block.parameters)


def imports(lines):
    """What a file has from others: its names with what each is there, as in `X as Y`, and its modules `.. as m`."""
    names, modules = {}, {}
    for line in lines:
        found = re.match(r"(?:pub )?use (\S+?)(?:\.\{(.*)\})?(?: as (\w+))?$", line.strip())
        if not found:
            continue
        path, listed, alias = found.groups()
        if alias:
            modules[alias] = path.split(".")[-1]
        for entry in (listed or "").split(","):
            words = entry.split()
            if words:
                names[words[-1]] = "Statement." * path.endswith(".Statement") + words[0]
    return names, modules


def indent_of(line):
    return len(line) - len(line.lstrip())


class Reader:
    """Reads a file of proofs line by line."""

    def __init__(self, lines, known):
        self.lines, self.known, self.at = lines, known, 0
        self.blocks, self.clause = [Block("file", -1, 0)], None

    def lemmas(self):
        """Each lemma of the file."""
        while self.at < len(self.lines):
            line = self.lines[self.at]
            text, indent = line.strip(), indent_of(line)
            self.at += 1
            if not text or text.startswith("--"):
                continue
            if text != "where":
                self.leave(indent)
                block = self.blocks[-1]
                if block.indent is None:
                    block.indent = indent
                if indent == block.indent and block.kind != "record" and text[0] not in ")]}|":
                    yield from self.item(text, indent)
                    continue
            if text.split()[-1] == "where" and self.clause:
                self.enter_where()

    def leave(self, indent):
        """Ends the blocks that something at this indent stands outside of."""
        while indent <= self.blocks[-1].opener:
            self.blocks.pop()

    def enter_where(self):
        """Begins what is under the `where` of the last clause."""
        indent, bound = self.clause
        self.leave(indent)
        self.blocks.append(Block("where", indent, self.at, bound=bound))

    def item(self, text, indent):
        """What begins here: a module, a record, a lemma or another definition, or a clause."""
        line, words = self.at, [word for word in text.split()[:2] if word != "pub"]
        if words[0] in ("module", "record", "data"):
            text = self.head(text, indent)
        self.define(text)
        if words[0] in ("module", "record", "data", "mutual"):
            if text.endswith("where") or text == "mutual":
                parameters = re.sub(r"^(pub )?module \S+ |where$", "", text) if words[0] == "module" else ""
                kind = "record" if words[0] in ("record", "data") else "module"
                self.blocks.append(Block(kind, indent, line, parameters.strip()))
        elif words[0] not in NOT_LEMMAS:
            found = SIGNATURE.match(text)
            if found:
                yield Lemma(found[1], line, " ".join([found[2], *self.rest(indent)]), tuple(self.blocks))
                return
            head = TOKEN.findall(re.split(r" =(?: |$)", text)[0])[1:]
            self.clause = (indent, {name for name in head if VARIABLE.fullmatch(name) and name not in self.known | {"_"}
                                    and not name[0].isupper()})
            if text.endswith(" where"):
                self.enter_where()

    def head(self, text, indent):
        """The head of a module or a record, which may go on over several lines."""
        while not text.endswith("where") and self.at < len(self.lines) and indent_of(self.lines[self.at]) > indent:
            text += " " + self.lines[self.at].strip()
            self.at += 1
        return text

    def define(self, text):
        """Keeps the name of what is defined here, where it can't be had elsewhere."""
        block, found = self.blocks[-1], DEFINITION.match(text)
        if found and (":" in text[found.end(2):].split()[:1] or re.search("record|data", found[1])):
            if "pub" not in found[1] or block.kind != "file":
                block.own.add(found[2])

    def rest(self, indent):
        """The lines that go on with a statement."""
        while self.at < len(self.lines) and self.lines[self.at].strip() and indent_of(self.lines[self.at]) > indent:
            yield self.lines[self.at].strip()
            self.at += 1


def bound_names(tokens):
    """Which tokens name a bound variable, as in `(x y : T)` and after `λ`."""
    variables = []
    for at, token in enumerate(tokens):
        if token in "({":
            after = at + 1
            while after < len(tokens) and VARIABLE.fullmatch(tokens[after]):
                after += 1
            if after > at + 1 and after < len(tokens) and tokens[after] == ":":
                variables += [name for name in tokens[at + 1 : after] if name not in variables]
        if token == "λ":
            after = at + 1
            while after < len(tokens) and not tokens[after].endswith("."):
                variables += [tokens[after]] if tokens[after] not in variables + ["(", ")", "{", "}"] else []
                after += 1
            if after < len(tokens) and tokens[after][:-1] and tokens[after][:-1] not in variables:
                variables.append(tokens[after][:-1])
    return variables


def end_of(tokens, at):
    """Where the bracket that opens at a place is closed."""
    depth = 0
    while True:
        depth += (tokens[at] in "({[") - (tokens[at] in ")}]")
        if not depth:
            return at
        at += 1


def spread(tokens):
    """Each bound variable in a group of its own, in round brackets, without arrows between groups."""
    out, at = [], 0
    while at < len(tokens):
        names = []
        if tokens[at] in "({":
            after = at + 1
            while after < len(tokens) and VARIABLE.fullmatch(tokens[after]):
                names.append(tokens[after])
                after += 1
            if not names or after >= len(tokens) or tokens[after] != ":":
                names = []
        if not names:
            out.append(tokens[at])
            at += 1
            continue
        end = end_of(tokens, at)
        for name in names:
            out += ["(", name, ":"] + tokens[after + 1 : end] + [")"]
        at = end + 1
        if at < len(tokens) and tokens[at] == "→":
            at += 1
    return out


def stems(tokens):
    """The names that tokens begin with, as `m` in `m.field`."""
    return {token.partition(".")[0] for token in tokens}


def normal(tokens, names, modules, own):
    """A statement as a text in which bound variables are numbered in the order in which they are met."""
    variables, number = bound_names(tokens), {}

    def written(token):
        stem, dot, rest = token.partition(".")
        if stem in variables:
            number.setdefault(stem, f"v{len(number)}")
            return number[stem] + dot + rest
        if stem in own:
            return f"{token}@{own[stem]}"
        if dot and stem in modules:
            return modules[stem] + dot + rest
        return names.get(token, token)

    return " ".join(written(token) for token in tokens)


def groups(text):
    """The parameters of modules, one by one."""
    tokens, found, at = spread(TOKEN.findall(text)), [], 0
    while at < len(tokens):
        end = end_of(tokens, at)
        if end > at:
            found.append(tokens[at : end + 1])
        at = end + 1
    return found


def spoken_of(parameters, names):
    """The parameters with one of these names, and those that speak of one that is kept, or of which one that is kept speaks."""
    of_all = {group[1] for group in parameters}
    kept, before = names & of_all, None
    while kept != before:
        before = kept
        for group in parameters:
            spoken = stems(group) & of_all
            kept = kept | (spoken if spoken & kept else set())
    return [group for group in parameters if group[1] in kept]


def said(lemma, names, modules, place):
    """What a lemma says by itself: its statement, with those parameters of modules around it that have to do with it.

    None for a lemma that speaks of what the proof around it binds or defines. A name that can't be had outside of its file or
    module stands for another thing in each.
    """
    tokens = spread(TOKEN.findall(lemma.statement))
    used, own, inner = stems(tokens) - set(bound_names(tokens)), {}, False
    for block in lemma.blocks:
        if block.kind == "where" and used & (block.bound | block.own):
            return None
        inner = inner or block.kind == "module" and bool(used & block.own)
        own.update((name, f"{place}:{block.line}") for name in block.own)
    parameters = groups(lemma.parameters())
    kept = parameters if inner else spoken_of(parameters, used)
    return normal([token for group in kept for token in group] + tokens, names, modules, own)


def is_of_data(statement):
    """Whether it is the type of a function and says nothing: all its parts are names of types."""
    parts = [part.strip() for part in statement.split("→")]
    return parts[-1] == "Type 0" or all(re.fullmatch(r"[A-Zℕℤ]\w*|List .*", part) for part in parts)


def is_statement(text):
    """Whether a text says something, and answers no goal of a function."""
    return not any(word in text for word in ("Goals.", "Statement.")) and not is_of_data(text)


def lemmas(top):
    """Each lemma of a tree, with its crate, its place, its statement with all parameters, and what it says by itself.

    The statement with all parameters is None for one that is local to a proof, what it says by itself for a part of a proof.
    """
    for path in sorted(top.glob("crates/*/proofs/**/*.antt")):
        lines = [line.rstrip() for line in path.read_text(encoding="utf-8").splitlines()]
        names, modules = imports(lines)
        file = path.relative_to(top)
        for lemma in Reader(lines, names.keys()).lemmas():
            parameters = lemma.parameters()
            tokens = spread(TOKEN.findall(f"{parameters} → {lemma.statement}" if parameters else lemma.statement))
            whole, alone = normal(tokens, names, modules, {}), said(lemma, names, modules, file)
            if is_statement(whole) and (alone is None or is_statement(alone)):
                lemma.crate, lemma.place = file.parts[1], f"{file}:{lemma.line} {lemma.name}"
                lemma.whole, lemma.alone = None if lemma.is_local() else whole, alone
                yield lemma


def again(found):
    """Of each statement that stands twice among these lemmas the places, the first of the files first."""
    places = {}
    for lemma in found:
        if lemma.alone:
            places.setdefault(lemma.alone, []).append(lemma.place)
    return {statement: those for statement, those in places.items() if len(those) > 1}
