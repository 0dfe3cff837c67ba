"""The map of the house: which crates stand on which, what is in each file of a crate, and the files that a page names."""
import functools
import itertools
import pathlib
import re
import tempfile

from pages import wrapped
from reading import first_sentence

TESTS = "_tests"
ABOUT_ROOMS = (
    "What is in each file of each crate: of those of `src/`, which end in `.rt`, and of those of `specs/`, which end in `.antt`, "
    "the first sentence that stands in them; below the name of the crate, that of its `lib.rt` or `main.rt`. "
    "[ARCHITECTURE.md](ARCHITECTURE.md) says what the crates are, [DEFINITIONS.md](DEFINITIONS.md) has the definitions by the "
    "sections of the standards. `checks/contracts --write` makes this page."
)


def below(top):
    """Of each crate of crates.txt those that it stands on, without the kit's."""
    lines = (top / "crates.txt").read_text(encoding="utf-8").splitlines()
    heads = [line.partition(":") for line in lines if ":" in line and not line.startswith("#")]
    named = {head.split()[0]: rest.split() for head, _, rest in heads}
    return {name: [one for one in others if one in named] for name, others in named.items()}


def above(crates):
    """Of each crate those that an edit of it proves again, in the order of crates.txt."""
    @functools.cache
    def all_below(name):
        return set(crates[name]).union(*map(all_below, crates[name]))

    return {name: [one for one in crates if name in all_below(one)] for name in crates}


def listed(names, others):
    """These crates in a row of a table; where they are most of all, which are not among them."""
    if len(names) <= len(others):
        return ", ".join(f"`{name}`" for name in names) or "no other"
    return "all others" if not others else "all but " + ", ".join(f"`{name}`" for name in others)


def who_proves_whom(crates):
    """The rows that say which crates an edit of each crate proves again; the crates of tests are told apart."""
    yield from ("| An edit of | Proves these again | And the tests |", "|---|---|---|")
    for name, those in above(crates).items():
        if not name.endswith(TESTS):
            others = [one for one in crates if one not in those and one != name and not one.endswith(TESTS)]
            tests = [one.removesuffix(TESTS) for one in those if one.endswith(TESTS)]
            proved = listed([one for one in those if not one.endswith(TESTS)], others)
            yield f"| `{name}` | {proved} | {', '.join(tests) or 'none'} |"


def head_of(path):
    """The first sentence of the comment that a file begins with."""
    mark = "//! " if path.suffix == ".rt" else "-- "
    begun = itertools.takewhile(lambda line: line.startswith(mark), path.read_text(encoding="utf-8").splitlines())
    return first_sentence([line.removeprefix(mark).strip() for line in begun])


def root_of(folder):
    return next(path for path in (folder / "src" / "lib.rt", folder / "src" / "main.rt") if path.exists())


def files_of(folder):
    """The files of a crate that have a line: pairs of a name and a path. A module comes before those within it."""
    left_out = {root_of(folder), folder / "src" / "tests.rt", folder / "specs" / "Lib.antt"}
    for part, form in (("src", "*.rt"), ("specs", "*.antt")):
        paths = (path for path in (folder / part).rglob(form) if path not in left_out)
        for path in sorted(paths, key=lambda path: path.with_suffix("").parts):
            yield str(path.relative_to(folder / part)), path


def rooms(top):
    """The page of rooms."""
    crates, lines = below(top), ["# Rooms", "", *wrapped(ABOUT_ROOMS), ""]
    for crate in crates:
        if not crate.endswith(TESTS):
            folder = top / "crates" / crate
            lines += [f"## `{crate}`", "", *wrapped(head_of(root_of(folder))), ""]
            for name, path in files_of(folder):
                lines += wrapped(f"`{name}`: {head_of(path)}", "- ", "  ")
            lines.append("")
    lines += ["## Tests", ""]
    for crate in crates:
        if crate.endswith(TESTS):
            lines += wrapped(f"`{crate}`: {head_of(root_of(top / 'crates' / crate))}", "- ", "  ")
    return "\n".join(lines) + "\n"


def without_head(top):
    """The files that have no line, since they begin with no comment."""
    for crate in below(top):
        folder = top / "crates" / crate
        files = [] if crate.endswith(TESTS) else [path for _, path in files_of(folder)]
        yield from (path.relative_to(top) for path in [root_of(folder), *files] if not head_of(path))


def lost_files(text, top):
    """The files that tables of a page name and that are not there. One without a folder is of a crate that its row names."""
    crates = below(top)
    for row in re.findall(r"^\|.*\|$", text, re.M):
        words = re.findall(r"`([\w./]+)`", row) + re.findall(r"\bdocs/\w+\.md", row)
        named = [top / "crates" / word.split("/")[0] for word in words if word.split("/")[0] in crates]
        for word in words:
            places = [top / "crates" / word, top / word]
            if "/" not in word:
                if not word.endswith((".rt", ".antt")):
                    continue
                places = [path for folder in named for part in ("src", "specs") for path in (folder / part).rglob(word)]
            if not any(path.exists() for path in places):
                yield word


def is_tried():
    """Whether a made tree is told as it is."""
    with tempfile.TemporaryDirectory() as folder:
        top = pathlib.Path(folder)
        (top / "crates.txt").write_text("# c: d\na_model:\nb: a_model kit\nc: b\nd:\nc_tests: c\n", encoding="utf-8")
        files = {
            "b/src/lib.rt": "//! All of it.\n", "b/src/one.rt": "//! One thing,\n//! in two lines. Another.\n//!\n//! More.\n",
            "b/src/one/inner.rt": "//! Within `one`.\n", "b/src/bare.rt": "use one;\n", "b/specs/Two.antt": "-- Two.\nuse One\n",
            "b/specs/Lib.antt": "pub mod Two\n", "c/src/main.rt": "//! The program.\n", "c_tests/src/lib.rt": "//! Tests of it.\n",
            "a_model/src/lib.rt": "//! Definitions.\n", "d/src/lib.rt": "//! Alone.\n", "d/src/own.rt": "//! Its own.\n",
        }
        for file, text in files.items():
            (top / "crates" / file).parent.mkdir(parents=True, exist_ok=True)
            (top / "crates" / file).write_text(text, encoding="utf-8")
        rows = list(who_proves_whom(below(top)))[2:]
        wanted = ["| `a_model` | all but `d` | c |", "| `b` | `c` | c |", "| `c` | no other | c |", "| `d` | no other | none |"]
        page = ["## `b`", "", "All of it.", "", "- `bare.rt`:", "- `one.rt`: One thing, in two lines.",
                "- `one/inner.rt`: Within `one`.", "- `Two.antt`: Two."]
        table = "| `b/src/one.rt`, `Two.antt`, `inner.rt`, `b/specs/One.antt` |\n| `d`, `Two.antt`, `own.rt` and docs/A.md |\n"
        lost = list(lost_files("`Three.antt`\n" + table, top))
        return (rows == wanted and "\n".join(page) in rooms(top) and "- `c_tests`: Tests of it." in rooms(top)
                and list(without_head(top)) == [pathlib.Path("crates/b/src/bare.rt")]
                and lost == ["b/specs/One.antt", "Two.antt", "docs/A.md"])
