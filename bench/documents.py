"""The documents that bench/profile, bench/allocations and bench/edits run the program on."""
import json
import random
import typing

PARENTS = {
    "plain": lambda k: (k - 1) // 4,
    "rules": lambda k: (k - 1) // 4,
    "deep": lambda k: 0 if k % 255 == 1 else k - 1,
    "wide": lambda k: 0,
    "forty": lambda k: (k - 1) // 4,
    "taking": lambda k: (k - 1) // 4,
    "edits": lambda k: (k - 1) // 4,
}
BATCHES = 20
MARKS = ["display:block", "display:none", "clear:both", "clear:left", "visibility:hidden", "visibility:collapse"]
ALL = [
    "direction:rtl", "position:relative", "position:absolute", "float:left", "overflow:hidden auto", "width:50%", "height:2em",
    "min-width:1px", "max-height:10rem", "margin:1px 2em", "margin-left:auto", "padding:3px", "border-width:thin 2px",
    "border-style:solid", "border-color:red lime", "background-color:rgb(1, 2, 3)", "font-size:larger", "font-size:90%",
    "font-weight:bolder", "font-style:italic", "line-height:1.5",
]
COLORS = ["red", "lime", "#0f0", "#00ff0080", "navy", "#123456"]


def sheet(marks):
    """40 rules of types, classes and both, each with a colour and two of these declarations."""
    r = random.Random(2)
    rules = ["p{color:blue}", "i,b{clear:right}"]
    while len(rules) < 40:
        subject = r.choice(["p", "i", "b", "u", "", "", "*"]) + ".%s%d" % (r.choice("cd"), r.randrange(16))
        rules.append("%s{color:%s;%s;%s}" % (subject, r.choice(COLORS), *r.sample(marks, 2)))
    return " ".join(rules)


def job(kind, size):
    """A job of so many elements with two classes each: four children an element (`plain`, without a sheet, and
    `rules`), chains 255 deep under the root (`deep`), or all children of the root (`wide`); `forty` is `rules` with a
    sheet over all properties, `taking` is `rules` where each element takes of its parent what isn't inherited, `edits` is
    `rules` with BATCHES batches of four edits."""
    r = random.Random(1)
    nodes = [{"tag": "html"}]
    for k in range(1, size):
        classes = "c%d d%d" % (r.randrange(16), r.randrange(40))
        nodes.append({"tag": r.choice("pibu"), "parent": PARENTS[kind](k), "attrs": {"class": classes}})
    text = sheet(MARKS + ALL if kind == "forty" else MARKS) + (" *{margin-left:inherit}" if kind == "taking" else "")
    sheets = [] if kind == "plain" else [{"origin": "author", "text": text}]
    found = {"version": 1, "nodes": nodes, "sheets": sheets}
    if kind == "edits":
        found["batches"] = [[edit(r.randrange(2, size), k, r) for k in range(4)] for _ in range(BATCHES)]
    return json.dumps(found).encode()


class Sheet(typing.NamedTuple):
    """The rules of a sheet, and the elements that it is for: of how many classes each has two, whose parents they have (PARENTS),
    a `style` attribute that each has, whether all are equal, but for an attribute `n` where they have numbers, and how many
    elements there are at most."""
    rules: list
    classes: int = 40
    kind: str = "plain"
    style: str = ""
    is_equal: bool = False
    has_numbers: bool = False
    most: int = 8192


def of_classes(count):
    """So many rules, each of a class."""
    return [".k%d{margin:%dpx;float:left}" % (k, k) for k in range(count)]


def of_lists(count):
    """So many rules without a name to be found by, of classes that no element has, and 40 of classes."""
    return [":is(.q%d){margin:1px}" % k for k in range(count)] + FORTY


FORTY = of_classes(40)
BELOW = [".a%d .k%d{margin:1px}" % (k, k % 40) for k in range(400)]
THEME = "html{%s}" % ";".join("--color-name-%d:1px solid red" % k for k in range(300))
SHEETS = {
    "no sheet": Sheet([]),
    "40 rules": Sheet(FORTY),
    "4,000 rules": Sheet(of_classes(4000)),
    "4,000 classes": Sheet(of_classes(4000), 4000),
    "400 below": Sheet(BELOW),
    "chains": Sheet([], kind="deep"),
    "400 on chains": Sheet(BELOW, kind="deep"),
    "400 attributes": Sheet(["[x%d]{margin:1px}" % k for k in range(400)]),
    "style": Sheet(FORTY, style="color:red;margin:1px;width:2em"),
    "theme": Sheet([THEME, *FORTY], most=1024),
    "400 equal": Sheet(of_lists(400), kind="wide", is_equal=True),
    "400 numbered": Sheet(of_lists(400), kind="wide", is_equal=True, has_numbers=True),
    "24 equal": Sheet(of_lists(24), kind="wide", is_equal=True),
    "24 numbered": Sheet(of_lists(24), kind="wide", is_equal=True, has_numbers=True),
    "long style": Sheet(FORTY, kind="wide", style="width:2em;" * 100, is_equal=True),
}


def sheet_job(name, size):
    """A job of so many elements with the sheet of this name. The elements have a tag and two classes by chance, or are all equal.
    The sheets: none; 40 or 4,000 rules of a class each, of which elements have 40 or all; 400 rules whose element has to be
    below another, which never is there; 400 of attributes that no element has; the 40 rules where each element has a `style`
    of three declarations, or where the root has 300 custom properties; 400 or 24 rules that can't be found by a name besides,
    where all elements are equal children of the root, or have a number each; and the 40 rules on equal children of the root
    with a `style` of 1,000 bytes."""
    r, sheet = random.Random(6), SHEETS[name]
    nodes = [{"tag": "html"}]
    for k in range(1, size):
        names = "k%d k%d" % (r.randrange(sheet.classes), r.randrange(sheet.classes))
        tag = r.choice("pibu")
        attrs = {"class": "k3 k7" if sheet.is_equal else names}
        if sheet.style:
            attrs["style"] = sheet.style
        if sheet.has_numbers:
            attrs["n"] = str(k)
        nodes.append({"tag": "p" if sheet.is_equal else tag, "parent": PARENTS[sheet.kind](k), "attrs": attrs})
    found = {"version": 1, "nodes": nodes, "sheets": [{"origin": "author", "text": " ".join(sheet.rules)}] if sheet.rules else []}
    return json.dumps(found).encode()


def edit(node, k, r):
    if k % 2:
        return {"op": "set", "node": node, "name": "class", "value": "c%d" % r.randrange(16)}
    return {"op": "state", "node": node, "state": "hover", "on": True}
