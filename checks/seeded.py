"""The job that `gen` makes of a seed, a count of nodes and one of batches (docs/PROFILE.md, "The generated job")."""

TEXT = (
    "p{color:red}.c1 .c2{color:blue}.c3>.c4{width:1em}.c5+.c6{height:2em}.c7~.c8 i{margin:1px}:nth-child(3n+1){padding:2px}"
    ".c9:hover b{color:lime}#n8{font-size:larger}u:empty{--k:1px}"
)


class Draws:
    """Numbers below bounds: the words of SplitMix64 from a seed, each by its remainder."""

    def __init__(self, seed):
        self.state = seed

    def below(self, bound):
        self.state = (self.state + 0x9E3779B97F4A7C15) % 2**64
        word = (self.state ^ self.state >> 30) * 0xBF58476D1CE4E5B9 % 2**64
        word = (word ^ word >> 27) * 0x94D049BB133111EB % 2**64
        return (word ^ word >> 31) % bound

    def tag(self):
        return "pibu"[self.below(4)]

    def class_value(self):
        return "c%d" % self.below(16)


def node_of(draws, index):
    node = {"tag": draws.tag(), "parent": (index - 1) // 4, "attrs": {"class": draws.class_value()}}
    if draws.below(8) == 0:
        node["attrs"]["id"] = "n%d" % index
    return node


def edit_of(draws, count):
    which, node = draws.below(4), 1 + draws.below(count)
    if which == 0:
        return {"op": "set", "node": node, "name": "class", "value": draws.class_value()}
    if which == 1:
        return {"op": "state", "node": node, "state": "hover", "on": draws.below(2) == 1}
    if which == 2:
        return {"op": "insert", "parent": node, "index": 0, "nodes": [{"tag": draws.tag(), "attrs": {"class": draws.class_value()}}]}
    return {"op": "remove", "node": node}


def seeded_job(seed, count, batches):
    """The job that `gen` makes of these numbers."""
    draws = Draws(seed)
    nodes = [{"tag": "html"}, *(node_of(draws, index) for index in range(1, count))]
    edits = [[edit_of(draws, count) for _ in range(4)] for _ in range(batches)]
    return {"version": 1, "nodes": nodes, "sheets": [{"origin": "author", "text": TEXT}], "batches": edits}
