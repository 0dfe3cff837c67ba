"""A document and its edits, in the plainest way, for the checks that compare with it."""


class Element:
    """An element of the plain list: its node, and its children in order."""

    def __init__(self, node, parent):
        self.tag, self.parent, self.children = node["tag"], parent, []
        self.attrs, self.states = dict(node.get("attrs", {})), set(node.get("states", []))


class Document:
    """What a document is after edits, in the plainest way."""

    def __init__(self, nodes):
        self.elements, self.last = {}, 0
        self.put(None, 0, nodes)

    def put(self, parent, index, nodes):
        first = self.last + 1
        for node in nodes:
            self.last += 1
            above = first + node["parent"] if "parent" in node else parent
            self.elements[self.last] = Element(node, above)
            if "parent" in node:
                self.elements[above].children.append(self.last)
        if parent is not None:
            self.elements[parent].children.insert(index, first)

    def below(self, x):
        """The numbers of a subtree, in tree order."""
        return [x] + [y for child in self.elements[x].children for y in self.below(child)]

    def refusal(self, edit):
        """Why an edit is refused. None: it is not. No job passes a limit."""
        for name in ("node", "parent"):
            if name in edit and edit[name] not in self.elements:
                return "unknown node %d" % edit[name]
        if edit["op"] in ("remove", "move") and edit["node"] == 1:
            return "bad place"
        if edit["op"] == "move" and edit["parent"] in self.below(edit["node"]):
            return "bad place"
        if edit["op"] in ("insert", "move"):
            places = [x for x in self.elements[edit["parent"]].children if x != edit.get("node")]
            return "bad place" if edit["index"] > len(places) else None
        return None

    def make(self, edit):
        op = edit["op"]
        if op == "insert":
            self.put(edit["parent"], edit["index"], edit["nodes"])
            return
        x = self.elements[edit["node"]]
        if op == "set":
            x.attrs[edit["name"]] = edit["value"]
        elif op == "unset":
            x.attrs.pop(edit["name"], None)
        elif op == "state":
            (x.states.add if edit["on"] else x.states.discard)(edit["state"])
        else:
            self.elements[x.parent].children.remove(edit["node"])
        if op == "remove":
            for y in self.below(edit["node"]):
                del self.elements[y]
        if op == "move":
            x.parent = edit["parent"]
            self.elements[x.parent].children.insert(edit["index"], edit["node"])

    def nodes(self):
        """The nodes of a job of its own, in tree order."""
        order = self.below(1)
        index = {x: k for k, x in enumerate(order)}
        found = []
        for x in order:
            element = self.elements[x]
            node = {"tag": element.tag, "attrs": dict(element.attrs), "states": sorted(element.states)}
            found.append(node if x == 1 else dict(node, parent=index[element.parent]))
        return order, found
