"""Edits of a text by offsets."""


class Edits:
    """Replacements in one text, each between two offsets. If two overlap, the outer one counts."""

    def __init__(self, text):
        self.text, self.changes = text, []

    def put(self, start, end, new=""):
        """Replaces what is between two offsets with `new`."""
        self.changes.append((start, end, new))

    def drop(self, start, end):
        """Deletes what is between two offsets, and whole lines if nothing else is on them."""
        first, last = start, end
        while first > 0 and self.text[first - 1] in " \t":
            first -= 1
        while last < len(self.text) and self.text[last] in " \t":
            last += 1
        if (first == 0 or self.text[first - 1] == "\n") and self.text[last:last + 1] == "\n":
            start, end = first, last + 1
        self.put(start, end)

    def result(self, start=0, end=None):
        """The text between two offsets, after the edits."""
        end = len(self.text) if end is None else end
        inside = sorted((change for change in self.changes if start <= change[0] and change[1] <= end
            and (change[0], change[1]) != (start, end)), key=lambda change: (change[0], -change[1]))
        out, at = [], start
        for first, last, new in inside:
            if first >= at:
                out += [self.text[at:first], new]
                at = last
        return "".join(out) + self.text[at:end]

    def without(self, nodes, gone, brackets=None):
        """Deletes some nodes of a comma-separated list, and its brackets if all go."""
        kept = [node for node in nodes if not gone(node)]
        if len(kept) == len(nodes):
            return
        if not kept:
            first, last = brackets or (nodes[0].start, nodes[-1].end)
            self.put(first, last)
            return
        for before, after in zip([None] + kept, kept + [None]):
            between = nodes[nodes.index(before) + 1 if before else 0:nodes.index(after) if after else None]
            if between and after:
                self.put(between[0].start, after.start)
            elif between:
                self.put(before.end, between[-1].end)
