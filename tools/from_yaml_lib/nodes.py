"""What a file holds, where each part of it stands, and the list of what is refused."""
from dataclasses import dataclass, field


@dataclass(frozen=True)
class Refusal:
    """Something that can't be carried over: where it stands, its key, and why."""

    file: str
    line: int
    key: str
    why: str
    path: str

    def __str__(self):
        inside = f" (at {self.path})" if self.path not in ("", self.key) else ""
        return f"{self.file}:{self.line}: {self.key}: {self.why}{inside}".replace("\n", "\\n")


@dataclass
class Refusals:
    """All that was refused so far, and the notes, which refuse nothing."""

    found: list = field(default_factory=list)
    notes: list = field(default_factory=list)

    def lines(self):
        """Returns a line for each refusal, file by file as they were met, in the order of their lines."""
        files = list(dict.fromkeys(it.file for it in self.found))
        in_order = sorted(self.found, key=lambda it: (files.index(it.file), it.line))
        return list(dict.fromkeys(str(it) for it in in_order))


@dataclass
class Place:
    """A place in a file: its line, and the key or number that leads to it from the place above it."""

    __slots__ = ("refusals", "file", "line", "above", "step", "depth")
    refusals: Refusals
    file: str
    line: int
    above: object
    step: object
    depth: int

    @classmethod
    def whole(cls, refusals, file, line=1):
        """Returns the place that stands for a whole file."""
        return cls(refusals, file, line, None, None, 0)

    def below(self, step, line):
        """Returns the place that a key or a number leads to from here."""
        return Place(self.refusals, self.file, line, self, step, self.depth + 1)

    def on_line(self, line):
        """Returns the same place with another line."""
        return Place(self.refusals, self.file, line, self.above, self.step, self.depth)

    def path(self):
        """Returns the keys and numbers that lead here from the whole file."""
        steps, it = [], self
        while it.above is not None:
            steps.append(it.step)
            it = it.above
        return steps[::-1]

    def refuse(self, why):
        """Notes that what stands here can't be carried over."""
        keys = [it for it in self.path() if isinstance(it, str)]
        path = "/".join(str(it) for it in self.path())
        self.refusals.found.append(Refusal(self.file, self.line, keys[-1] if keys else "-", why, path))

    def lacks(self, key, why="it is missing"):
        """Notes that a key isn't there that has to be."""
        self.below(key, self.line).refuse(why)

    def note(self, what):
        """Notes something that a reader of the result should know."""
        line = f"note: {self.file}: {what}"
        if line not in self.refusals.notes:
            self.refusals.notes.append(line)


@dataclass
class Scalar:
    """A text, a number, a truth or nothing."""

    value: object
    line: int


@dataclass
class Sequence:
    """A list of nodes."""

    items: list
    line: int

    def places(self, place):
        """Returns each item with its place."""
        return [(it, place.below(at, it.line)) for at, it in enumerate(self.items)]


@dataclass
class Entry:
    """A key of a mapping with what stands after it; the line is that of the key."""

    key: str
    node: object
    line: int


@dataclass
class Mapping:
    """A mapping from texts to nodes, in the order of the file."""

    entries: list
    line: int

    def places(self, place):
        """Returns each entry with its place."""
        return [(it, place.below(it.key, it.line)) for it in self.entries]

    def keys(self):
        """Returns the keys in their order."""
        return [it.key for it in self.entries]

    def get(self, key):
        """Returns the entry of a key, or None."""
        return next((it for it in self.entries if it.key == key), None)


@dataclass
class Refused:
    """Stands for something that was refused as it was read, so that it is told once."""

    line: int


def is_null(node):
    """Tells whether nothing stands there."""
    return isinstance(node, Scalar) and node.value is None


def is_text(node):
    """Tells whether the node is a text."""
    return isinstance(node, Scalar) and isinstance(node.value, str)


def wrong(node, place, why):
    """Refuses a node, but not a second time, and returns None in place of its value."""
    if not isinstance(node, Refused):
        place.refuse(why)
