"""Reads a file of YAML or JSON into nodes that know their lines."""
import bisect
import json
import re
from json.decoder import scanstring

import yaml

from from_yaml_lib.nodes import Entry, Mapping, Place, Refused, Scalar, Sequence

TAG = "tag:yaml.org,2002:"
MERGE = f"{TAG}merge"
# More than pb-play takes, and few enough for this program's own calls.
MOST_LEVELS = 100
# Anchors can make a small file as large as one likes.
MOST_NODES = 500_000
VAULT = "$ANSIBLE_VAULT"
SURROGATE = re.compile("[\ud800-\udfff]")
NUMBER = re.compile(r"-?(?:Infinity|\d+(?:\.\d+)?(?:[eE][-+]?\d+)?)|NaN")


def text_in(path, place):
    """Returns the text of a file, or None where it can't be read."""
    try:
        with open(path, "rb") as it:
            text = it.read().decode("utf-8")
    except UnicodeDecodeError:
        return place.refuse("the file isn't UTF-8")
    except OSError as error:
        return place.refuse(f"the file can't be read: {error.strerror}")
    return text.removeprefix("\ufeff")


def read_file(path, refusals):
    """Returns what a file of YAML or JSON holds, as a node, and its place."""
    place = Place.whole(refusals, path)
    text = text_in(path, place)
    return (Refused(1) if text is None else read_text(text, place)), place


def read_text(text, place):
    """Returns what a text of YAML or JSON holds. As Ansible does, it is taken as JSON where it is JSON."""
    if text.startswith(VAULT):
        place.refuse("the file is encrypted with ansible-vault: decrypt it")
        return Refused(1)
    try:
        if text.lstrip()[:1] in ("{", "[") and is_json(text):
            return JsonReader(text).document(place)
        return read_yaml(text, place)
    except RecursionError:
        place.refuse("it is nested too deep")
        return Refused(1)


def is_json(text):
    """Tells whether a text is JSON."""
    try:
        json.loads(text)
    except ValueError:
        return False
    return True


def read_yaml(text, place):
    """Returns what a text of YAML holds."""
    try:
        loader = yaml.SafeLoader(text)
        node = loader.get_single_node()
    except yaml.YAMLError as error:
        return not_yaml(error, place)
    return Scalar(None, 1) if node is None else YamlReader(loader).document(node, place)


def not_yaml(error, place):
    """Refuses a text that isn't YAML, at the line of the fault."""
    mark = getattr(error, "problem_mark", None)
    place = place.on_line(mark.line + 1 if mark else 1)
    problem = getattr(error, "problem", None) or getattr(error, "reason", None) or "it can't be read"
    if "expected a single document" in str(error):
        problem = "there is a second document in the file"
    place.refuse(f"no YAML: {problem}")
    return Refused(place.line)


class Growing:
    """Counts the nodes of a file, and refuses what is too large or too deep."""

    def __init__(self):
        self.count = 0

    def fits(self, place):
        """Tells whether one more node may stand at the place."""
        self.count += 1
        if self.count == MOST_NODES:
            place.refuse(f"the file has more than {MOST_NODES} values")
        elif place.depth > MOST_LEVELS and self.count < MOST_NODES:
            place.refuse(f"it is nested more than {MOST_LEVELS} deep")
        return self.count < MOST_NODES and place.depth <= MOST_LEVELS

    def unless_large(self, node):
        """Returns what a file holds, unless that was too large."""
        return node if self.count < MOST_NODES else Refused(1)

    def text(self, text, place, line):
        """Returns a text as a scalar; half a surrogate pair is no text of JSON."""
        if not text.isascii() and SURROGATE.search(text):
            place.refuse("half of a surrogate pair is no character")
            return Refused(line)
        return Scalar(text, line)

    def mapping(self, entries, line, place):
        """Returns a mapping of entries, of which none may have the key of another one."""
        seen = set()
        for entry in entries:
            if entry.key in seen:
                place.below(entry.key, entry.line).refuse("the key stands twice in its mapping")
            seen.add(entry.key)
        return Mapping(entries, line)


class YamlReader(Growing):
    """Turns the nodes of PyYAML into nodes of this program."""

    def __init__(self, loader):
        super().__init__()
        self.loader = loader
        self.open = set()

    def document(self, node, place):
        """Returns what the text holds."""
        return self.unless_large(self.node(node, place))

    def node(self, node, place):
        """Returns a node for a node of PyYAML; the place is where it is used, which an alias makes another one."""
        line = node.start_mark.line + 1
        if not self.fits(place):
            return Refused(line)
        if isinstance(node, yaml.ScalarNode):
            return self.scalar(node, place, line)
        if id(node) in self.open:
            place.refuse("an alias stands within its own anchor")
            return Refused(line)
        self.open.add(id(node))
        found = self.collection(node, place, line)
        self.open.remove(id(node))
        return found

    def collection(self, node, place, line):
        """Returns a list or a mapping."""
        kind = "seq" if isinstance(node, yaml.SequenceNode) else "map"
        if node.tag != TAG + kind:
            return self.other_tag(node, place, line)
        if kind == "seq":
            steps = enumerate(node.value)
            return Sequence([self.node(it, place.below(at, it.start_mark.line + 1)) for at, it in steps], line)
        return self.entries(node, place, line)

    def scalar(self, node, place, line):
        """Returns a scalar by the rules of YAML 1.1, which are Ansible's."""
        if node.tag == f"{TAG}str":
            return self.text(node.value, place, line)
        makers = {"int": self.loader.construct_yaml_int, "float": self.loader.construct_yaml_float, "bool": self.loader.construct_yaml_bool}
        tag = node.tag.removeprefix(TAG)
        if node.tag == f"{TAG}null":
            return Scalar(None, line)
        if node.tag != TAG + tag or tag not in makers:
            return self.other_tag(node, place, line)
        try:
            return Scalar(makers[tag](node), line)
        except (ValueError, KeyError, IndexError):
            place.refuse(f"`{node.value}` is no {tag}")
            return Refused(line)

    def other_tag(self, node, place, line):
        """Refuses a tag that has no like in JSON."""
        tag = node.tag.removeprefix(TAG)
        why = {"!vault": "it is encrypted with ansible-vault: decrypt it", "!unsafe": "there are no texts that are no templates"}.get(tag)
        if tag == "timestamp":
            why = f"a date is no value of JSON: write it in quotes, \"{node.value}\""
        place.refuse(why or f"the tag `{tag}` has no like in JSON")
        return Refused(line)

    def entries(self, node, place, line):
        """Returns a mapping; what is merged into it stands in front, without the keys that it has itself."""
        own, merged = [], []
        for key, value in node.value:
            at = key.start_mark.line + 1
            if key.tag == MERGE:
                merged.append(Entry("<<", self.merged(value, place.below("<<", at)), at))
            else:
                own += self.entry(key, value, place, at)
        if len(merged) > 1:
            place.below("<<", merged[1].line).refuse("the key stands twice in its mapping")
        kept = self.mapping(own, line, place)
        taken = set(kept.keys())
        return Mapping([it for it in (merged[0].node if merged else []) if it.key not in taken] + own, line)

    def entry(self, key, value, place, line):
        """Returns the entry of a key, in a list, or none where the key is no text."""
        if not isinstance(key, yaml.ScalarNode) or key.tag != f"{TAG}str":
            shown = key.value if isinstance(key, yaml.ScalarNode) else "a list or a mapping"
            place.below(str(shown), line).refuse("a key has to be a text: write it in quotes if it is meant as one")
            return []
        below = place.below(key.value, line)
        if isinstance(self.text(key.value, below, line), Refused):
            return []
        return [Entry(key.value, self.node(value, below), line)]

    def merged(self, node, place):
        """Returns the entries that stand after a merge key; of several mappings the first one with a key counts."""
        several = isinstance(node, yaml.SequenceNode) and node.tag == f"{TAG}seq"
        found = {}
        for it in node.value if several else [node]:
            mapping = self.node(it, place) if isinstance(it, yaml.MappingNode) else None
            if mapping is None:
                place.refuse("what is merged has to be a mapping, or a list of mappings")
            for entry in mapping.entries if isinstance(mapping, Mapping) else []:
                found.setdefault(entry.key, entry)
        return list(found.values())


class JsonReader(Growing):
    """Reads a text that is known to be JSON."""

    WORDS = {"true": True, "false": False, "null": None}

    def __init__(self, text):
        super().__init__()
        self.text_read = text
        self.at = 0
        self.ends = [at for at, it in enumerate(text) if it == "\n"]

    def document(self, place):
        """Returns what the text holds."""
        return self.unless_large(self.node(place))

    def line(self):
        """Returns the line of what is read next."""
        return bisect.bisect_left(self.ends, self.at) + 1

    def space(self):
        """Passes over white space."""
        while self.at < len(self.text_read) and self.text_read[self.at] in " \t\r\n":
            self.at += 1

    def skip(self, mark):
        """Passes over white space, and over the mark if it stands there."""
        self.space()
        if self.text_read.startswith(mark, self.at):
            self.at += 1
            self.space()

    def node(self, place):
        """Returns the value that is read next."""
        self.space()
        line = self.line()
        place = place.on_line(line) if isinstance(place.step, int) else place
        fits = self.fits(place)
        read = {"{": self.object, "[": self.array, '"': self.string}.get(self.text_read[self.at], self.word)
        node = read(place, line)
        return node if fits else Refused(line)

    def object(self, place, line):
        """Returns an object."""
        entries = []
        self.skip("{")
        while self.text_read[self.at] != "}":
            at = self.line()
            key = self.string(place, at)
            self.skip(":")
            name = key.value if isinstance(key, Scalar) else "?"
            entries.append(Entry(name, self.node(place.below(name, at)), at))
            self.skip(",")
        self.at += 1
        return self.mapping(entries, line, place)

    def array(self, place, line):
        """Returns an array."""
        items = []
        self.skip("[")
        while self.text_read[self.at] != "]":
            items.append(self.node(place.below(len(items), self.line())))
            self.skip(",")
        self.at += 1
        return Sequence(items, line)

    def string(self, place, line):
        """Returns a string."""
        text, self.at = scanstring(self.text_read, self.at + 1, True)
        return self.text(text, place, line)

    def word(self, place, line):
        """Returns a number, a truth or nothing."""
        number = NUMBER.match(self.text_read, self.at)
        word = number.group() if number else next(it for it in self.WORDS if self.text_read.startswith(it, self.at))
        self.at += len(word)
        return Scalar(json.loads(word) if number else self.WORDS[word], line)
