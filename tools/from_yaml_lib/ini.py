"""Reads inventories in Ansible's form of INI."""
import ast
import re
import shlex
import warnings

from from_yaml_lib.hosts import BadPattern, hosts_in
from from_yaml_lib.inventories import PRIORITY, UNGROUPED, Inventory
from from_yaml_lib.nodes import Entry, Mapping, Place, Refused, Scalar, Sequence
from from_yaml_lib.reading import text_in
from from_yaml_lib.values import look_at_port, look_at_variable, value_of, whole_of

SECTION = re.compile(r"\[([^:\]\s]+)(?::(\w+))?\]\s*(?:#.*)?")
CHILD = re.compile(r"([^:\]\s]+)\s*(?:#.*)?")


def python_value(text):
    """Returns what a text means as a literal of Python, or the text itself where it is none."""
    try:
        with warnings.catch_warnings():
            warnings.simplefilter("ignore")
            return ast.literal_eval(text)
    except (ValueError, SyntaxError):
        return text


def literal_node(value, line, place):
    """Returns a node for a literal of Python."""
    if isinstance(value, dict):
        for key in value:
            if not isinstance(key, str):
                place.refuse(f"a key has to be a text, and {key!r} is none")
        return Mapping([Entry(str(key), literal_node(it, line, place), line) for key, it in value.items()], line)
    if isinstance(value, list):
        return Sequence([literal_node(it, line, place) for it in value], line)
    if value is None or isinstance(value, (bool, int, float, str)):
        return Scalar(value, line)
    place.refuse(f"{value!r} is no value of JSON")
    return Refused(line)


def value_in(text, place):
    """Returns the value that a text of an INI file stands for: a literal of Python, or else the text."""
    try:
        value = python_value(text)
    except (MemoryError, RecursionError):
        return place.refuse("it is nested too deep")
    node = literal_node(value, place.line, place)
    look_at_variable(node, place)
    return value_of(node, place)


class IniReader:
    """Reads an inventory line by line."""

    def __init__(self, place):
        self.place = place
        self.inventory = Inventory(place)
        self.group = self.inventory.groups[UNGROUPED]
        self.kind = "hosts"
        # The groups that are only named so far, each with the place where that is.
        self.undeclared = {}

    def read(self, text):
        """Reads all lines, and returns the inventory."""
        for number, line in enumerate(text.split("\n"), 1):
            line = line.strip()
            if line and line[0] not in "#;":
                self.line(line, self.place.below(line.split()[0], number))
        for name, place in self.undeclared.items():
            place.refuse(f"there is no group `{name}`")
        for group in self.inventory.groups.values():
            group.children = {it: None for it in group.children if it in self.inventory.groups}
        return self.inventory

    def line(self, line, place):
        """Reads a line, which begins a section or stands in one."""
        section = SECTION.fullmatch(line)
        if section:
            self.section(section.group(1), section.group(2) or "hosts", place)
        elif line.startswith("[") and line.endswith("]"):
            place.refuse("it is no section: [GROUP], [GROUP:vars] or [GROUP:children]")
        else:
            {"hosts": self.host, "vars": self.variable, "children": self.child}[self.kind](line, place)

    def section(self, name, kind, place):
        """Begins a section."""
        if kind not in ("hosts", "vars", "children"):
            place.refuse(f"there is no section of the kind `{kind}`")
            kind = "vars"
        if kind != "vars":
            self.undeclared.pop(name, None)
        elif name not in self.inventory.groups:
            self.undeclared.setdefault(name, place)
        self.group, self.kind = self.inventory.group(name, place), kind

    def host(self, line, place):
        """Reads a line of hosts: a pattern, and variables of each host that it spells."""
        try:
            words = shlex.split(line, comments=True)
            names, port = hosts_in(words[0])
        except (BadPattern, ValueError) as error:
            return place.refuse(str(error))
        variables = {}
        for word in words[1:]:
            name, equals, text = word.partition("=")
            if not equals:
                place.refuse(f"`{word}` isn't NAME=VALUE")
            elif name in variables:
                place.refuse(f"`{name}` stands twice in the line")
            else:
                variables[name] = value_in(text, place.below(name, place.line))
        look_at_port(port, place)
        for name in names:
            self.inventory.add_host(name, self.group, port).update(variables)
        return None

    def variable(self, line, place):
        """Reads a variable of a group."""
        name, equals, text = (it.strip() for it in line.partition("="))
        below = self.place.below(self.group.name, place.line).below(name, place.line)
        if not equals:
            return place.refuse(f"`{line}` isn't NAME=VALUE")
        if name == PRIORITY:
            return set_priority(self.group, Scalar(python_value(text), place.line), below)
        if name in self.group.layers[0]:
            below.refuse("the variable stands twice at its group")
        self.group.layers[0][name] = value_in(text, below)
        return None

    def child(self, line, place):
        """Reads the name of a child of a group."""
        found = CHILD.fullmatch(line)
        if not found:
            return place.refuse("it is no name of a group")
        name = found.group(1)
        if name not in self.inventory.groups:
            self.undeclared.setdefault(name, place)
        self.group.children[name] = None
        return None


def set_priority(group, node, place):
    """Sets the priority of a group."""
    number = whole_of(node)
    if number is None:
        place.refuse("it has to be a whole number")
    else:
        group.priority = number


def read_ini(path, refusals):
    """Returns the inventory in a file of INI, or None where it can't be read."""
    place = Place.whole(refusals, path)
    text = text_in(path, place)
    return None if text is None else IniReader(place).read(text)
