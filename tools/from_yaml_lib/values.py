"""Turns nodes into the values, texts, switches and conditions that the profile has."""
import math
import re

from from_yaml_lib.nodes import Mapping, Refused, Scalar, Sequence, is_null, is_text, wrong

NAME = re.compile(r"[A-Za-z_][A-Za-z0-9_]*")
# Variables by which Ansible reaches a host and starts programs there.
OF_CONNECTION = re.compile(r"ansible_(?:host|port|user|password|connection|timeout|\w+_interpreter|(?:become|ssh|shell|remote|winrm|paramiko|docker)_\w+)")
# What Ansible takes for true and false, in small letters.
TRUE = ("yes", "on", "true", "y", "t", "1")
FALSE = ("no", "off", "false", "n", "f", "0")
NOTHING = "nothing stands after it: leave the key out, or write what it is to be"
TEMPLATE = "a template isn't supported here: write the value itself"


def convert(node, place, keys, other):
    """Returns a dict of a mapping's entries, each converted by the function for its key, or else by `other`."""
    found = {}
    for entry, below in node.places(place):
        found[entry.key] = keys.get(entry.key, other)(entry.node, below)
    return found


def not_known(_node, place):
    """Refuses a key that the profile doesn't have."""
    place.refuse("the profile has no such key here")


def shown(node):
    """Says what kind of node it is."""
    if isinstance(node, (Mapping, Sequence)):
        return "a mapping" if isinstance(node, Mapping) else "a list"
    if node.value is None:
        return "nothing"
    return "a truth" if isinstance(node.value, bool) else "a text" if isinstance(node.value, str) else "a number"


def has_template(node):
    """Tells whether the node is a text with a template in it."""
    return is_text(node) and "{{" in node.value


def value_of(node, place):
    """Returns a value of the profile: its numbers are whole, and have 64 bits."""
    if isinstance(node, Mapping):
        return {entry.key: value_of(entry.node, below) for entry, below in node.places(place)}
    if isinstance(node, Sequence):
        return [value_of(it, below) for it, below in node.places(place)]
    if isinstance(node, Refused):
        return None
    if isinstance(node.value, float):
        return place.refuse(f"a number that isn't whole is no value: write it as a text, \"{node.value}\"")
    if isinstance(node.value, int) and not -(2**63) <= node.value < 2**63:
        return place.refuse(f"a number beyond 64 bits is no value: write it as a text, \"{node.value}\"")
    return node.value


def unread_of(node, place):
    """Returns what the program doesn't look into, as JSON: its numbers need not be whole."""
    if isinstance(node, Mapping):
        return {entry.key: unread_of(entry.node, below) for entry, below in node.places(place)}
    if isinstance(node, Sequence):
        return [unread_of(it, below) for it, below in node.places(place)]
    if isinstance(node, Scalar) and isinstance(node.value, float) and not math.isfinite(node.value):
        return place.refuse("it is no number of JSON")
    return node.value if isinstance(node, Scalar) else None


def text_of(node, place):
    """Returns a text; numbers and truths are written as Ansible writes them where it wants a text."""
    if is_null(node):
        return wrong(node, place, NOTHING)
    if not isinstance(node, Scalar):
        return wrong(node, place, "it has to be a text")
    return str(node.value)


def texts_of(node, place):
    """Returns a text, or a list of texts."""
    if isinstance(node, Sequence):
        return [text_of(it, below) for it, below in node.places(place)]
    if isinstance(node, Mapping):
        return wrong(node, place, "it has to be a text or a list of texts")
    return text_of(node, place)


def name_of(node, place):
    """Returns the name of a variable."""
    if is_text(node) and NAME.fullmatch(node.value):
        return node.value
    return wrong(node, place, "it has to be the name of a variable: letters, digits and `_`")


def switch_of(node, place):
    """Returns true or false for what Ansible takes as such."""
    if has_template(node):
        return place.refuse(TEMPLATE)
    if is_null(node):
        return wrong(node, place, NOTHING)
    spelled = str(node.value).strip().lower() if isinstance(node, Scalar) and not isinstance(node.value, float) else ""
    if spelled in TRUE or spelled in FALSE:
        return spelled in TRUE
    return wrong(node, place, "it has to be true or false")


def whole_of(node):
    """Returns the whole number that a node is, also one in a text, or None."""
    if isinstance(node, Scalar) and isinstance(node.value, int) and not isinstance(node.value, bool):
        return node.value
    return int(node.value) if is_text(node) and re.fullmatch(r"[0-9]{1,18}", node.value) else None


def count_of(node, place):
    """Returns a whole number that isn't below 0."""
    number = whole_of(node)
    if number is not None and 0 <= number < 2**63:
        return number
    return wrong(node, place, TEMPLATE if has_template(node) else "it has to be a whole number, 0 or more")


def up_to(most):
    """Returns the reader of a whole number from 0 to the most."""

    def whole_up_to(node, place):
        number = whole_of(node)
        if number is not None and 0 <= number <= most:
            return number
        return wrong(node, place, TEMPLATE if has_template(node) else f"it has to be a whole number from 0 to {most}")

    return whole_up_to


def percentage_of(node, place):
    """Returns a whole number from 0 to 100, which may have been a text with a `%`."""
    bare = Scalar(node.value.strip().removesuffix("%"), node.line) if is_text(node) else node
    number = whole_of(bare)
    if number is not None and 0 <= number <= 100:
        return number
    return wrong(node, place, TEMPLATE if has_template(node) else "it has to be a whole number from 0 to 100")


def condition_of(node, place):
    """Returns one condition: true, false or an expression."""
    if isinstance(node, Scalar) and isinstance(node.value, (bool, str)):
        return node.value
    if whole_of(node) is not None:
        return str(node.value)
    return wrong(node, place, "a condition is true, false or an expression in a text")


def conditions_of(node, place):
    """Returns one condition, or a list of them."""
    if isinstance(node, Sequence):
        return [condition_of(it, below) for it, below in node.places(place)]
    return condition_of(node, place)


def variables_of(node, place):
    """Returns the variables that a mapping has; nothing is none."""
    if is_null(node):
        return {}
    if not isinstance(node, Mapping):
        return wrong(node, place, "it has to be a mapping of variables")
    for entry, below in node.places(place):
        look_at_variable(entry.node, below)
    return value_of(node, place)


def look_at_variable(node, place):
    """Looks at a variable that has a meaning of its own to Ansible: what it asks for is refused or noted, since it is none here."""
    name = place.step
    if name == "ansible_become" and (has_template(node) or not isinstance(node, Scalar) or str(node.value).strip().lower() not in FALSE):
        place.refuse("programs run as the user of pb-play: write `sudo -n` in front of the command")
    elif OF_CONNECTION.fullmatch(name) and not (name == "ansible_connection" and is_text(node) and node.value == "local"):
        place.note(f"{name} is a variable like all others, without effect: `pb_connector` says how a host is reached")


def look_at_port(port, place):
    """Looks at a port after the name of a host, which sets a variable."""
    if port is not None:
        look_at_variable(Scalar(port, place.line), place.below("ansible_port", place.line))


def off_of(node, place):
    """Returns false for a switch that has to be off."""
    if switch_of(node, place):
        place.refuse("it has to be off: what a task shows can't be hidden")
    return False


def local_of(node, place):
    """Returns the one connection that there is."""
    if is_text(node) and node.value in ("local", "ansible.builtin.local"):
        return "local"
    return wrong(node, place, "`local` is the only connection here: see `pb_connector` for others")


def tags_of(node, place):
    """Returns tags, which have no effect; the tag that keeps a task from running is refused."""
    texts = [(node, place)] if is_text(node) else node.places(place) if isinstance(node, Sequence) else []
    for it, below in texts:
        if is_text(it) and "never" in [tag.strip() for tag in it.value.split(",")]:
            below.refuse("the tag `never` isn't supported: tags have no effect here")
    return unread_of(node, place)


# The keys that stand without effect on plays, blocks, tasks and `meta`.
NO_EFFECT = {"remote_user": unread_of, "gather_subset": unread_of, "connection": local_of, "no_log": off_of, "tags": tags_of}
