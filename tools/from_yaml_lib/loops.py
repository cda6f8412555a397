"""Turns the loops of a task into `loop`."""
from from_yaml_lib.hints import refuse_key
from from_yaml_lib.nodes import Mapping, Scalar, Sequence, is_null, is_text, wrong
from from_yaml_lib.values import NOTHING, convert, has_template, name_of, unread_of, value_of


def loop_of(node, place):
    """Returns a list, or a text that gives one when the task starts."""
    if isinstance(node, Sequence) or is_text(node):
        return value_of(node, place)
    return wrong(node, place, "it has to be a list, or a text that gives one")


def loop_control_of(node, place):
    """Returns what says how a loop goes."""
    if not isinstance(node, Mapping):
        return wrong(node, place, "it has to be a mapping")
    return convert(node, place, {"loop_var": name_of, "label": unread_of}, refuse_key)


def with_list_of(node, place):
    """Returns the loop for with_list, which is the same."""
    return loop_of(node, place)


def may_be_list(node):
    """Tells whether a node is a text that is one template, whose value may be a list."""
    text = node.value.strip() if has_template(node) else ""
    return text.startswith("{{") and text.endswith("}}") and "{{" not in text[2:]


def with_items_of(node, place):
    """Returns the loop for with_items, which takes the members of lists within its list in their place."""
    if is_null(node):
        return wrong(node, place, NOTHING)
    if isinstance(node, Mapping):
        return place.refuse("it has to be a list")
    if not isinstance(node, Sequence):
        bare = Scalar(node.value.strip(), node.line) if is_text(node) else node
        return [one_item(bare, place)]
    items = []
    for it, below in node.places(place):
        items += value_of(it, below) if isinstance(it, Sequence) else [one_item(it, below)]
    return items


def one_item(node, place):
    """Returns a member of the list at with_items, which must not be a list by its value."""
    if may_be_list(node):
        return place.refuse("its value may be a list, whose members with_items takes in its place: write `loop`, which takes items as they are")
    return value_of(node, place)
