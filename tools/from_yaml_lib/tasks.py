"""Turns tasks, handlers, blocks and `meta` tasks into JSON."""
from from_yaml_lib.hints import bare, hint, refuse_key
from from_yaml_lib.loops import loop_control_of, loop_of, with_items_of, with_list_of
from from_yaml_lib.modules import MODULES, module_of
from from_yaml_lib.nodes import Mapping, Scalar, Sequence, is_null, is_text, wrong
from from_yaml_lib.values import (
    NO_EFFECT,
    conditions_of,
    convert,
    count_of,
    name_of,
    switch_of,
    text_of,
    texts_of,
    up_to,
    variables_of,
)
from from_yaml_lib.words import split

META_WORDS = ("noop", "end_host", "flush_handlers")
META_KEYS = {"name": text_of, "when": conditions_of, **NO_EFFECT}
SHARED_KEYS = {
    **META_KEYS,
    "vars": variables_of,
    "ignore_errors": switch_of,
    "any_errors_fatal": switch_of,
    "run_once": switch_of,
    "delegate_facts": switch_of,
    "throttle": count_of,
    "delegate_to": text_of,
}
TASK_KEYS = {
    **SHARED_KEYS,
    "changed_when": conditions_of,
    "failed_when": conditions_of,
    "loop": loop_of,
    "loop_control": loop_control_of,
    "register": name_of,
    "notify": texts_of,
    "until": conditions_of,
    "retries": up_to(100),
    "delay": up_to(3600),
}
HANDLER_KEYS = {**TASK_KEYS, "listen": texts_of}
# Keys that are turned into another one.
LOOPS = {"with_items": with_items_of, "with_list": with_list_of}
ACTIONS = ("action", "local_action")
# What may be tried more than once.
PROGRAMS = ("command", "shell")


def nodes_of(node, place):
    """Returns a list of tasks, blocks and `meta` tasks."""
    if not isinstance(node, Sequence):
        return wrong(node, place, "it has to be a list of tasks")
    return [node_of(it, below) for it, below in node.places(place)]


def nodes_or_none(node, place):
    """Returns a list of tasks, blocks and `meta` tasks, where nothing is an empty one."""
    return [] if is_null(node) else nodes_of(node, place)


def handlers_of(node, place):
    """Returns a list of handlers, where nothing is an empty one."""
    if is_null(node):
        return []
    if not isinstance(node, Sequence):
        return wrong(node, place, "it has to be a list of handlers")
    return [handler_of(it, below) for it, below in node.places(place)]


def node_of(node, place):
    """Returns a task, a block or a `meta` task, as its keys tell."""
    if not isinstance(node, Mapping):
        return wrong(node, place, "a task has to be a mapping")
    if node.get("block"):
        return convert(node, place, BLOCK_KEYS, refuse_key)
    if any(bare(it) == "meta" for it in node.keys()):
        return meta_of(node, place)
    return Task(node, place, TASK_KEYS).converted()


def handler_of(node, place):
    """Returns a handler, which is a task."""
    if not isinstance(node, Mapping):
        return wrong(node, place, "a handler has to be a mapping")
    for entry, below in node.places(place):
        if entry.key in ("block", "rescue", "always") or bare(entry.key) == "meta":
            return below.refuse("it isn't supported among handlers: write a handler for each task, which listen to one topic")
    return Task(node, place, HANDLER_KEYS).converted()


BLOCK_KEYS = {**SHARED_KEYS, "block": nodes_of, "rescue": nodes_of, "always": nodes_of}


def meta_word(node, place):
    """Returns the word at `meta`."""
    if is_text(node) and node.value.strip() in META_WORDS:
        return node.value.strip()
    return wrong(node, place, "the only words of `meta` here are " + ", ".join(f"`{it}`" for it in META_WORDS))


def meta_of(node, place):
    """Returns a `meta` task."""
    found, word = {}, None
    for entry, below in node.places(place):
        if bare(entry.key) != "meta":
            found[entry.key] = META_KEYS.get(entry.key, refuse_key)(entry.node, below)
        elif "meta" in found:
            below.refuse("there is a second module in the task")
        else:
            found["meta"] = word = meta_word(entry.node, below)
    if word == "flush_handlers" and node.get("when"):
        place.below("when", node.get("when").line).refuse("it isn't supported beside `flush_handlers`")
    return found


class Task:
    """One task, while its keys are turned into JSON."""

    def __init__(self, node, place, keys):
        self.node = node
        self.place = place
        self.keys = keys
        self.found = {}
        self.module = None
        self.has_unknown = False
        self.more = self.more_arguments()

    def converted(self):
        """Returns the task."""
        for entry, below in self.node.places(self.place):
            if entry.key in self.keys:
                self.put(entry.key, self.keys[entry.key](entry.node, below), below)
            elif entry.key in LOOPS:
                self.put("loop", LOOPS[entry.key](entry.node, below), below)
            elif entry.key in ACTIONS:
                self.action(entry, below)
            elif bare(entry.key) in MODULES:
                self.put_module(bare(entry.key), entry.node, below)
            elif entry.key != "args":
                self.has_unknown = True
                below.refuse(hint(entry.key))
        if self.module is None and not self.has_unknown:
            self.place.refuse("there is no module in the task")
        if self.module is not None and self.module not in PROGRAMS:
            self.refuse_retries()
        return self.found

    def refuse_retries(self):
        """Refuses the keys by which a task is tried more than once; a delay alone has no effect."""
        for key in ("until", "retries"):
            entry = self.node.get(key)
            if entry is not None:
                self.place.below(key, entry.line).refuse(hint(key))

    def put(self, key, value, place):
        """Puts what a key holds, unless another key was turned into the same one."""
        if key in self.found:
            place.refuse(f"there is a second `{key}` in the task")
        self.found[key] = value

    def more_arguments(self):
        """Returns the arguments that stand at `args`, or None."""
        entry = self.node.get("args")
        if entry is None or is_null(entry.node):
            return None
        if isinstance(entry.node, Mapping):
            return entry.node
        return wrong(entry.node, self.place.below("args", entry.line), "it has to be a mapping of arguments")

    def put_module(self, name, node, place):
        """Puts a module with its arguments."""
        if self.module is not None:
            return place.refuse(f"there is a second module in the task, beside `{self.module}`")
        self.module = name
        self.found[name] = module_of(name, node, place, self.more)
        return None

    def action(self, entry, place):
        """Puts the module that stands at `action` or `local_action`, by which it runs here."""
        named = module_in_mapping(entry.node, place) if isinstance(entry.node, Mapping) else module_in_text(entry.node, place)
        if named is None:
            self.has_unknown = True
        elif bare(named[0]) not in MODULES:
            self.has_unknown = True
            place.refuse(f"`{named[0]}`: " + hint(named[0]))
        else:
            self.put_module(bare(named[0]), named[1], place)
        if entry.key == "local_action":
            self.put("delegate_to", "localhost", place)


def module_in_text(node, place):
    """Returns the module that a text begins with, and the rest of the text as a node."""
    words = split(node.value, " \n") if is_text(node) else None
    if not words or "\n" in node.value.strip():
        return wrong(node, place, "it has to be one line, a module and its arguments, or a mapping with `module`")
    rest = node.value.strip().removeprefix(words[0]).strip(" ")
    return words[0], Scalar(rest or None, node.line)


def module_in_mapping(node, place):
    """Returns the module that a mapping has at `module`, and its other keys as a node."""
    entry = node.get("module")
    if entry is None or not is_text(entry.node):
        return place.refuse("it has to have a module's name at `module`")
    rest = [it for it in node.entries if it is not entry]
    return entry.node.value.strip(), Mapping(rest, node.line)
