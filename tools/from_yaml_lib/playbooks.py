"""Turns playbooks, and what stands in the files of roles, into JSON."""
import re

from from_yaml_lib.hints import bare, hint, refuse_key
from from_yaml_lib.nodes import Mapping, Refused, Scalar, Sequence, is_null, is_text, wrong
from from_yaml_lib.tasks import handlers_of, nodes_or_none
from from_yaml_lib.values import (
    NO_EFFECT,
    TEMPLATE,
    conditions_of,
    convert,
    has_template,
    look_at_variable,
    not_known,
    percentage_of,
    switch_of,
    tags_of,
    text_of,
    unread_of,
    value_of,
    variables_of,
)

SIZE = re.compile(r"[0-9]{1,9}%?")
# What would be a keyword of Ansible at a role entry, and no parameter of the role.
NOT_AT_ROLES = """any_errors_fatal async become become_exe become_flags become_method become_user check_mode collections
    connection debugger delegate_facts delegate_to diff environment ignore_errors ignore_unreachable module_defaults no_log
    poll port remote_user run_once throttle timeout""".split()


def patterns_of(node, place):
    """Returns the pattern at `hosts`: a text, or a list of texts."""
    if isinstance(node, Sequence):
        return [pattern_of(it, below) for it, below in node.places(place)]
    return pattern_of(node, place)


def pattern_of(node, place):
    """Returns the text of a pattern."""
    return place.refuse(TEMPLATE) if has_template(node) else text_of(node, place)


def serial_of(node, place):
    """Returns the sizes of batches: one, or a list of them."""
    if isinstance(node, Sequence):
        return [size_of(it, below) for it, below in node.places(place)]
    return size_of(node, place)


def size_of(node, place):
    """Returns the size of a batch: a number, or a percentage."""
    if isinstance(node, Scalar) and isinstance(node.value, int) and not isinstance(node.value, bool):
        return value_of(node, place)
    if is_text(node) and SIZE.fullmatch(node.value.strip()):
        return node.value.strip()
    return wrong(node, place, TEMPLATE if has_template(node) else "it has to be a whole number, or a text with a number and `%`")


def strategy_of(node, place):
    """Returns the name of a strategy."""
    name = bare(node.value) if is_text(node) else None
    if name in ("linear", "free", "host_pinned"):
        return name
    return wrong(node, place, "it has to be `linear`, `free` or `host_pinned`")


def role_entries_of(node, place):
    """Returns the entries of roles, where nothing is none."""
    if is_null(node):
        return []
    if not isinstance(node, Sequence):
        return wrong(node, place, "it has to be a list of roles")
    return [role_entry_of(it, below) for it, below in node.places(place)]


def role_name_of(node, place):
    """Returns the name of a role, which is that of its folder."""
    name = place.refuse(TEMPLATE) if has_template(node) else text_of(node, place)
    if name is not None and ("/" in name or "," in name):
        place.refuse("a role's name is that of its folder at --roles: no path and no version")
    return name


def role_entry_of(node, place):
    """Returns an entry of a role: its name, or a mapping with it."""
    if not isinstance(node, Mapping):
        return role_name_of(node, place)
    if bool(node.get("role")) == bool(node.get("name")):
        place.refuse("a role's entry has to have its name at `role` or `name`, and not at both")
    keys = {"role": role_name_of, "name": role_name_of, "vars": variables_of, "when": conditions_of, "tags": tags_of_entry}
    refused = {it: refuse_at_role for it in NOT_AT_ROLES}
    return convert(node, place, {**refused, **keys}, parameter_of)


def tags_of_entry(node, place):
    """Returns the tags of a role's entry, which are a value there."""
    tags_of(node, place)
    return value_of(node, place)


def parameter_of(node, place):
    """Returns the value of a parameter of a role."""
    look_at_variable(node, place)
    return value_of(node, place)


def refuse_at_role(node, place):
    """Refuses a key at a role's entry that is no parameter of the role."""
    place.refuse("it isn't supported at a role's entry: write it at the role's tasks")


PLAY_KEYS = {
    **NO_EFFECT,
    "hosts": patterns_of,
    "name": text_of,
    "gather_facts": switch_of,
    "vars": variables_of,
    "ignore_errors": switch_of,
    "pre_tasks": nodes_or_none,
    "roles": role_entries_of,
    "tasks": nodes_or_none,
    "post_tasks": nodes_or_none,
    "handlers": handlers_of,
    "force_handlers": switch_of,
    "any_errors_fatal": switch_of,
    "max_fail_percentage": percentage_of,
    "serial": serial_of,
    "strategy": strategy_of,
}


def playbook_of(node, place):
    """Returns a playbook, which is a list of plays."""
    if not isinstance(node, Sequence):
        return wrong(node, place, "a playbook has to be a list of plays")
    return [play_of(it, below) for it, below in node.places(place)]


def play_of(node, place):
    """Returns a play."""
    if not isinstance(node, Mapping):
        return wrong(node, place, "a play has to be a mapping")
    imports = [below for entry, below in node.places(place) if bare(entry.key) == "import_playbook"]
    if imports:
        return imports[0].refuse(hint("import_playbook"))
    if not node.get("hosts"):
        place.lacks("hosts")
    return convert(node, place, PLAY_KEYS, refuse_key)


def meta_file_of(node, place):
    """Returns what a role says of itself."""
    if is_null(node):
        return {}
    if not isinstance(node, Mapping):
        return wrong(node, place, "it has to be a mapping")
    keys = {"dependencies": role_entries_of, "allow_duplicates": switch_of, "galaxy_info": unread_of}
    return convert(node, place, keys, not_known)


# What stands in the folders of a role.
FOLDERS = {"defaults": variables_of, "handlers": handlers_of, "meta": meta_file_of, "tasks": nodes_or_none, "vars": variables_of}


def names_of_hosts(node):
    """Returns the patterns at `hosts` of each play, with the lines where they stand."""
    plays = node.items if isinstance(node, Sequence) else []
    found = [it.get("hosts").node for it in plays if isinstance(it, Mapping) and it.get("hosts")]
    texts = [it for node in found for it in (node.items if isinstance(node, Sequence) else [node])]
    return [it for it in texts if is_text(it) and not isinstance(it, Refused)]
