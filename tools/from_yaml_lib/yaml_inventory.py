"""Reads inventories in Ansible's form of YAML, and the output of ansible-inventory --list."""
from from_yaml_lib.hosts import BadPattern, hosts_in
from from_yaml_lib.ini import set_priority
from from_yaml_lib.inventories import PRIORITY, Inventory
from from_yaml_lib.nodes import Entry, Mapping, Scalar, Sequence, is_null, is_text, wrong
from from_yaml_lib.reading import read_file
from from_yaml_lib.values import convert, look_at_port, look_at_variable, text_of, unread_of, value_of, variables_of

# What ansible-inventory writes in place of a text that is encrypted, or no template.
MARKED = {"__ansible_vault": "it is encrypted with ansible-vault: decrypt it", "__ansible_unsafe": "there are no texts that are no templates"}


def inventory_of(node, place):
    """Returns the inventory that a mapping of groups is."""
    inventory = Inventory(place)
    if not isinstance(node, Mapping):
        wrong(node, place, "an inventory has to be a mapping of groups")
    elif node.get("plugin"):
        place.below("plugin", node.get("plugin").line).refuse("plugins aren't run: write `ansible-inventory --list` to a file, and give that with --list")
    elif node.get("_meta"):
        place.below("_meta", node.get("_meta").line).refuse("it looks like the output of ansible-inventory --list: give it with --list")
    else:
        for entry, below in node.places(place):
            add_group(inventory, entry, below)
    return inventory


def add_group(inventory, entry, place):
    """Adds a group with all that stands in it."""
    group = inventory.group(entry.key, place)
    if is_null(entry.node):
        return
    if not isinstance(entry.node, Mapping):
        wrong(entry.node, place, "a group has to be a mapping")
        return
    readers = {"hosts": add_hosts, "vars": add_variables, "children": add_children}
    for part, below in entry.node.places(place):
        reader = readers.get(part.key)
        if reader is None:
            below.refuse("a group has `hosts`, `vars` and `children` alone")
        else:
            reader(inventory, group, part.node, below)


def mapping_at(node, place):
    """Returns a mapping; a single name may stand in its place."""
    if is_text(node):
        return Mapping([Entry(node.value, Scalar(None, node.line), node.line)], node.line)
    if isinstance(node, Mapping):
        return node
    if not is_null(node):
        wrong(node, place, "it has to be a mapping")
    return Mapping([], node.line)


def add_hosts(inventory, group, node, place):
    """Adds the hosts of a group."""
    for entry, below in mapping_at(node, place).places(place):
        variables = variables_of(entry.node, below)
        try:
            names, port = hosts_in(entry.key)
        except BadPattern as error:
            below.refuse(str(error))
            continue
        look_at_port(port, below)
        for name in names:
            inventory.add_host(name, group, port).update(variables or {})


def add_variables(_inventory, group, node, place):
    """Adds the variables of a group."""
    if not isinstance(node, Mapping) and not is_null(node):
        wrong(node, place, "it has to be a mapping of variables")
    for entry, below in node.places(place) if isinstance(node, Mapping) else []:
        if entry.key == PRIORITY:
            set_priority(group, entry.node, below)
        else:
            look_at_variable(entry.node, below)
            group.layers[0][entry.key] = value_of(entry.node, below)


def add_children(inventory, group, node, place):
    """Adds the children of a group."""
    for entry, below in mapping_at(node, place).places(place):
        add_group(inventory, entry, below)
        group.children[entry.key] = None


def names_of(node, place):
    """Returns a list of names."""
    if not isinstance(node, Sequence):
        return wrong(node, place, "it has to be a list of names")
    return [text_of(it, below) for it, below in node.places(place)]


def refuse_marked(node, place):
    """Refuses the forms that ansible-inventory gives to values that are no plain ones."""
    if isinstance(node, Mapping):
        for entry, below in node.places(place):
            if entry.key in MARKED:
                below.refuse(MARKED[entry.key])
            refuse_marked(entry.node, below)
    for it, below in node.places(place) if isinstance(node, Sequence) else []:
        refuse_marked(it, below)


def refuse_part(_node, place):
    """Refuses a key of a group."""
    place.refuse("a group has `hosts`, `vars` and `children` alone")


def listed_group(node, place):
    """Returns a group of the list: its hosts, or a mapping with them."""
    if isinstance(node, Sequence):
        return names_of(node, place)
    if not isinstance(node, Mapping):
        return wrong(node, place, "a group has to be a mapping or a list of hosts")
    return convert(node, place, {"hosts": names_of, "children": names_of, "vars": variables_of}, refuse_part)


def listed_meta(node, place):
    """Returns what stands at `_meta`; only the variables of hosts are looked into."""
    if not isinstance(node, Mapping):
        return wrong(node, place, "it has to be a mapping")
    return convert(node, place, {"hostvars": listed_hostvars}, unread_of)


def listed_hostvars(node, place):
    """Returns the variables of hosts."""
    if not isinstance(node, Mapping):
        return wrong(node, place, "it has to be a mapping from hosts to their variables")
    return convert(node, place, {}, variables_of)


def read_list(path, refusals):
    """Returns what ansible-inventory --list wrote to a file, which is the form that pb-play reads."""
    node, place = read_file(path, refusals)
    if not isinstance(node, Mapping):
        return wrong(node, place, "the output of ansible-inventory --list has to be a mapping")
    refuse_marked(node, place)
    return convert(node, place, {"_meta": listed_meta}, listed_group)

