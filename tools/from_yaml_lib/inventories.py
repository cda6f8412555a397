"""The groups and hosts of an inventory with their variables, and what Ansible makes of these."""
from dataclasses import dataclass, field

from from_yaml_lib.nodes import Place

PRIORITY = "ansible_group_priority"
ALL, UNGROUPED, META = "all", "ungrouped", "_meta"


@dataclass
class Group:
    """A group; the layers are its variables in the inventory, beside the inventory and beside the playbook."""

    name: str
    place: Place
    hosts: dict = field(default_factory=dict)
    children: dict = field(default_factory=dict)
    layers: list = field(default_factory=lambda: [{}, {}, {}])
    priority: int = 1

    def variables(self):
        """Returns the variables of all layers, of which a later one stands over those before it."""
        return {name: value for layer in self.layers for name, value in layer.items()}


@dataclass
class Inventory:
    """Groups by name, and the variables of hosts by name, both in the order of the file."""

    place: Place
    groups: dict = field(default_factory=dict)
    hosts: dict = field(default_factory=dict)

    def __post_init__(self):
        self.group(ALL, self.place)
        self.group(UNGROUPED, self.place)

    def group(self, name, place):
        """Returns the group of that name, which is made where it isn't there; its place is where the file first names it."""
        group = self.groups.setdefault(name, Group(name, place))
        if group.place.above is None:
            group.place = place
        return group

    def add_host(self, name, group, port=None):
        """Puts a host into a group, and returns its variables."""
        group.hosts[name] = None
        if name not in self.hosts:
            self.hosts[name] = {} if port is None else {"ansible_port": port}
        return self.hosts[name]

    def top(self):
        """Returns the names of the children of `all`: those that it names, and those that are nobody's child."""
        named = {it for group in self.groups.values() for it in group.children}
        lone = [it for it in self.groups if it not in named and it not in (ALL, UNGROUPED)]
        return list(dict.fromkeys([UNGROUPED, *self.groups[ALL].children, *lone]))

    def children_of(self, name):
        """Returns the names of the children of a group, by which all groups lie under `all`."""
        return self.top() if name == ALL else list(self.groups[name].children)

    def members_of_ungrouped(self):
        """Returns the hosts that are in no group but `all` and `ungrouped`."""
        grouped = {host for it in self.groups.values() if it.name not in (ALL, UNGROUPED) for host in it.hosts}
        return [it for it in [*self.groups[UNGROUPED].hosts, *self.hosts] if it not in grouped]

    def in_order(self):
        """Returns the hosts in Ansible's order: those of `all`, of its children, of their children, and so on."""
        names, seen = [ALL], {ALL}
        for name in names:
            for child in self.children_of(name):
                if child not in seen:
                    seen.add(child)
                    names.append(child)
        hosts = [host for it in names for host in (self.members_of_ungrouped() if it == UNGROUPED else self.groups[it].hosts)]
        return list(dict.fromkeys(hosts))

    def depths(self):
        """Returns the depth of each group: the longest way to it from `all`. There is no circle."""
        depths, waiting = {ALL: 0}, [ALL]
        while waiting:
            name = waiting.pop()
            for child in self.children_of(name):
                if depths.get(child, -1) < depths[name] + 1:
                    depths[child] = depths[name] + 1
                    waiting.append(child)
        return depths

    def groups_of_hosts(self):
        """Returns the groups of each host, in the order in which their variables merge."""
        depths = self.depths()
        groups = sorted(self.groups.values(), key=lambda it: (depths[it.name], it.priority, it.name.encode()))
        members = {}
        for group in sorted(groups, key=lambda it: -depths[it.name]):
            own = self.members_of_ungrouped() if group.name == UNGROUPED else self.hosts if group.name == ALL else group.hosts
            below = [members[it] for it in self.children_of(group.name)]
            members[group.name] = set(own).union(*below)
        return {host: [it for it in groups if host in members[it.name]] for host in self.hosts}


def circle_in(inventory):
    """Returns a group that is its own child at some depth, or None."""
    left = {it.name: list(it.children) for it in inventory.groups.values()}
    while ends := [name for name, children in left.items() if not any(it in left for it in children)]:
        for name in ends:
            del left[name]
    name, seen = next(iter(left), None), set()
    while name is not None and name not in seen:
        seen.add(name)
        name = next(it for it in left[name] if it in left)
    return name


def refuse_shapes(inventory):
    """Refuses what stands otherwise in pb-play's inventory than in this one."""
    circle = circle_in(inventory)
    if circle is not None:
        return inventory.groups[circle].place.refuse("the group is its own child")
    if META in inventory.groups:
        inventory.groups[META].place.refuse(f"a group can't have the name `{META}`")
    for group in inventory.groups.values():
        if ALL in group.children:
            group.place.refuse("`all` can't be a child")
        if UNGROUPED in group.children and group.name != ALL:
            group.place.refuse("`ungrouped` can only be a child of `all`")
    if inventory.groups[UNGROUPED].children:
        inventory.groups[UNGROUPED].place.refuse("`ungrouped` can't have children")
    return refuse_order(inventory)


def refuse_order(inventory):
    """Refuses a group whose hosts would come before others since its name stands before `all`."""
    wanted = inventory.in_order()
    early = sorted((it for it in inventory.groups.values() if it.name.encode() < ALL.encode()), key=lambda it: it.name.encode())
    seen = {}
    for group in early:
        seen.update(group.hosts)
        if list(seen) != wanted[: len(seen)]:
            group.place.refuse("pb-play takes groups in byte order of their names, so its hosts would come before others of this file: give it a name that stands after `all`")


def ansible_variables(groups):
    """Returns the variables that Ansible gives a host of these groups: layer by layer, and `all` first in each."""
    top, others = [it for it in groups if it.name == ALL], [it for it in groups if it.name != ALL]
    order = [(top, 0), (others, 0), (top, 1), (top, 2), (others, 1), (others, 2)]
    return {name: value for some, layer in order for it in some for name, value in it.layers[layer].items()}


def host_variables(inventory):
    """Returns the variables of each host that has some: its own, and those that merge otherwise here than in Ansible."""
    found = {}
    for host, groups in inventory.groups_of_hosts().items():
        here = {name: value for it in groups for name, value in it.variables().items()}
        other = {name: value for name, value in ansible_variables(groups).items() if not is_same(value, here[name])}
        both = {**other, **inventory.hosts[host]}
        if both:
            found[host] = both
    return found


def is_same(one, other):
    """Tells whether two values are the same, also in kind: in Python 1 is True."""
    return repr(one) == repr(other)


def group_json(inventory, group):
    """Returns a group as pb-play reads it; `all` lists all hosts, and so says their order."""
    hosts = inventory.in_order() if group.name == ALL else list(group.hosts)
    children = [it for it in group.children if it != UNGROUPED]
    variables = group.variables()
    if group.priority != 1:
        variables[PRIORITY] = group.priority
    parts = {"hosts": hosts, "children": children, "vars": variables}
    return {key: value for key, value in parts.items() if value}


def inventory_json(inventory):
    """Returns the inventory as pb-play reads it."""
    found = {it.name: group_json(inventory, it) for it in inventory.groups.values()}
    if not found[UNGROUPED]:
        del found[UNGROUPED]
    hostvars = host_variables(inventory)
    return {**found, **({META: {"hostvars": hostvars}} if hostvars else {})}
