"""Finds files of variables as Ansible does, and reads them."""
import os

from from_yaml_lib.inventories import PRIORITY
from from_yaml_lib.nodes import Mapping, Place
from from_yaml_lib.reading import read_file
from from_yaml_lib.values import variables_of

ENDINGS = ("", ".yml", ".yaml", ".json")


def files_of(folder, name, refusals, endings=ENDINGS, takes_folder=True):
    """Returns the files of variables of that name in a folder; of several endings Ansible reads the first alone."""
    paths = [os.path.join(folder, name + it) for it in endings]
    there = [it for it in paths if os.path.exists(it)]
    if not takes_folder:
        there = [it for it in there if not os.path.isdir(it)]
    for path in there[1:]:
        Place.whole(refusals, path).refuse(f"Ansible doesn't read it beside {os.path.basename(there[0])}: take one of them away")
    if not there:
        return []
    return files_below(there[0]) if os.path.isdir(there[0]) else [there[0]]


def files_below(folder):
    """Returns the files of variables in a folder and those below it, in the order in which Ansible reads them."""
    found = []
    for name in sorted(os.listdir(folder)):
        path, ending = os.path.join(folder, name), os.path.splitext(name)[1]
        if name.startswith(".") or name.endswith("~"):
            continue
        if os.path.isdir(path):
            found += files_below(path) if not ending else []
        elif ending in ENDINGS:
            found.append(path)
    return found


def variables_in(paths, refusals, of_group=False):
    """Returns the variables that files have together, of which a later one stands over those before it."""
    found = {}
    for path in paths:
        node, place = read_file(path, refusals)
        if of_group and isinstance(node, Mapping) and node.get(PRIORITY):
            place.below(PRIORITY, node.get(PRIORITY).line).refuse("Ansible takes it from the inventory alone: write it there")
        found.update(variables_of(node, place) or {})
    return found


def note_others(folder, names, refusals):
    """Notes what stands in a folder of variables and belongs to nobody, as Ansible doesn't read it either."""
    known = {f"{name}{ending}" for name in names for ending in ENDINGS}
    for it in sorted(os.listdir(folder)):
        if it not in known and not it.startswith(".") and not it.endswith("~"):
            Place.whole(refusals, os.path.join(folder, it)).note("not read: no group or host has this name")


def add_beside(inventory, folder, layer, refusals):
    """Adds the variables in group_vars and host_vars beside an inventory (layer 1) or a playbook (layer 2)."""
    groups, hosts = os.path.join(folder, "group_vars"), os.path.join(folder, "host_vars")
    if os.path.isdir(groups):
        for group in inventory.groups.values():
            group.layers[layer].update(variables_in(files_of(groups, group.name, refusals), refusals, True))
        note_others(groups, inventory.groups, refusals)
    if os.path.isdir(hosts):
        for name, variables in inventory.hosts.items():
            variables.update(variables_in(files_of(hosts, name, refusals), refusals))
        note_others(hosts, inventory.hosts, refusals)
