"""The command line of tools/from-yaml."""
import argparse
import json
import os
import re
import shlex
import sys

from from_yaml_lib.ini import read_ini
from from_yaml_lib.inventories import inventory_json, refuse_shapes
from from_yaml_lib.nodes import Mapping, Place, Refusals
from from_yaml_lib.playbooks import FOLDERS, names_of_hosts, playbook_of
from from_yaml_lib.reading import VAULT, read_file, read_text, text_in
from from_yaml_lib.roles import roles_in, roles_of_plays
from from_yaml_lib.vars_files import add_beside
from from_yaml_lib.yaml_inventory import inventory_of, read_list

LOCAL_NAMES = ("localhost", "127.0.0.1", "::1")


class Stop(Exception):
    """Nothing can be done; the text says why."""


def folder_of(path):
    """Returns the folder that a file stands in."""
    return os.path.dirname(path)


def is_yaml_inventory(path):
    """Tells whether an inventory is YAML: by its ending, or without one where it is a mapping, as Ansible tells it."""
    ending = os.path.splitext(path)[1]
    if ending:
        return ending in (".yml", ".yaml", ".json")
    aside = Place.whole(Refusals(), path)
    text = text_in(path, aside) or ""
    return text.startswith(VAULT) or isinstance(read_text(text, aside), Mapping)


def why_no_inventory(path):
    """Says why an inventory isn't one file of text, or returns None where it is one."""
    if os.path.isdir(path):
        return "it is a folder: name one file, or write `ansible-inventory --list` to a file and give that with --list"
    if (text_in(path, Place.whole(Refusals(), path)) or "").startswith("#!"):
        return "it is a program: run it with --list, write what it prints to a file, and give that with --list"
    return None


def read_inventory(path, playbook, refusals):
    """Returns the JSON of an inventory, with the variables in the folders beside it and beside the playbook, and its hosts."""
    why = why_no_inventory(path)
    if why is not None:
        Place.whole(refusals, path).refuse(why)
        return None, None
    if is_yaml_inventory(path):
        inventory = inventory_of(*read_file(path, refusals))
    else:
        inventory = read_ini(path, refusals)
    if inventory is None:
        return None, None
    beside = folder_of(path)
    add_beside(inventory, beside, 1, refusals)
    if playbook is not None and os.path.realpath(folder_of(playbook)) != os.path.realpath(beside):
        add_beside(inventory, folder_of(playbook), 2, refusals)
    refuse_shapes(inventory)
    return (None if refusals.found else inventory_json(inventory)), list(inventory.hosts)


def read_listed(path, playbook, refusals):
    """Returns the JSON of an inventory that ansible-inventory --list wrote to a file, and its hosts."""
    found = read_list(path, refusals)
    beside = [] if playbook is None else [os.path.join(folder_of(playbook), it) for it in ("group_vars", "host_vars")]
    for folder in beside:
        if os.path.isdir(folder):
            Place.whole(refusals, folder).note("not read: `ansible-inventory --list --playbook-dir` has it in its output")
    if found is None:
        return None, None
    groups = [it for it in found.values() if it is not None]
    hosts = [host for it in groups for host in (it if isinstance(it, list) else it.get("hosts") or [])]
    return found, hosts


def json_text(value):
    """Returns a value as the text of a JSON file."""
    return json.dumps(value, ensure_ascii=False, indent=2) + "\n"


def write(path, text):
    """Writes a text to a file, whose folders are made."""
    os.makedirs(folder_of(path) or ".", exist_ok=True)
    with open(path, "w", encoding="utf-8") as it:
        it.write(text)


def refuse_left_over(folder, files):
    """Refuses a folder with files of roles that this call doesn't write, since pb-play would read these as well."""
    for name in sorted(os.listdir(folder)) if os.path.isdir(folder) else []:
        for part in sorted(FOLDERS):
            path = f"{name}/{part}/main.json"
            if os.path.exists(f"{folder}/{path}") and path not in files:
                raise Stop(f"{folder}/{path} is left over, and would be read as well: take it away")


def refuse_local(node, place, hosts):
    """Refuses a play over this machine where the inventory doesn't have it."""
    for it in names_of_hosts(node):
        elements = [it.value.strip(), *(part.strip() for part in re.split("[,:]", it.value))]
        for name in LOCAL_NAMES:
            if name in elements and name not in hosts:
                place.below("hosts", it.line).refuse(f"there is no implicit `{name}` here: write it into the inventory")


def refuse_no_folder(folder):
    """Refuses a folder of roles that isn't there."""
    if not os.path.isdir(folder):
        raise Stop(f"there is no folder {folder}")


def convert_playbook(words, refusals):
    """Converts a playbook, which goes to standard output."""
    return {}, json_text(playbook_of(*read_file(words.playbook, refusals)))


def convert_inventory(words, refusals):
    """Converts an inventory, which goes to standard output."""
    read = read_listed if words.listed else read_inventory
    found, _ = read(words.listed or words.inventory, words.playbook, refusals)
    return {}, json_text(found)


def convert_roles(words, refusals):
    """Converts the roles in a folder to another folder."""
    refuse_no_folder(words.roles)
    files = roles_in(words.roles, refusals)
    refuse_left_over(words.out, files)
    return {os.path.join(words.out, path): json_text(it) for path, it in files.items()}, ""


def convert_all(words, refusals):
    """Converts a playbook, its inventory and its roles to a folder, and says how to run them."""
    node, place = read_file(words.playbook, refusals)
    playbook = playbook_of(node, place)
    read = read_listed if words.listed else read_inventory
    inventory, hosts = read(words.listed or words.inventory, words.playbook, refusals)
    if hosts is not None:
        refuse_local(node, place, hosts)
    beside = os.path.join(folder_of(words.playbook), "roles")
    folder = words.roles or (beside if os.path.isdir(beside) else None)
    if folder:
        refuse_no_folder(folder)
    roles = roles_of_plays(folder, playbook, refusals) if folder else {}
    to_playbook, to_inventory, to_roles = (os.path.join(words.out, it) for it in ("playbook.json", "inventory.json", "roles"))
    refuse_left_over(to_roles, roles)
    files = {to_playbook: json_text(playbook), to_inventory: json_text(inventory)}
    files.update({os.path.join(to_roles, path): json_text(it) for path, it in roles.items()})
    run = ["./pb-play", "-i", to_inventory, *(["--roles", to_roles] if roles else []), to_playbook]
    return files, shlex.join(run) + "\n"


def add_inventory(command, *name, **settings):
    """Adds the words by which an inventory is named."""
    which = command.add_mutually_exclusive_group(required=True)
    which.add_argument(*name, **settings, help="an inventory of YAML or INI; group_vars/ and host_vars/ beside it are read as well")
    which.add_argument("--list", dest="listed", metavar="FILE", help="a file with the output of `ansible-inventory --list`")


def words_of(words, doc):
    """Returns the words of the command line by their names."""
    shared = argparse.ArgumentParser(add_help=False)
    shared.add_argument("--list-only", action="store_true", help="write nothing but the list of what is refused")
    parser = argparse.ArgumentParser(prog="from-yaml", description=doc, formatter_class=argparse.RawDescriptionHelpFormatter)
    commands = parser.add_subparsers(required=True, metavar="COMMAND")
    playbook = commands.add_parser("playbook", parents=[shared], help="a playbook, to standard output")
    playbook.add_argument("playbook", metavar="PLAYBOOK")
    playbook.set_defaults(run=convert_playbook)
    inventory = commands.add_parser("inventory", parents=[shared], help="an inventory, to standard output")
    add_inventory(inventory, "inventory", nargs="?", metavar="INVENTORY")
    inventory.add_argument("--playbook", metavar="PLAYBOOK", help="the playbook beside which group_vars/ and host_vars/ stand, too")
    inventory.set_defaults(run=convert_inventory)
    roles = commands.add_parser("roles", parents=[shared], help="the roles in a folder, to OUT/NAME/FOLDER/main.json")
    roles.add_argument("roles", metavar="ROLES")
    roles.add_argument("out", metavar="OUT")
    roles.set_defaults(run=convert_roles)
    everything = commands.add_parser("all", parents=[shared], help="a playbook, its inventory and the roles that it asks for, to OUT/; prints the command that runs it")
    everything.add_argument("playbook", metavar="PLAYBOOK")
    add_inventory(everything, "-i", "--inventory", metavar="INVENTORY")
    everything.add_argument("--roles", metavar="ROLES", help="the folder of the roles; else roles/ beside the playbook, if it is there")
    everything.add_argument("out", metavar="OUT")
    everything.set_defaults(run=convert_all)
    return parser.parse_args(words)


def main(words, doc):
    """Does what the command line says, and returns the exit status."""
    asked = words_of(words, doc)
    refusals = Refusals()
    try:
        files, printed = asked.run(asked, refusals)
        for line in [*refusals.notes, *refusals.lines()]:
            print(line, file=sys.stderr)
        if refusals.found or asked.list_only:
            return 1 if refusals.found else 0
        for path, text in files.items():
            write(path, text)
        sys.stdout.buffer.write(printed.encode("utf-8"))
    except (OSError, Stop) as error:
        print(f"from-yaml: {error}", file=sys.stderr)
        return 1
    except RecursionError:
        print("from-yaml: a file is nested too deep", file=sys.stderr)
        return 1
    return 0
