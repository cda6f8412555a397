"""Turns the files in the folders of roles into JSON."""
import os

from from_yaml_lib.nodes import Place
from from_yaml_lib.playbooks import FOLDERS
from from_yaml_lib.reading import read_file
from from_yaml_lib.vars_files import files_of, variables_in

# In the folders of roles Ansible looks for files with an ending first.
ENDINGS = (".yml", ".yaml", ".json", "")
VARIABLES = ("defaults", "vars")


def names_in(folder):
    """Returns the names of the roles in a folder."""
    return [it for it in sorted(os.listdir(folder)) if os.path.isdir(os.path.join(folder, it)) and not it.startswith(".")]


def roles_in(folder, refusals):
    """Returns the JSON of all roles in a folder: from NAME/FOLDER/main.json to what is to stand there."""
    return {path: value for name in names_in(folder) for path, value in role_of(folder, name, refusals).items()}


def roles_of_plays(folder, plays, refusals):
    """Returns the JSON of the roles in a folder that plays ask for, and of those that these depend on."""
    names = names_in(folder)
    waiting = [name for play in plays or [] if play is not None for name in asked_for(play.get("roles"))]
    found, done = {}, set()
    while waiting:
        name = waiting.pop(0)
        if name in names and name not in done:
            done.add(name)
            files = role_of(folder, name, refusals)
            found.update(files)
            waiting += asked_for((files.get(f"{name}/meta/main.json") or {}).get("dependencies"))
    for name in names:
        if name not in done:
            Place.whole(refusals, os.path.join(folder, name)).note("not read: no play asks for this role")
    return found


def asked_for(entries):
    """Returns the names in entries of roles."""
    return [it.get("role", it.get("name")) if isinstance(it, dict) else it for it in entries or []]


def role_of(folder, name, refusals):
    """Returns the JSON of the files of a role."""
    role, found = os.path.join(folder, name), {}
    refuse_specs(role, refusals)
    for part in sorted(FOLDERS):
        found.update(part_of(role, name, part, refusals))
    return found


def part_of(role, name, part, refusals):
    """Returns what a role has in one of its folders, if it is there."""
    paths = files_of(os.path.join(role, part), "main", refusals, ENDINGS, part in VARIABLES)
    if not paths:
        return {}
    if part in VARIABLES:
        return {f"{name}/{part}/main.json": variables_in(paths, refusals)}
    node, place = read_file(paths[0], refusals)
    return {f"{name}/{part}/main.json": FOLDERS[part](node, place)}


def refuse_specs(role, refusals):
    """Refuses a file by which Ansible would look at the parameters of the role."""
    for ending in (".yml", ".yaml"):
        path = os.path.join(role, "meta", f"argument_specs{ending}")
        if os.path.exists(path):
            Place.whole(refusals, path).refuse("parameters aren't checked here: take the file away")
