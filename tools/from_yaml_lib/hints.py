"""What to say of keys and modules that the profile doesn't have, where there is more to say than that."""

TASKS = "not supported: write the tasks themselves, or a role at `roles`"
SUDO = "not supported: write `sudo -n` in front of the command"
LOOP = "not supported: write `loop` over the list"
HINTS = {
    "become": SUDO,
    "become_user": SUDO,
    "become_method": SUDO,
    "environment": "not supported: write `env NAME=VALUE` in front of the command",
    "until": "not supported: only a `command` or a `shell` is tried again",
    "retries": "not supported: only a `command` or a `shell` is tried again",
    "delay": "not supported: only a `command` or a `shell` is tried again",
    "async": "not supported: write a `shell` that leaves the program behind",
    "poll": "not supported: write a `shell` that leaves the program behind",
    "timeout": "not supported: write `timeout SECONDS` in front of the command",
    "vars_files": "not supported: write the variables at `vars`, or give them with -e",
    "vars_prompt": "not supported: write the variables at `vars`, or give them with -e",
    "include_vars": "not supported: write the variables at `vars`, or give them with -e",
    "order": "not supported: hosts go in the order of the inventory",
    "import_playbook": "not supported: write all plays into one list",
    "include_tasks": TASKS,
    "import_tasks": TASKS,
    "include_role": TASKS,
    "import_role": TASKS,
    "include": TASKS,
    "ignore_unreachable": "not supported: a host that is out of reach is out for the rest of the playbook",
    "check_mode": "not supported: there is no check mode",
    "diff": "not supported: there is no check mode",
    "index_var": "not supported",
    "extended": "not supported",
    "pause": "not supported",
}

# Arguments of modules that Ansible has and the profile doesn't.
ARGUMENTS = {
    "chdir": "not supported: write a `shell` with `cd FOLDER && prog`",
    "creates": "not supported: write a `shell` with `if test ! -e FILE; then prog; fi`",
    "removes": "not supported: write a `shell` with `if test -e FILE; then prog; fi`",
    "stdin": "not supported: write a `shell` with `prog < FILE`",
    "executable": "not supported: write `command` with `argv`, as in [/bin/bash, -c, TEXT]",
    "verbosity": "not supported: each `debug` is shown",
    "quiet": "not supported: leave it out",
    "filter": "not supported: the facts program tells what is wanted",
    "cacheable": "not supported: what is set stays for the run",
}


def refuse_argument(_node, place):
    """Refuses the argument of a module at which the place is."""
    place.refuse(ARGUMENTS.get(place.step, "the profile has no such argument of this module"))


def hint(key):
    """Says why a key of a play, a block or a task is refused."""
    if key.startswith("with_"):
        return LOOP
    return HINTS.get(bare(key), "the profile has no such key or module here")


def bare(name):
    """Returns the name of a module or a key without the prefix of Ansible's own collection."""
    for prefix in ("ansible.builtin.", "ansible.legacy."):
        if name.startswith(prefix):
            return name.removeprefix(prefix)
    return name


def refuse_key(_node, place):
    """Refuses the key at which the place is."""
    place.refuse(hint(place.step))
