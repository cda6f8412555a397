"""Cuts the text after a module into its arguments, as Ansible does."""
import re

from from_yaml_lib.hints import refuse_argument
from from_yaml_lib.nodes import Entry, Mapping, Refused, Scalar

BRACES = re.compile(r"\{\{|\{%|\{#|\}\}|%\}|#\}")
# What Ansible takes out of the text of a command, wherever it stands there.
TAKEN_OUT = ("creates", "removes", "chdir", "executable", "warn", "stdin", "stdin_add_newline", "strip_empty_ends", "expand_argument_vars")
VARIABLE = re.compile(r"\$(?:[A-Za-z_]\w*|\{[^}]*\})")


def split(text, gaps):
    """Cuts a text at gaps outside quotes and templates, or returns None where one of these isn't closed."""
    steps = {it.start(): 1 if it.group()[0] == "{" else -1 for it in BRACES.finditer(text)}
    words, word, quote, depth, before = [], "", "", 0, ""
    for at, mark in enumerate(text):
        if mark in gaps and not quote and not depth:
            words += [word] if word else []
            word = ""
        else:
            word += mark
        if mark in "\"'" and before != "\\":
            quote = "" if quote == mark else quote or mark
        depth = max(0, depth + steps.get(at, 0))
        before = mark
    words += [word] if word else []
    return None if quote or depth else words


def unquoted(text):
    """Takes away quotes that stand round the whole text."""
    inner = len(text) > 1 and text[0] == text[-1] and text[0] in "\"'"
    return text[1:-1] if inner else text


def arguments_in(text, line, place):
    """Returns the arguments NAME=VALUE that a text has, as a mapping from names to texts."""
    words = split(text, " \n")
    if words is None:
        place.refuse("a quote or a template in the text isn't closed")
    if "\\" in text:
        place.refuse("a backslash among arguments in a text isn't carried over: write the arguments as a mapping")
    if words is None or "\\" in text:
        return Refused(line)
    entries = {}
    for word in words:
        name, equals, value = (it.strip() for it in word.partition("="))
        if not equals or not name:
            place.refuse(f"`{word}` isn't NAME=VALUE: write the arguments as a mapping")
        elif name in entries:
            place.below(name, line).refuse("the argument stands twice in the text")
        else:
            entries[name] = Entry(name, Scalar(unquoted(value), line), line)
    return Mapping(list(entries.values()), line)


def refuse_taken_out(text, place):
    """Refuses what Ansible would take out of the free text of a command or a shell."""
    words = split(text, " \n")
    if words is None:
        return place.refuse("a quote or a template in the text isn't closed")
    for word in words:
        name, equals, _ = word.partition("=")
        if equals and name in TAKEN_OUT:
            refuse_argument(None, place.below(name, place.line))
        elif "\\=" in word:
            place.refuse("Ansible takes the backslash out of `\\=`: write the text at `cmd`, as it is to be run")
    for line in text.split("\n"):
        if re.search(r"(?:^| )\\ ", line):
            place.refuse("Ansible takes a backslash between spaces out of the text: write the text at `cmd`, as it is to be run")
    return None


def joined_lines(text):
    """Returns the free text of a command without the backslashes by which its lines go on."""
    return re.sub(r"(^|[ \n])\\\n", r"\1 ", text)


def refuse_expansions(text, place):
    """Refuses what the module `command` of Ansible would replace in a text, and pb-play wouldn't."""
    if "\\" in text:
        place.refuse("a backslash is a plain character in the text of a command here: write `argv`")
    refuse_variables(text, place)
    for word in split(text, " \t\r\n") or []:
        if word.lstrip("\"'").startswith("~"):
            place.refuse(f"`{word}` isn't replaced by a home folder here: take `shell`")


def refuse_variables(text, place):
    """Refuses variables of the environment in a command."""
    for found in VARIABLE.findall(text):
        place.refuse(f"`{found}` isn't replaced by a variable of the environment here: take `shell`")


def refuse_in_word(word, place):
    """Refuses what Ansible would replace in a word of `argv`."""
    refuse_variables(word, place)
    if word.startswith("~"):
        place.refuse(f"`{word}` isn't replaced by a home folder here: take `shell`")
