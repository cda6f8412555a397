"""The modules of the profile and their arguments."""
from from_yaml_lib.hints import refuse_argument
from from_yaml_lib.nodes import Entry, Mapping, Refused, Sequence, is_null, is_text, wrong
from from_yaml_lib.values import NAME, TEMPLATE, conditions_of, convert, has_template, look_at_variable, text_of, value_of
from from_yaml_lib.words import arguments_in, joined_lines, refuse_expansions, refuse_in_word, refuse_taken_out

# Texts that some versions of Ansible turn into truths in set_fact.
SPELLED_TRUTHS = ("yes", "no", "true", "false")


def arguments_of(node, place):
    """Returns the arguments after a module as a mapping; a text has them as NAME=VALUE, and nothing is none."""
    if is_null(node):
        return Mapping([], node.line)
    if is_text(node):
        return arguments_in(node.value, node.line, place)
    if not isinstance(node, Mapping):
        wrong(node, place, "the arguments have to be a mapping, or a text of NAME=VALUE")
        return Refused(node.line)
    return node


def refuse_both(node, place, first, second):
    """Refuses the second of two arguments where both are there."""
    if node.get(first) and node.get(second):
        place.below(second, node.get(second).line).refuse(f"it can't stand beside `{first}`")


def debug(node, place):
    """Returns the arguments of debug."""
    found = convert(node, place, {"msg": value_of, "var": text_of}, refuse_argument)
    refuse_both(node, place, "msg", "var")
    return found


def fail(node, place):
    """Returns the arguments of fail."""
    return convert(node, place, {"msg": value_of}, refuse_argument)


def setup(node, place):
    """Returns the arguments of setup, which has none."""
    return convert(node, place, {}, refuse_argument)


def assertion(node, place):
    """Returns the arguments of assert."""
    found = convert(node, place, {"that": conditions_of, "fail_msg": value_of, "msg": value_of, "success_msg": value_of}, refuse_argument)
    refuse_both(node, place, "fail_msg", "msg")
    if not node.get("that"):
        place.lacks("that")
    return found


def fact(node, place):
    """Returns the value of a fact."""
    name = place.step
    if name == "cacheable":
        return refuse_argument(node, place)
    if not NAME.fullmatch(name):
        place.refuse(TEMPLATE if "{{" in name else "it has to be the name of a variable: letters, digits and `_`")
    if is_text(node) and node.value.strip().lower() in SPELLED_TRUTHS:
        place.refuse("Ansible takes this text as a truth or as a text, by its version: write a mapping with true or false, without quotes")
    look_at_variable(node, place)
    return value_of(node, place)


def set_fact(node, place):
    """Returns the arguments of set_fact, which are the facts."""
    if not node.entries:
        place.refuse("there is no fact to set")
    return convert(node, place, {}, fact)


def program_at(node, place):
    """Returns the text at `cmd` of a command."""
    text = text_of(node, place)
    if text is not None:
        refuse_expansions(text, place)
    return text


def program_word(node, place):
    """Returns a word of `argv`, as the text that Ansible makes of it."""
    word = text_of(node, place)
    if word is not None:
        refuse_in_word(word, place)
    return word


def program_words(node, place):
    """Returns the words at `argv`."""
    if not isinstance(node, Sequence):
        return wrong(node, place, TEMPLATE if has_template(node) else "it has to be a list of words")
    return [program_word(it, below) for it, below in node.places(place)]


def command(node, place):
    """Returns the arguments of command: a text, or `cmd` or `argv`."""
    if is_text(node):
        refuse_taken_out(node.value, place)
        text = joined_lines(node.value)
        refuse_expansions(text, place)
        return text
    return free_form(node, place, {"cmd": program_at, "argv": program_words})


def shell(node, place):
    """Returns the arguments of shell: a text, or `cmd`."""
    if is_text(node):
        refuse_taken_out(node.value, place)
        return node.value
    return free_form(node, place, {"cmd": text_of})


def free_form(node, place, keys):
    """Returns the arguments of a module that may have a text in place of them."""
    if not isinstance(node, Mapping):
        return wrong(node, place, "it has to be a text, or a mapping with " + " or ".join(f"`{it}`" for it in keys))
    found = convert(node, place, keys, refuse_argument)
    if len(keys) > 1:
        refuse_both(node, place, *keys)
    if not any(node.get(it) for it in keys):
        place.lacks(" or ".join(keys), "there is nothing to run")
    return found


MODULES = {"assert": assertion, "command": command, "debug": debug, "fail": fail, "set_fact": set_fact, "setup": setup, "shell": shell}
FREE_FORM = ("command", "shell")


def with_more(name, node, more):
    """Returns the arguments after a module with those at `args`, over which its own stand."""
    if is_text(node) and name in FREE_FORM:
        node = Mapping([Entry("cmd", node, node.line)], node.line)
    if is_null(node) or not isinstance(node, Mapping):
        return more if is_null(node) else node
    return Mapping([it for it in more.entries if not node.get(it.key)] + node.entries, node.line)


def module_of(name, node, place, more=None):
    """Returns what is to stand after a module in JSON; `more` is what stands at `args`."""
    if isinstance(node, Refused):
        return None
    if name not in FREE_FORM:
        node = arguments_of(node, place)
    if more is not None and more.entries:
        if is_text(node):
            refuse_taken_out(node.value, place)
        node = with_more(name, node, more)
    return None if isinstance(node, Refused) else MODULES[name](node, place)
