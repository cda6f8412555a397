"""The names of hosts that a pattern of an inventory spells, with ranges and a port."""
import re
import string

RANGE = re.compile(r"\[([^\[\]]*)\]")
PORT = re.compile(r"((?:[^:\[\]]|\[[^\[\]]*\])+):([0-9]+)")
PORT_OF_ADDRESS = re.compile(r"\[([0-9A-Fa-f.]*:[0-9A-Fa-f:.]*:[0-9A-Fa-f:.]*)\]:([0-9]+)")
PLAIN = re.compile(r"[\w.-]*")
# As many as the program takes.
MOST_HOSTS = 1_048_576


class BadPattern(Exception):
    """A pattern spells no names; the text says why."""


def hosts_in(pattern):
    """Returns the names that a pattern spells, and the port after it or None."""
    pattern = pattern.strip()
    if pattern.endswith(":") and "[" not in pattern:
        raise BadPattern(f"`{pattern}` ends in a colon")
    address = PORT_OF_ADDRESS.fullmatch(pattern)
    if address:
        return [address.group(1)], int(address.group(2))
    found = PORT.fullmatch(pattern)
    if found and not PLAIN.fullmatch(RANGE.sub("", found.group(1))):
        raise BadPattern(f"`{pattern}`: it can't be told whether that is a port: write `ansible_port`")
    name, port = (found.group(1), int(found.group(2))) if found else (pattern, None)
    return names_in(name), port


def names_in(name):
    """Returns the names that a name with ranges spells, the first range changing slowest."""
    found = RANGE.search(name)
    if found is None:
        if "[" in name or "]" in name:
            raise BadPattern(f"`{name}`: a bracket isn't closed")
        return [name]
    head, tails = name[: found.start()], names_in(name[found.end() :])
    members = members_of(found.group(1))
    if len(members) * len(tails) > MOST_HOSTS:
        raise BadPattern(f"`{name}` spells more than {MOST_HOSTS} names")
    return [head + member + tail for member in members for tail in tails]


def members_of(text):
    """Returns what a range spells: numbers, filled up with zeros as its begin is, or letters."""
    bounds = text.split(":")
    if len(bounds) not in (2, 3) or not bounds[1]:
        raise BadPattern(f"`[{text}]` is no range [BEGIN:END] or [BEGIN:END:STEP]")
    begin, end, step = bounds[0] or "0", bounds[1], bounds[2] if len(bounds) == 3 else "1"
    if not re.fullmatch(r"[0-9]{1,9}", step) or int(step) == 0:
        raise BadPattern(f"`[{text}]`: the step has to be a whole number above 0")
    letters = string.ascii_letters
    if re.fullmatch(r"[A-Za-z]", begin) and re.fullmatch(r"[A-Za-z]", end):
        members = letters[letters.index(begin) : letters.index(end) + 1 : int(step)]
    elif re.fullmatch(r"[0-9]{1,9}", begin) and re.fullmatch(r"[0-9]{1,9}", end):
        members = numbers_from(begin, end, int(step), text)
    else:
        raise BadPattern(f"`[{text}]` is neither a range of numbers nor one of letters")
    if not members:
        raise BadPattern(f"`[{text}]` spells nothing: its end stands before its begin")
    return members


def numbers_from(begin, end, step, text):
    """Returns the numbers of a range, in texts."""
    is_filled = begin[0] == "0" and len(begin) > 1
    if is_filled and len(begin) != len(end):
        raise BadPattern(f"`[{text}]`: begin and end have to be of one length")
    numbers = range(int(begin), int(end) + 1, step)
    if len(numbers) > MOST_HOSTS:
        raise BadPattern(f"`[{text}]` spells more than {MOST_HOSTS} names")
    return [str(it).zfill(len(begin)) if is_filled else str(it) for it in numbers]
