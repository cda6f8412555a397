"""Cases: folders whose files say how a program is played, and what it is to show."""
import os

from tools_lib.words import is_program, usage

# So many bytes of a part that differs are shown.
SHOWN = 80


def bytes_of(path, absent=None):
    """Returns what a file holds, or what is said for one that is absent."""
    try:
        with open(path, "rb") as it:
            return it.read()
    except FileNotFoundError:
        return absent


def words_of(text):
    """Returns the words that a case's file spells: a line is a word, and behind a tab a further line of the word before."""
    words = []
    for line in text.decode("utf-8").removesuffix("\n").split("\n") if text else []:
        if line.startswith("\t") and words:
            words[-1] += f"\n{line[1:]}"
        else:
            words.append(line)
    return words


def difference(part, seen, wanted):
    """Returns what to say of a part of which other bytes are wanted."""
    at = next((i for i, (a, b) in enumerate(zip(seen, wanted)) if a != b), min(len(seen), len(wanted)))
    shown = [repr(it[at : at + SHOWN].decode("utf-8", "replace")) for it in (seen, wanted)]
    return f"{part} differs after {at} bytes: {shown[0]} in place of {shown[1]}"


def asked_for(words, folder, doc):
    """Returns the programs and the names of cases in a folder that the words `PROGRAM .. [-- NAME ..]` of a tool say, all cases where none is named; none of either
    where the words can't be used, which is told."""
    at = words.index("--") if "--" in words else len(words)
    programs, names = [os.path.abspath(it) for it in words[:at]], words[at + 1 :] or sorted(os.listdir(folder))
    lacking = [it for it in programs if not is_program(it)] + [it for it in names if not os.path.isdir(f"{folder}/{it}")]
    is_option = any(it.startswith("-") for it in words[:at])
    if not programs or lacking or is_option:
        usage(doc, f"there is no {lacking[0]}" if lacking and not is_option else None)
        return [], []
    return programs, names
