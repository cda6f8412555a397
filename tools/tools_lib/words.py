"""The words of a tool."""
import os
import sys


def is_program(path):
    """Returns whether a file stands there that can be run."""
    return os.path.isfile(path) and os.access(path, os.X_OK)


def is_number(word):
    """Returns whether a word is a whole number in decimal digits."""
    return word.isascii() and word.isdigit()


def usage(doc, why=None):
    """Says why the words of a tool can't be used, and which it takes: with them its text begins. Where no reason is told, its whole text is shown. Returns the status."""
    print(f"{doc.split(maxsplit=1)[0]}: {why}\nusage: {doc.partition(':')[0]}" if why else doc, file=sys.stderr)
    return 2
