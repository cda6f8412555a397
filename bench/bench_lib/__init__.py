"""What the benches share: how they read their words."""
import os
import shutil
import sys

TOP = os.path.dirname(os.path.dirname(os.path.dirname(os.path.realpath(__file__))))
sys.path.insert(0, f"{TOP}/tools")

from tools_lib.words import is_program, usage  # noqa: E402


def asked_for(doc, known=()):
    """Returns the program that the words begin with, ./pb-play where there are none, and the names behind it, of those that are known. Where the words can't be used, this is
    told, and all ends."""
    program, *names = sys.argv[1:] or [f"{TOP}/pb-play"]
    wrong = next((it for it in names if it not in known), None)
    if program.startswith("-"):
        sys.exit(usage(doc))
    if not is_program(program):
        sys.exit(usage(doc, f"there is no program {program}"))
    if wrong is not None:
        sys.exit(usage(doc, f"{wrong} is none of {', '.join(known)}" if known else f"{wrong} is a word too many"))
    return os.path.abspath(program), names


def program_asked_for(doc):
    """Returns the program that the only word names, ./pb-play where there is none, as `asked_for` does."""
    return asked_for(doc)[0]


def end_without(doc, *programs):
    """Ends all where one of these programs isn't on the PATH, which is told."""
    lacking = [it for it in programs if not shutil.which(it)]
    if lacking:
        sys.exit(usage(doc, f"there is no {lacking[0]} on the PATH"))
