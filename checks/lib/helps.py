"""The helps of the built program: its commands, and their options."""
import re
from typing import List, NamedTuple

from checks.lib.rows import must, output

# A command in the list of a help: two spaces, its name and what it does.
COMMAND = re.compile(r"^  (\w+) +(\S.*)$", re.M)
# An option in a help: its letter, its name, its value, and what it does on this line or on the next one.
OPTION = re.compile(r"^ {2,6}(?:-(\w), )?--([\w-]+)(?: <(\w+)>)?\s+(\S.*)$", re.M)
BEGINS_OPTION = re.compile(r"^ {2,6}(?:-\w, )?--", re.M)


class Option(NamedTuple):
    """An option of a command. Without a letter or a value these are empty."""

    letter: str
    name: str
    value: str
    does: str

    def choices(self):
        """Returns the values that the help names: those of a range, or some words. A file has none."""
        span = re.search(r": (\d+) to (\d+)$", self.does)
        if span and int(span[2]) < 100:
            return [str(number) for number in range(int(span[1]), int(span[2]) + 1)]
        words = re.search(r": ((?:\w+, )+\w+ or \w+)$", self.does)
        return re.split(r", | or ", words[1]) if words else []


def summaries(text):
    """Returns the commands that a help lists, each with what it does."""
    return COMMAND.findall(text.partition("Commands:\n")[2].partition("\n\n")[0])


def listed(text):
    """Returns the names of these commands, without the command for help."""
    return [name for name, _ in summaries(text) if name != "help"]


def options(text) -> List[Option]:
    """Returns the options that a help lists, each of which is read."""
    lines = text.partition("\nOptions:\n")[2]
    found = [Option(*it) for it in OPTION.findall(lines)]
    must(len(found) == len(BEGINS_OPTION.findall(lines)), "a help has an option that is not read")
    return found


def helps(built):
    """Returns the help of the program, under no name, and that of each command and kind under its words."""
    shown = {"": output([built, "--help"])}
    for name in listed(shown[""]):
        shown[name] = output([built, name, "--help"])
        shown.update({f"{name} {kind}": output([built, name, kind, "--help"]) for kind in listed(shown[name])})
    must(len(shown) >= 10, f"the helps list {len(shown) - 1} commands")
    return shown
