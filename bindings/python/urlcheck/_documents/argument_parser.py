"""What is said about words that are wrong: a name that doesn't exist, an option, or its value."""

import argparse
import difflib
import sys
from typing import Iterable, List, NoReturn, Optional

from .._streams import line_of, say, stop, tell
from .habits import habit


class Parser(argparse.ArgumentParser):
    """A parser that says what is wrong in the words of ``urlcheck``."""

    def error(self, message: str) -> NoReturn:
        """Says how the program is used, and what is wrong."""
        # (what argparse refuses has the option that it is about, and its words differ from Python to Python)
        refused = sys.exc_info()[1]
        if isinstance(refused, argparse.ArgumentError) and refused.argument_name:
            message = self._said_of(refused.argument_name.rpartition("/")[2])
        say(self.format_usage() + line_of(message))
        raise SystemExit(2)

    def _said_of(self, option: str) -> str:
        """What is wrong with the value of an option: it is missing, or there is one that the option doesn't take."""
        action = next((it for it in self._actions if option in it.option_strings), None)
        takes_none = action is not None and action.nargs == 0
        return option + (" doesn't accept a value" if takes_none else " needs a value")

    def no_option(self, word: str) -> NoReturn:
        """Says that there is no such option, and which one is close to it."""
        name = word.partition("=")[0]
        actions = [it for it in self._actions if it.help != argparse.SUPPRESS]
        options = [it for action in actions for it in action.option_strings if it.startswith("--")]
        # (a value may follow an option of one letter at once, as in -j4)
        said = habit(name) or habit(name[:2])
        self.error("there is no option {}{}".format(name, "; " + said if said else _nearest(name, options)))


def chosen(name: str, names: List[str], noun: str, meant: Optional[str] = None) -> str:
    """The name, if it is one of these. Otherwise raises ``SystemExit``, and says which there are, and which is likely
    meant: this one, if it is known, or the nearest."""
    if name not in names:
        near = "; the nearest is " + meant if meant else _nearest(name, names)
        tell("no {} is named '{}'{}".format(noun, name, near))
        raise SystemExit(stop("the {}s: {}".format(noun, " ".join(names))))
    return name


def _nearest(name: str, names: Iterable[str]) -> str:
    """What is said about the name that is nearest to another one, or the only one that begins like it, if there is
    one."""
    # (the hyphens that each option begins with make none of them near)
    by_letters = {it.lstrip("-"): it for it in names}
    letters = name.lstrip("-").lower()
    near = difflib.get_close_matches(letters, by_letters, 1) or [it for it in by_letters if it.startswith(letters)]
    return "; the nearest is " + by_letters[near[0]] if len(near) == 1 else ""
