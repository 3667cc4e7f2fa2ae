"""Bugs that are planted into a second reading, one at a time, to see how many answers each changes."""
from contextlib import contextmanager

import journal_expected

LEAST = 2  # answers that a bug has to change


@contextmanager
def planted(where, name, value):
    before = getattr(where, name)
    setattr(where, name, value)
    try:
        yield
    finally:
        setattr(where, name, before)


def answers(lines):
    return [answer for _, answer in journal_expected.answers(lines)]


class Bugs:
    """What is wrong, where, and what is put there. Functions go into the given module where nothing else is said."""

    def __init__(self, module):
        self.module = module
        self.bugs = []

    def plant(self, words, where, name, value):
        self.bugs.append((words, where, name, value))

    def bug(self, words, name, where=None):
        """Plants the function that follows."""

        def plant_function(function):
            self.plant(words, where or self.module, name, function)
            return function

        return plant_function

    def all_change_enough(self, lines, row):
        """Prints a row for each bug from the places of the answers that it changes."""
        right = answers(lines)
        found = 0
        for words, where, name, value in self.bugs:
            with planted(where, name, value):
                changed = [place for place, pair in enumerate(zip(right, answers(lines))) if pair[0] != pair[1]]
            enough = len(changed) >= LEAST
            found += enough
            print(f"{row(changed)}  {words}" + ("" if enough else "   TOO FEW"))
        print(f"{found} of {len(self.bugs)} planted bugs change at least {LEAST} answers")
        return found == len(self.bugs)
