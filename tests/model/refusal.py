"""A refusal with its number in document 01."""


class Refusal(Exception):
    """Raised where a call refuses; whatever has to change with the refusal is changed before it is raised."""

    def __init__(self, number):
        super().__init__(number)
        self.number = number


def refuse_if(condition, number):
    """One line of a table of refusals: they are tried in the order in which they are written."""
    if condition:
        raise Refusal(number)


# "11: an argument is wrong" and "14: the state passed in is bad" come first on every call of every section.
WRONG_ARGUMENT = 11
BAD_STATE = 14
