"""The policy of a warning centre: how each kind of warning is sent."""
from dataclasses import dataclass

from .place import TableFault, rows_of, whole

COLUMNS = ["id", "category", "period", "pages"]


@dataclass(frozen=True)
class Policy:
    """The category, the period in slots, and the most pages of an identifier."""

    category: int
    period: int
    pages: int


# What is sent if no policy is given: threats to life often and first, tests in the slots that are left.
DEFAULT = {
    identifier + more: Policy(*row)
    for row, identifiers in (
        ((0, 32, 9), (4370,)), ((0, 64, 9), (4371, 4372)), ((2, 128, 9), range(4373, 4379)), ((2, 256, 9), (4379,)),
        ((1, 256, 4), (4380, 4381)),
    )
    for identifier in identifiers for more in (0, 13)
} | {4396: Policy(2, 512, 9), 4397: Policy(2, 512, 9)}


def policy_of(path):
    """Returns the policy of a table. What it has no row of is as if none were given."""
    found = {}
    for line, row in rows_of(path, COLUMNS):
        identifier = whole(path, line, "id", row["id"], 65535)
        category, period, pages = (whole(path, line, it, row[it], most, least)
                                   for it, least, most in (("category", 0, 2), ("period", 1, 1024), ("pages", 1, 15)))
        if identifier in found:
            raise TableFault(f"{path}: line {line}: an earlier line has this id")
        found[identifier] = Policy(category, period, pages)
    return DEFAULT | found
