"""Regular expressions of scopes: how one is read, and whether it matches a text.

A pattern that was read is a nested tuple. Its meaning is a relation between two offsets of the text; here it is a
function from the set of offsets at which the pattern may begin to the set of those at which it may end.
"""

from functools import lru_cache

MOST_CHARACTERS = 1024
MOST_NESTED = 64
NOT_PLAIN = set("\\()[.^$|*+?")


class Unreadable(Exception):
    """The grammar doesn't have the text."""


class Reader:
    """A reader by recursive descent: `pattern = branch { "|" branch }`, and so on."""

    def __init__(self, text):
        self.text = text
        self.at = 0
        self.nested = 0

    def peek(self):
        return self.text[self.at : self.at + 1]

    def take(self):
        if self.at == len(self.text):
            raise Unreadable
        self.at += 1
        return self.text[self.at - 1]

    def pattern(self):
        branches = [self.branch()]
        while self.peek() == "|":
            self.take()
            branches.append(self.branch())
        return "either", tuple(branches)

    def branch(self):
        pieces = []
        while self.peek() not in ("", "|", ")"):
            pieces.append(self.piece())
        return tuple(pieces)

    def piece(self):
        atom = self.atom()
        if self.peek() in ("*", "+", "?"):
            return self.take(), atom
        return atom

    def atom(self):
        character = self.take()
        if character == "(":
            return self.group()
        if character == "[":
            return self.range()
        if character == ".":
            return ("any",)
        if character in "^$":
            return ("begin",) if character == "^" else ("end",)
        if character == "\\":
            return "plain", self.take()
        if character in NOT_PLAIN:
            raise Unreadable
        return "plain", character

    def group(self):
        self.nested += 1
        if self.nested > MOST_NESTED:
            raise Unreadable
        inner = self.pattern()
        if self.take() != ")":
            raise Unreadable
        self.nested -= 1
        return inner

    def range(self):
        negated = self.peek() == "^"
        if negated:
            self.take()
        items = [self.first_item()]
        while self.peek() != "]":
            items.append(self.item())
        self.take()
        return "range", negated, tuple(items)

    def first_item(self):
        if self.peek() == "-":
            self.take()
            return "-", "-"
        return self.item()

    def item(self):
        low = self.take()
        behind = self.text[self.at : self.at + 2]
        if len(behind) < 2 or behind[0] != "-" or behind[1] == "]":
            return low, low
        self.at += 2
        if low > behind[1]:
            raise Unreadable
        return low, behind[1]


@lru_cache(maxsize=None)
def read_pattern(octets):
    """The expression that a text spells; None if it isn't parseable."""
    try:
        text = octets.decode("utf-8")
    except UnicodeDecodeError:
        return None
    if len(text) > MOST_CHARACTERS:
        return None
    reader = Reader(text)
    try:
        pattern = reader.pattern()
    except Unreadable:
        return None
    return pattern if reader.at == len(text) else None


def matches(pattern, text):
    """Whether the expression holds between any two positions of the text."""
    return bool(ends(pattern, text, set(range(len(text) + 1))))


def ends(part, text, begins):
    """The positions at which a part may end that begins at one of these."""
    form = part[0]
    if form == "either":
        return set().union(*(ends_of_branch(branch, text, begins) for branch in part[1]))
    if form == "?":
        return begins | ends(part[1], text, begins)
    if form == "*":
        return repeated(part[1], text, begins)
    if form == "+":
        return repeated(part[1], text, ends(part[1], text, begins))
    if form == "begin":
        return begins & {0}
    if form == "end":
        return begins & {len(text)}
    return {at + 1 for at in begins if at < len(text) and takes(part, text[at])}


def ends_of_branch(branch, text, begins):
    for part in branch:
        begins = ends(part, text, begins)
    return begins


def repeated(part, text, begins):
    """The positions that are reached by finitely many repetitions, possibly none."""
    reached = set(begins)
    fresh = reached
    while fresh:
        fresh = ends(part, text, fresh) - reached
        reached |= fresh
    return reached


def takes(part, character):
    """Whether a part that takes one character takes this one."""
    if part[0] == "any":
        return True
    if part[0] == "plain":
        return part[1] == character
    return part[1] != any(low <= character <= high for low, high in part[2])


def is_in_scope(patterns, user_id):
    """Whether a scope with these expressions covers the user ID. Without one it covers every user ID."""
    if not patterns:
        return True
    try:
        text = user_id.decode("utf-8")
    except UnicodeDecodeError:
        return False
    readable = [pattern for pattern in map(read_pattern, patterns) if pattern is not None]
    return any(matches(pattern, text) for pattern in readable)
