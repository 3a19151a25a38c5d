"""Which commands are of what kind, and what their lines cost.

A command is added to one of the first four sets, and to `COSTS`. It is also in `ALONE` if its reply is long, and in
`OF_THE_WHOLE` if slices can't answer it while the keyring is loaded.
"""

# A command that the service doesn't know is refused, as by an engine that doesn't know it. So none is passed on that
# changes an engine, or names something of another client, without the service's knowledge.
CHANGES = frozenset((b"import", b"drop", b"verdict"))
OF_A_VIEW = frozenset((b"ask", b"list", b"explain", b"absence", b"check"))
OF_THE_KEYRING = frozenset((b"keys", b"pending", b"export"))
OF_THE_DIRECTORY = frozenset((b"load", b"store"))
# Lines that are under way alone: their replies are long, or what they do takes more than one step.
ALONE = OF_THE_KEYRING | OF_THE_DIRECTORY | {b"list", b"explain", b"absence", b"dump", b"cursor", b"service"}
# While the first engine loads the keyring, lines of these kinds wait for it; all others are answered from slices.
OF_THE_WHOLE = CHANGES | OF_THE_DIRECTORY | {b"list", b"absence", b"check", b"keys", b"pending", b"dump", b"watch",
                                             b"cursor"}
MAY_CHANGE = CHANGES | OF_THE_DIRECTORY

# What a line costs its user's share: quick questions, long ones, what the database is searched for, changes, and what
# costs nothing.
ASK, LONG, FIND, CHANGE, FREE = range(5)
COSTS = {b"ask": ASK, b"check": ASK, b"watch": ASK, b"list": LONG, b"explain": LONG, b"absence": LONG, b"cursor": LONG,
         b"keys": LONG, b"pending": LONG, b"export": LONG, b"service": FIND, **{word: CHANGE for word in CHANGES}}

# Questions are refused while their answers may be too old. Those without an effect also if that is known only later.
WITHOUT_EFFECT = OF_A_VIEW | OF_THE_KEYRING
QUESTIONS = WITHOUT_EFFECT | {b"dump", b"watch", b"cursor"}
QUESTIONS_OF_THE_SERVICE = frozenset((b"find", b"issuers", b"certified", b"holders", b"excerpt", b"log", b"unverified"))

# With what the service itself refuses a line, or a client.
REFUSED_LINE = b"refused line\n"
REFUSED_LONG = b"refused long\n"
REFUSED_READ_ONLY = b"refused read-only\n"
REFUSED_CLIENTS = b"refused full clients\n"


def cost_of(word: bytes, line: bytes) -> int:
    """What a line with this word costs."""
    cost = COSTS.get(word, FREE)
    if cost == FIND and line.startswith(b"service keyring"):
        return FREE  # One keyring is read at a time, and that may take minutes.
    return cost
