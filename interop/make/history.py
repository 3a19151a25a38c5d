"""One network at many times: nothing changes but the time of the question."""

from collections.abc import Sequence

from cases import Case, Choice, path
from cast import alice, bob, carol, dave
from people import COMPROMISED, RETIRED, Person
from rules import (
    EITHER_DIRECTION, KEY_REVOKED, LIVE, NEWEST_COUNTS, NOT_YET, REVOKED_CERTIFICATION, SUSPECT, VALIDITY, Rule,
)  # fmt: skip

# What happens, in the order of time.
HISTORY = [
    alice.certifies(bob, depth=1, on="2021-01-01", days=730),        # an introducer until the end of 2022
    bob.certifies(carol, on="2021-06-01"),
    bob.certifies(dave, depth=0, amount=90, on="2021-06-01"),
    bob.revokes_certification(carol, on="2022-01-01"),
    bob.certifies(carol, depth=0, amount=70, on="2022-06-01"),
    dave.revokes_key(COMPROMISED, on="2022-09-01"),
    alice.certifies(bob, depth=1, amount=50, on="2023-03-01"),       # again, with less
    bob.revokes_key(RETIRED, on="2023-06-01"),
    bob.certifies(carol, on="2023-09-01"),                           # too late
]  # fmt: skip
TITLE = ("Alice makes Bob an introducer for 2021 and 2022, and in March 2023 again with amount 50. Bob certifies Carol "
         "in June 2021, revokes that in January 2022, certifies her with amount 70 in June 2022, and again in "
         "September 2023. He certifies Dave. Dave's key is revoked as compromised in September 2022, Bob's is retired "
         "in June 2023. ")  # fmt: skip


def asked(whom: Person, at: str, amount: int, rule: Rule, choices: Sequence[Choice] = ()) -> Case:
    paths = [path(amount, alice, *([] if whom == bob else [bob]), whom)] if amount else []
    name = f"{whom.name.lower()}-at-{at.replace(' ', '-').replace(':', '')}"
    title = f"{TITLE}{whom.name} is asked about at {at}."
    return Case(name, title, HISTORY, ask=whom, answer=paths, rule=rule, roots=[(alice, 120)], at=at,
                choices=choices)  # fmt: skip


CASES = [
    asked(carol, "2020-12-01", 0, NOT_YET),
    asked(carol, "2021-05-31 23:59:59", 0, NOT_YET),
    asked(carol, "2021-06-01 00:00:00", 120, LIVE),
    asked(carol, "2021-12-31 23:59:59", 120, EITHER_DIRECTION),
    asked(carol, "2022-01-01 00:00:00", 0, REVOKED_CERTIFICATION),
    asked(carol, "2022-05-31 23:59:59", 0, REVOKED_CERTIFICATION),
    asked(carol, "2022-06-01 00:00:00", 70, LIVE),
    asked(carol, "2022-12-31 23:59:59", 70, LIVE),
    asked(carol, "2023-01-01 00:00:00", 0, VALIDITY),
    asked(carol, "2023-03-01 00:00:00", 50, LIVE),
    asked(carol, "2023-10-01 00:00:00", 0, NEWEST_COUNTS, [
        Choice(0, "Tukyamid", "Bob's newest certification is the edge, and he was retired when he made it"),
        Choice(50, "Sequoia", "the one before it was made in time, and counts instead"),
    ]),
    asked(dave, "2021-07-01 00:00:00", 0, SUSPECT),
    asked(dave, "2024-01-01 00:00:00", 0, SUSPECT),
    asked(bob, "2021-01-01 00:00:00", 120, LIVE),
    asked(bob, "2023-02-01 00:00:00", 0, VALIDITY),
    asked(bob, "2023-05-31 23:59:59", 50, LIVE),
    asked(bob, "2023-06-01 00:00:00", 0, KEY_REVOKED),
]  # fmt: skip
