"""Time: when a certification, a trust signature and a key begin and end, and at which second."""

from cases import Case, Choice, path
from cast import alice, anna, bob, carol
from octets import seconds, subpacket
from people import Person, key_expires_after
from rules import (
    BEFORE_END, KEY_END, KEY_NEVER, KEY_VALIDITY, LIVE, MOST_RECENT, NEVER_EXPIRES, NOT_YET, NO_WRAP,
    TARGET, VALIDITY,
)  # fmt: skip

ROOT = [(alice, 120)]
FOREVER = seconds(0xFFFFFFFF)
TWO_YEARS = key_expires_after(731)  # of a key that was made on 1 January 2020: it ends as 2022 begins


def certified_for_2021(at: str, is_live: bool) -> Case:
    return Case(
        f"certification-for-2021-at-{in_name(at)}",
        f"On 1 January 2021 Alice certifies Bob for a year. He is asked about at {at}.",
        [alice.certifies(bob, on="2021-01-01", days=365)],
        ask=bob, answer=[path(120, alice, bob)] if is_live else [], rule=LIVE if at < "2021-01-02" else VALIDITY,
        roots=ROOT, at=at,
    )  # fmt: skip


def introduced_for_2021(at: str, is_live: bool) -> Case:
    return Case(
        f"introducer-for-2021-at-{in_name(at)}",
        "On 1 January 2021 Alice makes Bob an introducer for a year. That day he certifies Carol, without an end. She "
        f"is asked about at {at}.",
        [alice.certifies(bob, depth=1, on="2021-01-01", days=365), bob.certifies(carol, on="2021-01-01")],
        ask=carol, answer=[path(120, alice, bob, carol)] if is_live else [], rule=VALIDITY, roots=ROOT, at=at,
    )  # fmt: skip


def key_until_2022(at: str, is_live: bool) -> Case:
    return Case(
        f"key-until-2022-at-{in_name(at)}",
        f"Bob's key is valid until the end of 2021. Alice certifies him, and he is asked about at {at}.",
        [bob.certifies_itself(says=TWO_YEARS), alice.certifies(bob)],
        ask=bob, answer=[path(120, alice, bob)] if is_live else [], rule=KEY_VALIDITY, roots=ROOT, at=at,
    )  # fmt: skip


def certified_by_ending_key(on: str, counts: bool) -> Case:
    return Case(
        f"introducer-s-key-ends-certified-at-{in_name(on)}",
        f"Bob's key is valid until the end of 2021. Alice makes him an introducer; he certifies Carol at {on}. She is "
        "asked about in 2024.",
        [bob.certifies_itself(says=TWO_YEARS), alice.certifies(bob, depth=1), bob.certifies(carol, on=on)],
        ask=carol, answer=[path(120, alice, bob, carol)] if counts else [], rule=BEFORE_END, roots=ROOT,
    )  # fmt: skip


def certified_by_ending_root(on: str, counts: bool) -> Case:
    return Case(
        f"root-s-key-ends-certified-at-{in_name(on)}",
        f"The key of Alice, the root, is valid until the end of 2021. She certifies Bob at {on}. He is asked about in "
        "2024.",
        [alice.certifies_itself(says=TWO_YEARS), alice.certifies(bob, on=on)],
        ask=bob, answer=[path(120, alice, bob)] if counts else [], rule=BEFORE_END, roots=ROOT,
    )  # fmt: skip


def in_name(at: str) -> str:
    return at.replace(" ", "-").replace(":", "")


CASES = [
    certified_for_2021("2020-12-31 23:59:59", False), certified_for_2021("2021-01-01 00:00:00", True),
    certified_for_2021("2021-12-31 23:59:59", True), certified_for_2021("2022-01-01 00:00:00", False),
    certified_for_2021("2024-01-01 00:00:00", False),
    introduced_for_2021("2021-12-31 23:59:59", True), introduced_for_2021("2022-01-01 00:00:00", False),
    key_until_2022("2021-12-31 23:59:59", True), key_until_2022("2022-01-01 00:00:00", False),
    key_until_2022("2024-01-01 00:00:00", False),
    certified_by_ending_key("2021-12-31 23:59:59", True), certified_by_ending_key("2022-01-01 00:00:00", False),
    certified_by_ending_key("2023-01-01 00:00:00", False),
    certified_by_ending_root("2021-12-31 23:59:59", True), certified_by_ending_root("2022-01-01 00:00:00", False),
    Case(
        "introducer-s-certification-ended",
        "Alice makes Bob an introducer. He certifies Carol for the year 2021, and she is asked about in 2024.",
        [alice.certifies(bob, depth=1), bob.certifies(carol, days=365)],
        ask=carol, answer=[], rule=VALIDITY, roots=ROOT,
    ),
    Case(
        "period-of-0",
        "Alice certifies Bob, with a validity period of 0 seconds.",
        [alice.certifies(bob, says=subpacket(3, seconds(0)))],
        ask=bob, answer=[path(120, alice, bob)], rule=NEVER_EXPIRES, roots=ROOT,
    ),
    Case(
        "period-of-one-second-in-it",
        "At the beginning of 2021 Alice certifies Bob for one second. He is asked about in it.",
        [alice.certifies(bob, says=subpacket(3, seconds(1)))],
        ask=bob, answer=[path(120, alice, bob)], rule=LIVE, roots=ROOT, at="2021-01-01 00:00:00",
    ),
    Case(
        "period-of-one-second-after-it",
        "At the beginning of 2021 Alice certifies Bob for one second. He is asked about a second later.",
        [alice.certifies(bob, says=subpacket(3, seconds(1)))],
        ask=bob, answer=[], rule=LIVE, roots=ROOT, at="2021-01-01 00:00:01",
    ),
    Case(
        "longest-period",
        "Alice certifies Bob for 4294967295 seconds, which end in 2157.",
        [alice.certifies(bob, says=subpacket(3, FOREVER))],
        ask=bob, answer=[path(120, alice, bob)], rule=NO_WRAP, roots=ROOT,
    ),
    Case(
        "longest-period-of-a-key",
        "Bob's key is valid for 4294967295 seconds, which end in 2156. Alice certifies him.",
        [bob.certifies_itself(says=subpacket(9, FOREVER)), alice.certifies(bob)],
        ask=bob, answer=[path(120, alice, bob)], rule=NO_WRAP, roots=ROOT,
    ),
    Case(
        "after-2038",
        "Alice certifies Bob. He is asked about in 2050, when 31 bits of seconds are over.",
        [alice.certifies(bob)],
        ask=bob, answer=[path(120, alice, bob)], rule=NEVER_EXPIRES, roots=ROOT, at="2050-01-01",
    ),
    Case(
        "expired-after-2038",
        "Alice certifies Bob for 10,000 days. He is asked about in 2050, when they are over.",
        [alice.certifies(bob, days=10000)],
        ask=bob, answer=[], rule=VALIDITY, roots=ROOT, at="2050-01-01",
    ),
    Case(
        "last-second",
        "Alice certifies Bob. He is asked about in the last second that four octets have, in 2106.",
        [alice.certifies(bob)],
        ask=bob, answer=[path(120, alice, bob)], rule=NO_WRAP, roots=ROOT, at="2106-02-07 06:28:15",
    ),
    Case(
        "first-second",
        "Alice certifies Bob. He is asked about at the beginning of 1970, long before.",
        [alice.certifies(bob)],
        ask=bob, answer=[], rule=NOT_YET, roots=ROOT, at="1970-01-01",
    ),
    Case(
        "from-the-future",
        "Alice certifies Bob on 1 January 2025. He is asked about a year before.",
        [alice.certifies(bob, on="2025-01-01")],
        ask=bob, answer=[], rule=NOT_YET, roots=ROOT,
    ),
    Case(
        "introduced-after-the-certification",
        "Bob certifies Carol in 2021. Two years later Alice makes him an introducer.",
        [alice.certifies(bob, depth=1, on="2023-01-01"), bob.certifies(carol)],
        ask=carol, answer=[path(120, alice, bob, carol)], rule=LIVE, roots=ROOT,
    ),
    Case(
        "key-period-of-0",
        "Bob's self-certification says a validity period of 0 seconds for his key. Alice certifies him.",
        [bob.certifies_itself(says=subpacket(9, seconds(0))), alice.certifies(bob)],
        ask=bob, answer=[path(120, alice, bob)], rule=KEY_NEVER, roots=ROOT,
    ),
    Case(
        "key-extended",
        "Bob's key is valid until the end of 2021. On 1 July 2021 he extends it by a new self-certification, without "
        "an end.",
        [bob.certifies_itself(says=TWO_YEARS), bob.certifies_itself(on="2021-07-01"), alice.certifies(bob)],
        ask=bob, answer=[path(120, alice, bob)], rule=MOST_RECENT, roots=ROOT,
    ),
    Case(
        "key-extended-before-that",
        "As before, but Bob is asked about in March 2022, and extended his key on 1 July 2022: it has ended.",
        [bob.certifies_itself(says=TWO_YEARS), bob.certifies_itself(on="2022-07-01"), alice.certifies(bob)],
        ask=bob, answer=[], rule=KEY_VALIDITY, roots=ROOT, at="2022-03-01",
    ),
    Case(
        "key-extended-after-its-end",
        "Bob's key was valid until the end of 2021. On 1 July 2022 he extends it by a new self-certification.",
        [bob.certifies_itself(says=TWO_YEARS), bob.certifies_itself(on="2022-07-01"), alice.certifies(bob)],
        ask=bob, answer=[path(120, alice, bob)], rule=MOST_RECENT, roots=ROOT,
    ),
    Case(
        "key-shortened",
        "Bob's key has no end. On 1 July 2021 he says by a new self-certification that it ends with 2021.",
        [bob.certifies_itself(), bob.certifies_itself(on="2021-07-01", says=TWO_YEARS), alice.certifies(bob)],
        ask=bob, answer=[], rule=MOST_RECENT, roots=ROOT,
    ),
    Case(
        "introducer-s-key-extended-after-its-end",
        "Bob's key was valid until the end of 2021. In 2022 he certifies Carol, and in 2023 he extends his key.",
        [bob.certifies_itself(says=TWO_YEARS), bob.certifies_itself(on="2023-01-01"), alice.certifies(bob, depth=1),
         bob.certifies(carol, on="2022-07-01")],
        ask=carol, answer=[path(120, alice, bob, carol)], rule=KEY_END, roots=ROOT, choices=[
            Choice(120, "Tukyamid, gpg", "what governs the key at the time of the question sets its end"),
            Choice(0, "Sequoia", "the self-signatures of the time of the certification set its end"),
        ],
    ),
    Case(
        "certified-before-the-issuer-s-key",
        "Alice made her key on 1 January 2020. She certifies Bob with a date of the day before. He made his in 2008.",
        [alice.certifies(OLD_BOB := Person("Old Bob", made="2008-01-01"), on="2019-12-31")],
        ask=OLD_BOB, answer=[], rule=BEFORE_END, roots=ROOT,
    ),
    Case(
        "certified-before-the-target-s-key",
        "Anna, whose key is of 2008, certifies Bob with a date of 2015. He made his key in 2020.",
        [anna.certifies(bob, on="2015-01-01")],
        ask=bob, answer=[path(120, anna, bob)], rule=TARGET, roots=[(anna, 120)], choices=[
            Choice(120, "Tukyamid", "only the issuer's key must exist when it certifies"),
            Choice(0, "Sequoia", "the target has no self-signature that is at least as old as the certification"),
        ],
    ),
    Case(
        "before-the-target-s-key",
        "Anna certifies Bob with a date of 2015, and his self-signature has that date too. He made his key in 2020, "
        "and is asked about in 2018.",
        [anna.certifies(bob, on="2015-01-01"), bob.certifies_itself(on="2015-01-01")],
        ask=bob, answer=[], rule=TARGET, roots=[(anna, 120)], at="2018-01-01",
    ),
    Case(
        "the-second-of-the-key",
        "Alice and Bob made their keys at the beginning of 2020, and Alice certifies him in that second. He is asked "
        "about in it.",
        [alice.certifies(bob, on="2020-01-01")],
        ask=bob, answer=[path(120, alice, bob)], rule=LIVE, roots=ROOT, at="2020-01-01",
    ),
]  # fmt: skip
