"""Regular expressions of scopes, construct by construct: whether an expression covers a user ID.

In each case Alice, the root, makes Bob an introducer of depth 1 and amount 120 with one regular expression as the
scope, and Bob certifies a user ID of Carol's. The answer is 120 if the expression covers the user ID, and else 0.
"""

from collections.abc import Sequence

import grammar
import rules
from cases import Case, Choice, path
from cast import alice, bob, carol
from rules import Rule

COVERS, NOT = True, False
CAROL = "Carol <carol@example.org>"
# GnuPG takes only the form <[^>]+[@.]example\.com>$ as it is, and any other expression as a literal domain.


def row(
    name: str, expression: str, user_id: str | bytes, covers: bool, rule: Rule,
    choices: Sequence[Choice] = (),
) -> Case:  # fmt: skip
    binding = carol.known_as(user_id)
    shown = expression if len(expression) < 100 else f"{expression[:20]} .. ({len(expression)} characters)"
    whom = repr(user_id if len(user_id) < 100 else user_id[:20])
    return Case(
        name,
        f"Alice makes Bob an introducer by the regular expression {shown!r}. He certifies Carol as {whom}, which it "
        f"{'matches' if covers else 'does not match'}.",
        [alice.certifies(bob, depth=1, scope=[expression]), carol.certifies_itself(binding), bob.certifies(binding)],
        ask=binding, answer=[path(120, alice, bob, carol)] if covers else [], rule=rule,
        roots=[(alice, 120)], choices=choices,
    )  # fmt: skip


LITERAL = [
    row("literal", "Carol", "Carol", COVERS, grammar.SINGLE),
    row("literal-elsewhere", "Carl", "Carol", NOT, grammar.SINGLE),
    row("in-the-middle", "aro", "Carol", COVERS, grammar.ANY_PART),
    row("case-matters", "carol", "Carol", NOT, grammar.SINGLE),
    row("longer-than-the-text", "Carol <", "Carol", NOT, grammar.PIECES),
    row("beyond-ascii", "Zoë", "Zoë <zoe@example.org>", COVERS, grammar.SINGLE),
    row("beyond-ascii-other", "Zoë", "Zoe <zoe@example.org>", NOT, grammar.SINGLE),
    row("closing-bracket-is-ordinary", "a]b", "a]b", COVERS, grammar.ORDINARY_CHARACTERS, [
        Choice(120, "Tukyamid", "outside ranges a closing bracket has no significance"),
        Choice(0, "Sequoia", "a closing bracket that closes nothing has to be escaped"),
    ]),
    row("braces-are-ordinary", "a{2}", "a{2}", COVERS, grammar.ORDINARY_CHARACTERS),
    row("braces-count-nothing", "^a{2}$", "aa", NOT, grammar.ORDINARY_CHARACTERS),
    row("hyphen-is-ordinary", "a-c", "b", NOT, grammar.ORDINARY_CHARACTERS),
    row("empty-branch-on-empty", "", "Carol", COVERS, grammar.PIECES),
]  # fmt: skip
BRANCHES = [
    row("first-branch", "Carol|Dave", "Carol", COVERS, grammar.BRANCHES),
    row("second-branch", "Dave|Carol", "Carol", COVERS, grammar.BRANCHES),
    row("no-branch", "Dave|Ellen", "Carol", NOT, grammar.BRANCHES),
    row("three-branches", "Dave|Ellen|Carol", "Carol", COVERS, grammar.BRANCHES),
    row("empty-branch", "Dave|", "Carol", COVERS, grammar.PIECES),
    row("branch-binds-least", "^Dave|arol$", "Carol", COVERS, grammar.BRANCHES),
    row("branches-in-parentheses", "^(Dave|Carol)$", "Carol", COVERS, grammar.PARENTHESES),
    row("branches-in-parentheses-other", "^(Dave|Carol)$", "Carolina", NOT, grammar.PARENTHESES),
    row("nested-parentheses", "^((C|D)(a(r)?)+ol)$", "Carol", COVERS, grammar.PARENTHESES),
]
REPEATED = [
    row("star-none", "^Car*ol$", "Caol", COVERS, grammar.STAR),
    row("star-many", "^Car*ol$", "Carrrrol", COVERS, grammar.STAR),
    row("star-other", "^Car*ol$", "Caxol", NOT, grammar.STAR),
    row("plus-none", "^Car+ol$", "Caol", NOT, grammar.PLUS),
    row("plus-one", "^Car+ol$", "Carol", COVERS, grammar.PLUS),
    row("plus-many", "^Car+ol$", "Carrrrol", COVERS, grammar.PLUS),
    row("question-none", "^Car?ol$", "Caol", COVERS, grammar.QUESTION),
    row("question-one", "^Car?ol$", "Carol", COVERS, grammar.QUESTION),
    row("question-two", "^Car?ol$", "Carrol", NOT, grammar.QUESTION),
    row("star-of-parentheses", "^(Ca|ro)*l$", "Caroroll", NOT, grammar.STAR),
    row("star-of-parentheses-many", "^(Ca|ro)*l$", "CaroCarol", COVERS, grammar.STAR),
    row("star-of-range", "^[a-z]*$", "carol", COVERS, grammar.STAR),
    row("star-of-empty", "^(a*)*$", "aaa", COVERS, grammar.STAR),
    row("star-of-empty-other", "^(a*)*$", "aab", NOT, grammar.STAR),
    row("star-gives-back", "^C.*l$", "Carol", COVERS, grammar.STAR),
    row("plus-of-dot", "^C.+a", "Ca", NOT, grammar.PLUS),
    row("many-ways", "^(a|a)*(a|a)*(a|a)*$", "a" * 40 + "b", NOT, grammar.STAR),
    row("question-of-parentheses", "^Carol( <.*>)?$", CAROL, COVERS, grammar.QUESTION),
]
ANCHORS = [
    row("begins", "^Carol", CAROL, COVERS, grammar.BEGINNING),
    row("begins-not", "^carol", CAROL, NOT, grammar.BEGINNING),
    row("ends", "org>$", CAROL, COVERS, grammar.END),
    row("ends-not", "example$", CAROL, NOT, grammar.END),
    row("whole", "^Carol <carol@example.org>$", CAROL, COVERS, grammar.ANY_PART),
    row("anchor-in-the-middle", "Carol^ <", CAROL, NOT, grammar.BEGINNING),
    row("end-in-the-middle", "Carol$ <", CAROL, NOT, grammar.END),
    row("anchors-in-branches", "^Dave|^Carol", CAROL, COVERS, grammar.BEGINNING),
    row("end-before-line-feed", "Carol$", "Carol\nDave", NOT, grammar.END),
    row("beginning-after-line-feed", "^Dave", "Carol\nDave", NOT, grammar.BEGINNING),
    row("both-on-empty-user-id", "^$", "", COVERS, grammar.BEGINNING),
    row("both-on-another", "^$", "Carol", NOT, grammar.BEGINNING),
]
ANY = [
    row("dot", "^C.rol$", "Carol", COVERS, grammar.ANY),
    row("dot-needs-one", "^Carol.$", "Carol", NOT, grammar.ANY),
    row("dot-beyond-ascii", "^Zo.$", "Zoë", COVERS, grammar.ANY),
    row("dot-beyond-the-basic-plane", "^.$", "\U0001f511", COVERS, grammar.ANY),
    row("dot-takes-one-character", "^.$", "ëë", NOT, grammar.ANY),
    row("escaped-dot", r"carol@example\.org", CAROL, COVERS, grammar.BACKSLASH),
    row("escaped-dot-other", r"carol@example\.org", "Carol <carol@examplexorg>", NOT, grammar.BACKSLASH),
    row("unescaped-dot", "carol@example.org", "Carol <carol@examplexorg>", COVERS, grammar.ANY),
    row("escaped-star", r"^Carol\*$", "Carol*", COVERS, grammar.BACKSLASH),
    row("escaped-letter", r"^C\arol$", "Carol", COVERS, grammar.BACKSLASH, [
        Choice(120, "Tukyamid", "a backslash makes any character that follows it stand for itself"),
        Choice(0, "engines over a library of other expressions", r"there \a is a bell, or an error"),
    ]),
    row("escaped-digit-class", r"^Carol\d$", "Carol7", NOT, grammar.BACKSLASH),
    row("escaped-backslash", r"^a\\b$", r"a\b", COVERS, grammar.BACKSLASH),
    row("escaped-parenthesis", r"\(work\)", "Carol (work)", COVERS, grammar.BACKSLASH),
]  # fmt: skip
RANGES = [
    row("range", "^[CD]arol$", "Carol", COVERS, grammar.RANGE),
    row("range-other", "^[DE]arol$", "Carol", NOT, grammar.RANGE),
    row("range-takes-one", "^[Ca]rol$", "Carol", NOT, grammar.RANGE),
    row("negated", "^[^D]arol$", "Carol", COVERS, grammar.NEGATED),
    row("negated-other", "^[^C]arol$", "Carol", NOT, grammar.NEGATED),
    row("negated-needs-one", "^Carol[^x]$", "Carol", NOT, grammar.NEGATED),
    row("between", "^[A-D]arol$", "Carol", COVERS, grammar.BETWEEN),
    row("between-other", "^[a-d]arol$", "Carol", NOT, grammar.BETWEEN),
    row("between-ends-are-in-it", "^[C-C][a-a]rol$", "Carol", COVERS, grammar.BETWEEN),
    row("between-beyond-ascii", "^Zo[à-ü]$", "Zoë", COVERS, grammar.BETWEEN),
    row("between-in-codepoint-order", "^[A-z]$", "_", COVERS, grammar.BETWEEN),
    row("two-between", "^[0-9A-F]+$", "C0FFEE", COVERS, grammar.BETWEEN),
    row("closing-bracket-first", "^[]a]+$", "]a]", COVERS, grammar.LITERAL_BRACKET),
    row("closing-bracket-after-negation", "^[^]a]$", "b", COVERS, grammar.LITERAL_BRACKET),
    row("closing-bracket-after-negation-other", "^[^]a]$", "]", NOT, grammar.LITERAL_BRACKET),
    row("hyphen-first", "^[-a]+$", "a-a", COVERS, grammar.LITERAL_HYPHEN),
    row("hyphen-last", "^[a-]+$", "a-a", COVERS, grammar.LITERAL_HYPHEN),
    row("hyphen-last-other", "^[a-]+$", "b", NOT, grammar.LITERAL_HYPHEN),
    row("caret-later", "^[a^]+$", "^a", COVERS, grammar.RANGE),
    row("dot-in-range", "^[.]$", "x", NOT, grammar.RANGE),
    row("star-in-range", "^[*+?]+$", "?*+", COVERS, grammar.RANGE),
    row("dollar-in-range", "^Carol[$]$", "Carol$", COVERS, grammar.RANGE),
]
CHOSEN = [
    row("backslash-in-range", r"^[\d]$", "\\", COVERS, grammar.RANGE_BACKSLASH, [
        Choice(120, "Tukyamid, Sequoia", "in a range a backslash is a character like others"),
        Choice(0, "engines over a library of other expressions", r"there [\d] is a digit"),
    ]),
    row("from-bracket-to-letter", "^[]-a]$", "_", COVERS, grammar.RANGE_SAMPLES, [
        Choice(120, "Tukyamid", "the first item may begin with a bracket, and go on to a letter"),
        Choice(0, "an engine that reads a bracket, a hyphen and a letter", "a first bracket stands for itself"),
    ]),
    row("from-hyphen", "^[--a]$", "A", NOT, grammar.RANGE_SAMPLES, [
        Choice(0, "Tukyamid", "a hyphen that comes first stands for itself, so there are a hyphen, and a hyphen and a"),
        Choice(120, "Sequoia", "the second hyphen separates two characters"),
    ]),
    row("up-to-hyphen", "^[+--]$", ",", COVERS, grammar.RANGE_SAMPLES, [
        Choice(120, "Tukyamid", "the range goes from plus to hyphen, and has the comma"),
        Choice(0, "an engine that takes the last hyphen for itself", "a hyphen is literal as the last character"),
    ]),
    row("range-downwards", "^([c-a]|b)$", "b", NOT, grammar.RANGE_ORDER, [
        Choice(0, "Tukyamid", "a range whose first character is greater is an error of the whole expression"),
        Choice(120, "Sequoia", "it is no error there, and the other branch matches"),
    ]),
    row("range-not-closed", "[a", "a", NOT, rules.COVERS_NOTHING),
    row("range-empty", "[]", "a", NOT, rules.COVERS_NOTHING),
    row("range-negated-empty", "[^]", "a", NOT, grammar.RANGE_SAMPLES),
    row("parenthesis-not-closed", "(Carol", "Carol", NOT, rules.COVERS_NOTHING),
    row("parenthesis-not-opened", "Carol)", "Carol", NOT, rules.COVERS_NOTHING),
    row("star-of-nothing", "*", "Carol", NOT, rules.COVERS_NOTHING),
    row("plus-after-branch", "Carol|+", "Carol", NOT, rules.COVERS_NOTHING),
    row("backslash-at-the-end", "Carol\\", "Carol", NOT, rules.COVERS_NOTHING),
    row("star-twice", "Carol**", "Carol", NOT, grammar.PIECE_FAULTS),
    row("plus-and-question", "Carol+?", "Carol", NOT, grammar.PIECE_FAULTS),
    row("empty-parentheses", "^Carol()$", "Carol", COVERS, grammar.PIECE_FAULTS, [
        Choice(120, "Tukyamid, Sequoia", "a branch has zero or more pieces, also in parentheses"),
        Choice(0, "Henry Spencer's library", "its grammar, too, lets a branch be empty, but it refuses ()"),
    ]),
    row("star-of-anchor", "^*Carol", "Carol", COVERS, grammar.PIECE_FAULTS, [
        Choice(120, "Tukyamid, Sequoia", "an anchor is an atom, so a star may follow it"),
        Choice(0, "Henry Spencer's library", "it refuses a star of what may match nothing"),
    ]),
    row("dot-takes-line-feed", "^Carol.Dave$", "Carol\nDave", COVERS, grammar.LINE_FEED, [
        Choice(120, "Tukyamid", "a line feed is a character"),
        Choice(0, "Sequoia", "a user ID with a control character matches nothing"),
    ]),
    row("negated-takes-line-feed", "^Carol[^x]Dave$", "Carol\nDave", COVERS, grammar.LINE_FEED, [
        Choice(120, "Tukyamid", "a line feed is a character"),
        Choice(0, "Sequoia", "a user ID with a control character matches nothing"),
    ]),
    row("1024-characters", "x" * 1023 + "|", "Carol", COVERS, grammar.TEXT_LIMITS, [
        Choice(120, "Tukyamid, Sequoia", "the expression isn't too long"),
        Choice(0, "an engine with a lower limit", "the standard has no limit"),
    ]),
    row("1025-characters", "x" * 1024 + "|", "Carol", NOT, grammar.TEXT_LIMITS, [
        Choice(0, "Tukyamid", "an expression has at most 1,024 characters"),
        Choice(120, "Sequoia", "the standard has no limit"),
    ]),
    row("64-parentheses", "(" * 64 + "Carol" + ")" * 64, "Carol", COVERS, grammar.TEXT_LIMITS, [
        Choice(120, "Tukyamid, Sequoia", "the parentheses aren't nested too deep"),
        Choice(0, "an engine with a lower limit", "the standard has no limit"),
    ]),
    row("65-parentheses", "(" * 65 + "Carol" + ")" * 65, "Carol", NOT, grammar.TEXT_LIMITS, [
        Choice(0, "Tukyamid", "parentheses are nested at most 64 deep"),
        Choice(120, "Sequoia", "the standard has no limit"),
    ]),
]  # fmt: skip
DOMAINS = [
    row("domain", r"<[^>]+[@.]example\.org>$", "<carol@example.org>", COVERS, rules.EXTENDED),
    row("subdomain", r"<[^>]+[@.]example\.org>$", "Carol <carol@mail.example.org>", COVERS, rules.EXTENDED),
    row("other-domain", r"<[^>]+[@.]example\.org>$", "Carol <carol@example.net>", NOT, rules.EXTENDED),
    row("domain-that-ends-alike", r"<[^>]+[@.]example\.org>$", "Carol <carol@badexample.org>", NOT, rules.EXTENDED),
    row("domain-that-begins-alike", r"<[^>]+[@.]example\.org>$", "Carol <c@example.org.evil.net>", NOT,
        rules.EXTENDED),
    row("domain-in-the-name", r"<[^>]+[@.]example\.org>$", "carol@example.org <carol@evil.net>", NOT, rules.EXTENDED),
    row("domain-in-the-name-unanchored", r"carol@example\.org", "carol@example.org <carol@evil.net>", COVERS,
        grammar.ANY_PART),
    row("bare-domain", "example.org", CAROL, COVERS, grammar.ANY_PART),
]  # fmt: skip

CASES = [*LITERAL, *BRANCHES, *REPEATED, *ANCHORS, *ANY, *RANGES, *CHOSEN, *DOMAINS]
