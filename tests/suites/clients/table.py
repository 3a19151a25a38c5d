"""The table of docs/CLIENTS.md: what each program accepts with gpg, and with tukyamid-gpg by default and strict."""

from asked import CASES, MODES
from made import Made
from programs import PROGRAMS, answers, lacks

SHORT = {"signature expired": "sig. expired", "two": "two signers"}


def row(name, found):
    """A program's row: for each case a letter for each mode, A if it accepts and r if it refuses."""
    letters = ["".join("A" if found[mode][case] else "r" for mode in MODES) for case in CASES]
    return f"| {name} | {' | '.join(letters)} |\n"


def head():
    names = [SHORT.get(case, case) for case in CASES]
    return f"| program | {' | '.join(names)} |\n|{'---|' * (1 + len(names))}\n"


def table():
    """The whole table, of the programs that are here."""
    return head() + "".join(row(name, answers(Made.once(), program)) for name, program in PROGRAMS.items()
                            if lacks(program) is None)
