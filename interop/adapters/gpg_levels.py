"""gpg asked about a case, for the adapters of its trust models. INTEROP_GPG names another gpg than the one in PATH.

gpg knows no amounts but levels: a user ID is fully valid (an amount of 120 and more), marginally valid (1 to 119), or
not known to be valid. Its roots are the keys of ultimate owner trust. Each case has a home directory of its own.
"""

import re

from adapter import CannotAsk, Case, Words, files, program, roots, run, user_id

FULL, MARGINAL = {"amount": 120, "most": 65535}, {"amount": 1, "most": 119}
LEVELS = {"u": FULL, "f": FULL, "m": MARGINAL}
LETTERS = {b"n": b"\n", b"r": b"\r", b"f": b"\f", b"v": b"\v", b"b": b"\b", b"0": b"\0"}
FIXED = ("--batch", "--no-tty", "--no-autostart", "--no-auto-check-trustdb", "--no-options", "--quiet",
         "--display-charset", "utf-8")


def version() -> str:
    return run([program("INTEROP_GPG", "gpg"), "--version"]).stdout.decode().splitlines()[0]


def check_askable(case: Case) -> None:
    """CannotAsk if gpg has no way to ask what the case asks."""
    if any(amount < 120 for _, amount in roots(case)):
        raise CannotAsk("gpg trusts a root ultimately or not at all")
    wanted = case["question"].get("amount", 120)
    if wanted > 120:
        raise CannotAsk("gpg has no amount above full validity")
    if len(case["question"]["fingerprint"]) > 40:
        raise CannotAsk("gpg 2.2 doesn't read keys of version 6")


def answer(case: Case, trust_model: str) -> Case:
    """The answer of gpg with this trust model."""
    check_askable(case)
    with files(case) as (folder, keyrings):
        home = folder / "home"
        home.mkdir(mode=0o700)
        gpg: Words = [program("INTEROP_GPG", "gpg"), "--homedir", home, *FIXED, "--trust-model", trust_model,
               "--faked-system-time", f"{case['time']}!"]
        run([*gpg, "--import-options", "import-local-sigs", "--import", *keyrings])
        trust = folder / "owner-trust"
        trust.write_text("".join(f"{root}:6:\n" for root, _ in roots(case)), encoding="ascii")
        run([*gpg, "--import-ownertrust", trust])
        run([*gpg, "--check-trustdb"])
        listed = run([*gpg, "--with-colons", "--list-keys", case["question"]["fingerprint"]])
    return level_of(listed.stdout, user_id(case))


def level_of(listed: bytes, wanted: bytes) -> Case:
    """What a listing says about this user ID."""
    for line in listed.splitlines():
        fields = line.split(b":")
        if fields[0] == b"uid" and unescaped(fields[9]) == wanted:
            return LEVELS.get(fields[1].decode(), {"amount": 0})
    return {"amount": 0}


def unescaped(field: bytes) -> bytes:
    """A user ID as it is in the key: a listing has a colon, a backslash and control characters as \\xNN, and some of
    the latter by a letter."""
    def octet(found: re.Match[bytes]) -> bytes:
        return LETTERS.get(found[1]) or bytes.fromhex(found[1][1:].decode())
    return re.sub(rb"\\([nrfvb0]|x[0-9a-f]{2})", octet, field)
