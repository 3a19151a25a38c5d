"""A program that answers with set replies, to show how replies are framed, also of commands that are still to come."""

import sys

A, B = "aa" * 20, "bb" * 20
N = "11" * 32
REPLIES = {
    "keys": ["keys 3", f"key {A} 1 2", f"key {B} 0 0", f"key {A} 18446744073709551615 3"],
    "pending": ["pending 3", f"sig {N} {A} {B}", f"sig {N} {A} 0123456789abcdef", f"sig {N} {B} -"],
    "list v 120": ["list 2", f"bind 120 {A} Alice", rf"bind 250 {B} B\\ob \x0a"],
    "list v 121": ["list 0"],
    f"explain v {A} Alice": ["explain ok 3", f"cert {N} edge {B} 255 120", f"cert {N} issuer-hard", f"cert {N} older"],
    f"explain v {A} ": ["explain uid 0"],
    f"explain w {A} ": ["refused view"],
    f"explain v {B} ": ["refused absent"],
    f"explain v {A} no target's word": ["explain edge 0"],
    f"explain v {A} no reason's word": ["explain ok 1", f"cert {N} ok"],
    f"explain v {A} an edge alone": ["explain ok 1", f"cert {N} edge"],
    "list w 1": ["refused view"],
    f"ask v {A} 120 Alice": ["amount 120 paths 2", f"path 40 steps 1 root {B}", f"step {B} {A} 0 40 Alice",
                             f"path 80 steps 2 root {B}", f"step {B} {B} 1 80 ", f"step {B} {A} 0 120 Alice and more"],
    f"ask v {A} 120 ": ["amount 0 paths 0"],
    f"absence v {A} 120 Alice": ["absence missed 40", f"claim 40/{B}.0/{A}.1 {A}=2,{B}=1"],
    f"absence v {A} 120 ": ["absence missed 0", "claim - -"],
    f"absence v {A} 40 Alice": ["absence reached 40"],
    f"absence v {A} 120 no claim": ["absence missed 0", f"claim - {B}=1,{A}=1"],
    f"check v {A} 40/{B}.0/{A}.1 {A}=2,{B}=1 Alice": ["checked yes 40"],
    f"check v {A} - {B}=1 Alice": ["checked no table"],
    f"check v {A} 255/{B}.4294967295 - Alice": ["checked no paths"],
    "cursor c over v 120": ["ok"],
    "cursor c close": ["ok"],
    "cursor d over v 120": ["refused full cursors"],
    "cursor d next 1": ["refused cursor"],
    "watch w off": ["ok", "watch u amount 4294967295", "watch x gone"],
    "watch x off": ["refused watch"],
    "watch y on v " + A + " 1 ": ["refused full watches"],
    "watch z on v " + A + " 1 ": ["watch z at 1"],
    "dump": ["dump 2", "import ", f"verdict {N} bad"],
    "import ": ["refused empty"],
    "import 01": ["refused packet 1 0"],
    "import 02": ["refused kind 9 7"],
    "import 03": ["refused order 5"],
    "import 04": ["refused full certificates"],
    "import 05": ["ok taken 1 skipped 2 new 3"],
    "import 06": ["refused clash"],
    "import 07": ["refused secret"],
    "import 08": ["refused compressed"],
    f"load {A}": ["refused misfiled"],
    "load trust-root": ["fault shelf"],
    f"store {A}": ["ok stored 4194304"],
    f"drop {A}": ["refused absent"],
    f"drop {B}": ["ok"],
    "service status": ["service status 3", "certificates 3", "verdicts 5", r"database /tmp/a\\b c"],
    "service find address a@b": ["service find 2", f"bind {A} Alice", rf"bind {B} B\\ob \x0a"],
    "service find user-id Alice": ["service find 0"],
    r"service find part \\\xc3\xab": ["service find 0"],
    f"service find key {A}": ["service find 1", f"bind {A} Alice"],
    f"service issuers {A}": ["service issuers 1", f"by {N} {B}"],
    f"service issuers {B}": ["refused absent"],
    f"service excerpt from {A} {B}": ["service excerpt 2", "import c6", f"verdict {N} bad"],
    f"service certified {A}": ["service certified 1", f"on 1 {B}"],
    f"service certified {B}": ["service certified 0"],
    "service log 2": ["service log 1", r"change 7 1764547200 1000 4711 keyring add /tmp/\xff"],
    "service keyring list": ["service keyring 3", "keyring 3 /tmp/a", "keyring 0 gpg", "fault no such file"],
    "service keyring add /tmp/a": ["service progress certificates 1 of 3", "service progress verdicts 9",
                                   "watch w amount 40", "ok keyring 3 9"],
    r"service keyring add /tmp/\xff": ["fault keyring /tmp/\\xff: no such file"],
    "service keyring remove /tmp/a": ["ok"],
    "service keyring remove gpg": ["refused read-only"],
    f"export {B[:-2]}01": ["fault database"],
    "view v close": ["refused view"],
    "view w close": ["what is this"],
    "view x close": ["keys"],
}
TARGET_WORDS = "ok standing young ended hard soft uid".split()
REASON_WORDS = ("unsound unjudged bad foreign policy early expired revoked older issuer-absent issuer-standing "
                "issuer-young issuer-ended issuer-hard issuer-soft").split()
REPLIES |= {f"explain v {A} {word}": [f"explain {word} 0"] for word in TARGET_WORDS}
REPLIES |= {f"explain v {A} {word}": ["explain ok 1", f"cert {N} {word}"] for word in REASON_WORDS}
PIECES = iter([
    ["piece 2", f"bind 120 {A} Alice", f"bind 120 {B} Bob"], ["stale keyring 3 4"], ["piece 1", f"bind 60 {B} Bob"],
    ["stale view 5 18446744073709551615"],
])
REPLIES[f"explain v {A} edge"] = ["explain ok 1", f"cert {N} edge {B} 0 60"]


def main():
    if sys.argv[1:] != ["run"]:
        return 2
    for line in sys.stdin:
        line = line.removesuffix("\n")
        if line == "view end close":
            return 5
        if line.startswith("export ") and line not in REPLIES:
            print(line)
        elif line.startswith("verdict "):
            print("ok")
        elif line.startswith("watch ") and line.endswith(" Alice"):
            print("watch", line.split(" ")[1], "amount 120")
        elif line == "cursor c next 2":
            print("\n".join(next(PIECES)))
        elif line and not line.startswith("#"):
            print("\n".join(REPLIES.get(line, ["refused line"])))
        sys.stdout.flush()
    return 0


sys.exit(main())
