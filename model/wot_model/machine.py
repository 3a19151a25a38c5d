"""The plain machine: a state of certificates, verdicts and views, and the table of commands."""

from . import keyring, questions, script, views
from .answers import next_path_by_layers
from .questions import amount_of
from .replies import Refused, words
from .shelf import MemoryShelf, ShelfFailed

LIMITS = {
    "certificate": 4194304,
    "certificates": 65536,
    "octets": 268435456,
    "signatures": 1048576,
    "verdicts": 2097152,
    "views": 16,
    "roots": 64,
}


class Machine:
    """The state. `next_path` is the search that questions use; `load` reads the `shelf`, and `store` writes there."""

    def __init__(self, next_path=next_path_by_layers, limits=LIMITS, shelf=None):
        self.certificates = {}
        self.verdicts = {}
        self.views = {}
        self.cursors = {}
        self.watches = {}
        self.changes = 0
        self.turns = 0
        self.next_path = next_path
        self.limits = limits
        self.shelf = shelf or MemoryShelf()

    def line(self, line):
        """One step: the lines of the reply and the watch lines behind it, as text; none for a line without a reply."""
        if script.is_silent(line):
            return []
        return [*self.reply(line), *self.watch_lines()]

    def reply(self, line):
        try:
            if len(line) > script.LONGEST_LINE:
                raise Refused("long")
            form, values = script.read_line(line, COMMANDS)
            return COMMANDS[form](self, *values)
        except script.Malformed:
            return ["refused line"]
        except ShelfFailed:
            return ["fault shelf"]
        except Refused as refusal:
            return [words("refused", *refusal.words)]

    def watch_lines(self):
        """A line for each watch whose amount has changed, and for each whose view is closed, which is then removed."""
        for name, watch in sorted(self.watches.items()):
            if watch.view not in self.views:
                del self.watches[name]
                yield words("watch", name.decode("ascii"), "gone")
                continue
            amount = amount_of(self, self.views[watch.view], watch.fingerprint, watch.wanted, watch.user_id)
            if amount != watch.told:
                watch.told = amount
                yield words("watch", name.decode("ascii"), "amount", amount)

    def transcript(self, octets):
        """The replies to all lines of an input, as octets."""
        replies = (self.line(line) for line in script.lines_of(octets))
        return "".join(reply + "\n" for lines in replies for reply in lines).encode("ascii")

    def view(self, name):
        if name not in self.views:
            raise Refused("view")
        return self.views[name]

    def cursor(self, name):
        if name not in self.cursors:
            raise Refused("cursor")
        return self.cursors[name]

    def watch(self, name):
        if name not in self.watches:
            raise Refused("watch")
        return self.watches[name]

    def count_change(self):
        self.changes += 1

    def count_turn(self, view):
        self.turns += 1
        view.turn = self.turns

    def check_limit(self, word, count):
        if count > self.limits[word]:
            raise Refused("full", word)


# To add a command, write its function in `keyring`, `questions` or `views`, and add it here with the form of its line.
COMMANDS = {
    "import HEX": keyring.import_,
    "load NAME": keyring.load,
    "store FPR": keyring.store,
    "drop FPR": keyring.drop,
    "verdict NUM good FPR": keyring.set_verdict,
    "verdict NUM bad": keyring.set_bad,
    "verdict NUM none": keyring.clear_verdict,
    "view V time T": views.view_time,
    "view V root FPR A": views.view_root,
    "view V close": views.view_close,
    "ask V FPR N UID": questions.ask,
    "list V N": questions.list_,
    "explain V FPR UID": questions.explain,
    "absence V FPR N UID": questions.absence_,
    "check V FPR PATHS TABLE UID": questions.check,
    "pending": questions.pending,
    "keys": questions.keys,
    "export FPR": questions.export,
    "dump": questions.dump,
    "cursor V over V N": views.cursor_over,
    "cursor V next N": views.cursor_next,
    "cursor V close": views.cursor_close,
    "watch V on V FPR N UID": views.watch_on,
    "watch V off": views.watch_off,
}
