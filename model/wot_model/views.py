"""Views, cursors and watches, and the commands that open, move and close them."""

from .questions import amount_of, bind_line, bindings
from .replies import Refused, words

CURSORS = 16
WATCHES = 64


class View:
    """An open view: its time, the amounts of its roots by fingerprint, and its turn."""

    def __init__(self, time):
        self.time = time
        self.roots = {}
        self.turn = 0


class Cursor:
    """A listing in pieces: its view, the wanted amount, the counts at its start, and the last binding printed."""

    def __init__(self, view, wanted, changes, turn):
        self.view = view
        self.wanted = wanted
        self.changes = changes
        self.turn = turn
        self.place = None


class Watch:
    """A question whose amount is reported whenever it changes, and the amount last reported."""

    def __init__(self, view, fingerprint, wanted, user_id, told):
        self.view = view
        self.fingerprint = fingerprint
        self.wanted = wanted
        self.user_id = user_id
        self.told = told


def view_time(machine, name, time):
    if name not in machine.views:
        machine.check_limit("views", len(machine.views) + 1)
        machine.views[name] = View(time)
        machine.count_turn(machine.views[name])
    elif machine.views[name].time != time:
        machine.views[name].time = time
        machine.count_turn(machine.views[name])
    return ["ok"]


def view_root(machine, name, fingerprint, amount):
    view = machine.view(name)
    before = view.roots.get(fingerprint, 0)
    if amount > 0:
        machine.check_limit("roots", len(view.roots.keys() | {fingerprint}))
        view.roots[fingerprint] = amount
    elif view.roots.pop(fingerprint, None) is None:
        raise Refused("absent")
    if amount != before:
        machine.count_turn(view)
    return ["ok"]


def view_close(machine, name):
    machine.view(name)
    del machine.views[name]
    return ["ok"]


def cursor_over(machine, name, view_name, wanted):
    view = machine.view(view_name)
    if name not in machine.cursors and len(machine.cursors) >= CURSORS:
        raise Refused("full", "cursors")
    machine.cursors[name] = Cursor(view_name, wanted, machine.changes, view.turn)
    return ["ok"]


def cursor_next(machine, name, count):
    cursor = machine.cursor(name)
    view = machine.view(cursor.view)
    if cursor.changes != machine.changes:
        return [words("stale keyring", cursor.changes, machine.changes)]
    if cursor.turn != view.turn:
        return [words("stale view", cursor.turn, view.turn)]
    behind = [
        binding
        for binding in bindings(machine, view, cursor.wanted)
        if cursor.place is None or binding[:2] > cursor.place
    ]
    piece = behind[:count]
    if piece:
        cursor.place = piece[-1][:2]
    return [words("piece", len(piece)), *(bind_line(*binding) for binding in piece)]


def cursor_close(machine, name):
    machine.cursor(name)
    del machine.cursors[name]
    return ["ok"]


def watch_on(machine, name, view_name, fingerprint, wanted, user_id):
    view = machine.view(view_name)
    if name not in machine.watches and len(machine.watches) >= WATCHES:
        raise Refused("full", "watches")
    amount = amount_of(machine, view, fingerprint, wanted, user_id)
    machine.watches[name] = Watch(view_name, fingerprint, wanted, user_id, amount)
    return [words("watch", name.decode("ascii"), "amount", amount)]


def watch_off(machine, name):
    machine.watch(name)
    del machine.watches[name]
    return ["ok"]
