"""The people, what they signed, and the service, made once for all tests."""

import gnupg
import people as making
from host import Host

HOW = {"detached": ("--detach-sign",), "clear": ("--clear-sign",), "opaque": ("--sign",),
       "armored": ("--armor", "--detach-sign"), "textual": ("--textmode", "--detach-sign")}


class Made:
    _host = None

    @classmethod
    def once(cls):
        """The host, with a file `NAME.HOW` for each of the people and each way to sign in their folder."""
        if cls._host is None:
            people = making.make(gnupg.FOLDER)
            for name in making.USER_IDS:
                for how, words in HOW.items():
                    people.write(f"{name}.{how}", people.sign(name, how=words))
            people.write("expiring.detached", people.sign("bob", options=("--default-sig-expire", "10d")))
            people.write("two.detached", people.sign("bob", "carol"))
            people.write("half.detached", people.sign("bob", "mia"))
            people.write("sender.detached", people.sign("bob@example.org"))
            people.write("data", making.DATA)
            people.write("altered", making.DATA + b"x")
            making.finish(people)
            cls._host = Host(people.folder, people)
            cls._host.start()
        return cls._host

    @classmethod
    def end(cls):
        if cls._host is not None:
            cls._host.end()
