"""`tukyamid-sopv`: the stateless interface, over files of certificates and over the service."""

import subprocess

from case import Case
from people import DATA, SIGNED

NOW = "2024-02-22T22:13:20Z"


class Sopv(Case):
    def sopv(self, *words, given=b""):
        return subprocess.run([self.host.folder / "bin/tukyamid-sopv", *words], input=given, capture_output=True,
                              env=self.host.environment, cwd=self.people.folder, check=False)

    def status(self, *words, given=b""):
        return self.sopv(*words, given=given).returncode

    def verification(self, name, mode="binary"):
        return f"{NOW} {self.fpr[name].upper()} {self.fpr[name].upper()} mode:{mode}\n".encode()

    def test_verify(self):
        run = self.sopv("verify", "bob.detached", "ring.pgp", given=DATA)
        self.assertEqual((run.returncode, run.stdout), (0, self.verification("bob")))
        run = self.sopv("verify", "two.detached", "ring.pgp", given=DATA)
        self.assertEqual(run.stdout, self.verification("bob") + self.verification("carol"))
        run = self.sopv("verify", "sub.armored", "ring.pgp", given=DATA)
        self.assertRegex(run.stdout.decode(), rf"^{NOW} [0-9A-F]{{40}} {self.fpr['sub'].upper()} mode:binary\n$")
        self.assertNotIn(self.fpr["sub"].upper(), run.stdout.decode().split(" ")[1])

    def test_no_good_signature(self):
        """Also by a key that has expired or been revoked, and of a signature that has expired."""
        for name, given in (("bob", DATA + b"x"), ("mia", DATA), ("dave", DATA), ("eve", DATA), ("expiring", DATA)):
            run = self.sopv("verify", f"{name}.detached", "ring.pgp", given=given)
            self.assertEqual((run.returncode, run.stdout), (3, b""), name)

    def test_over_the_service(self):
        """Only those that the engine reaches count."""
        self.assertEqual(self.sopv("verify", "bob.detached", "@tukyamid:", given=DATA).stdout, self.verification("bob"))
        for name in ("carol", "marg", "mia", "dave"):
            self.assertEqual(self.status("verify", f"{name}.detached", "@tukyamid:", given=DATA), 3, name)
        self.host.configure('socket = "/nonexistent"\n')
        self.assertEqual(self.status("verify", "bob.detached", "@tukyamid:", given=DATA), 1)

    def test_inline_verify(self):
        place = self.folder / "verifications"
        for name, content, mode in (("bob.opaque", DATA, "binary"),
                                    ("bob.clear", DATA.replace(b"it  \n", b"it\n"), "text")):
            place.unlink(missing_ok=True)
            octets = (self.people.folder / name).read_bytes()
            run = self.sopv("inline-verify", f"--verifications-out={place}", "ring.pgp", given=octets)
            self.assertEqual((run.returncode, run.stdout), (0, content), run.stderr)
            self.assertEqual(place.read_bytes(), self.verification("bob", mode))
        run = self.sopv("inline-verify", f"--verifications-out={place}", "ring.pgp", given=octets)
        self.assertEqual((run.returncode, run.stdout), (59, b""))
        run = self.sopv("inline-verify", "@tukyamid:", given=(self.people.folder / "carol.opaque").read_bytes())
        self.assertEqual((run.returncode, run.stdout), (3, b""))

    def test_dates(self):
        before, after = "2024-02-22T22:13:19Z", "2024-02-22T22:13:21Z"
        for words, status in (([f"--not-before={before}"], 0), ([f"--not-before={after}"], 3),
                              ([f"--not-after={before}"], 3), ([f"--not-after={after}", "--not-before=-"], 0),
                              (["--not-after=yesterday"], 37), (["--not-after=now"], 0)):
            self.assertEqual(self.status("verify", *words, "bob.detached", "ring.pgp", given=DATA), status, words)
        self.assertEqual(SIGNED, 1708640000)

    def test_statuses(self):
        for words, status in ((["version"], 0), (["version", "--sopv"], 0), (["version", "--odd"], 37), (["sign"], 69),
                              ([], 69), (["verify", "bob.detached"], 19), (["verify", "nofile", "ring.pgp"], 61),
                              (["verify", "bob.detached", "nofile"], 61), (["verify", "--odd", "a", "b"], 37),
                              (["verify", "data", "ring.pgp"], 41), (["verify", "@ODD:1", "ring.pgp"], 71),
                              (["inline-verify", "ring.pgp"], 41)):
            self.assertEqual(self.status(*words), status, words)
