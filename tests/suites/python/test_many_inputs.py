"""Questions about many inputs, each of which may have a service of its own."""

import contextlib

from friends import PEOPLE
from outside import COMMAND, TRUSTING, needs_engine, needs_gpg, run
from test_service import Services
from tukyamid.service.paths_and_locks import Lock, beside

MOST = 8


@needs_engine
@needs_gpg
class ManyInputs(Services):
    def ask(self):
        done = run([COMMAND, "--verifier", TRUSTING, "--root", self.fpr["Alice"], "--time", "2025-12-01", "--keyring",
                    self.friends.keyring, "authenticate", self.fpr["Carol"], PEOPLE["Carol"]], env=self.environment)
        self.assertEqual((done.returncode, done.stderr), (0, b""))
        self.assertIn(b"120 of 120", done.stdout)

    def test_few_of_them_have_a_service_at_a_time(self):
        """Others are answered by an engine of their own. Once one of the services has ended, the next input has one."""
        folder = self.runtime / "tukyamid-held"
        folder.mkdir(mode=0o700)
        others = [folder / f"{number}.socket" for number in range(MOST)]
        with contextlib.ExitStack() as running:
            for other in others[1:]:
                other.touch()
                running.enter_context(Lock(beside(other, ".lock")))
            others[0].touch()
            with Lock(beside(others[0], ".lock")):
                for _ in range(2):
                    self.ask()
                    self.assertEqual(set(folder.glob("*.socket")), set(others))
            self.ask()
            self.assertEqual(len(set(folder.glob("*.socket")) - set(others)), 1)
