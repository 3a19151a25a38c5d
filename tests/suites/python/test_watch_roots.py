"""`tukyamid watch` while its roots in the configuration change."""

from outside import COMMAND, needs_engine, needs_gpg, run
from test_watch import PATIENCE, Watching


@needs_engine
@needs_gpg
class Roots(Watching):
    def test_roots_that_change_while_it_runs(self):
        """A root that is removed from the configuration no longer counts for a watch that runs."""
        config = self.own / "config.toml"
        self.environment["TUKYAMID_CONFIG"] = str(config)

        def configure(**names):
            new = config.with_suffix(".new")
            lines = [f"{self.fpr[name]} = {amount}\n" for name, amount in names.items()]
            new.write_text("".join(["[roots]\n", *lines]))
            new.chmod(0o600)
            new.rename(config)

        configure(Alice=120, Bob=60)
        watch = self.watch(roots=())
        self.report(watch, 120)
        configure(Bob=60)
        self.report(watch, 60, 120)
        self.assertEqual(self.line(watch), "    your roots are others than before\n")
        configure(Alice=120)
        self.report(watch, 120, 60)

    def test_all_roots_are_removed_while_it_runs(self):
        """Nothing is reached any more; the watch says why, and doesn't go on with what it had."""
        config = self.own / "config.toml"
        self.environment["TUKYAMID_CONFIG"] = str(config)
        config.write_text(f"[roots]\n{self.fpr['Alice']} = 120\n")
        config.chmod(0o600)
        watch = self.watch(roots=())
        self.report(watch, 120)
        done = run([COMMAND, "root", "remove", self.fpr["Alice"]], env=self.environment)
        self.assertEqual(done.returncode, 0, done.stderr)
        self.assertEqual((watch.wait(PATIENCE), watch.stdout.read()), (3, b""))
        self.assertIn(b"a trust root is missing", watch.stderr.read())
