"""What the shells complete, by the scripts of the packages."""

import os
import subprocess
import unittest

import building
from test_built import output


class Completion(unittest.TestCase):
    """What the shells complete, asked of the shells."""

    def bash(self, *words):
        file = building.unpacked("python3-tukyamid") / "usr/share/bash-completion/completions/tukyamid"
        quoted = " ".join(f"'{word}'" for word in words)
        said = output("bash", "--norc", "-c", f"source '{file}'; COMP_WORDS=({quoted}); COMP_CWORD={len(words) - 1}; "
                      "$(complete -p tukyamid | sed 's/.*-F \\([^ ]*\\).*/\\1/'); printf '%s\\n' \"${COMPREPLY[@]}\"")
        return said.split()

    def test_bash(self):
        for word in "authenticate", "explain", "status":
            self.assertEqual(self.bash("tukyamid", word[:4]), [word])
        self.assertEqual(self.bash("tukyamid", "--key"), ["--keyring"])
        self.assertEqual(self.bash("tukyamid", "lookup", "--ema"), ["--email"])
        self.assertEqual(sorted(self.bash("tukyamid", "--format", "")), ["colons", "dot", "html", "json", "tree"])
        for words, found in [(["verify", "--th"], ["--threshold"]), (["web", "--po"], ["--port"]),
                             (["web", "--pub"], ["--public"]), (["web", "--me"], ["--metrics"]),
                             (["keyring", "re"], ["remove"]), (["doctor", "--so"], ["--socket"]),
                             (["check", "--ro"], ["--root"]), (["status", "--th"], [])]:
            self.assertEqual(self.bash("tukyamid", *words), found)
        self.assertEqual(sorted(self.bash("tukyamid", "verify", "--format", "")), ["colons", "json", "tree"])

    def fish(self, words):
        """What fish completes the last of these words to."""
        file = building.unpacked("python3-tukyamid") / "usr/share/fish/vendor_completions.d/tukyamid.fish"
        said = output("fish", "--no-config", "-c", "source $argv[1]; complete -C $argv[2]", file, f"tukyamid {words}",
                      cwd=building.folder(), env={**os.environ, "HOME": str(building.folder())}, timeout=120)
        return [line.split("\t")[0] for line in said.splitlines()]

    def test_fish(self):
        if not building.installed(["fish"]):
            self.skipTest("fish isn't installed")
        for words, found in [("auth", ["authenticate"]), ("sta", ["status"]), ("--key", ["--keyring"]),
                             ("lookup --ema", ["--email"]), ("verify --th", ["--threshold"]),
                             ("web --pub", ["--public"]), ("keyring re", ["remove"]), ("keyring list --th", []),
                             ("status --th", []), ("--strict list --pat", ["--paths"]), ("check --ro", ["--root"])]:
            with self.subTest(words):
                self.assertEqual(self.fish(words), found)
        self.assertEqual(sorted(self.fish("verify --format ")), ["colons", "json", "tree"])
        (building.folder() / "ring of keys.pgp").touch()
        for words in "--keyring ring", "verify ring", "keyring add ring", "list --keyring ring":
            self.assertEqual(self.fish(words), ["ring of keys.pgp"], words)

    def test_zsh(self):
        if not building.installed(["zsh"]):
            self.skipTest("zsh isn't installed")
        file = building.unpacked("python3-tukyamid") / "usr/share/zsh/vendor-completions/_tukyamid"
        subprocess.run(["zsh", "-n", file], check=True)
        said = output("zsh", "-f", building.__file__.replace("building.py", "complete.zsh"), file.parent, timeout=120,
                      env={**os.environ, "TERM": "dumb"})
        for word in "authenticate", "identify", "lookup", "keyring":
            self.assertIn(word, said)
