#!/bin/sh
# What somebody does who signs commits and has installed the packages: the commands are those of docs/USING.md, and the
# beginning makes what such a person has already: a keyring with a friend, whom they certified, and a stranger, and
# commits by all three. The last line says how many seconds the commands took.
set -e
make() { gpg --batch --quiet --passphrase '' --quick-generate-key "$1 <$1@example.org>" ed25519 cert,sign never; }
fingerprint() { gpg --batch --with-colons --list-keys "$1@example.org" | awk -F: '$1 == "fpr" { print $10; exit }'; }

export GNUPGHOME="$HOME/elsewhere"
mkdir -m 700 "$GNUPGHOME"
make friend
make stranger
gpg --batch --quiet --export > "$HOME/others.pgp"
unset GNUPGHOME
git init -q -b main "$HOME/work"
cd "$HOME/work"
git config user.name Somebody
git config user.email somebody@example.org
commit() { GNUPGHOME=$2 git commit -q --allow-empty -m "by the $1, $3" "-S$(GNUPGHOME=$2 fingerprint "$1")"; }

commit friend "$HOME/elsewhere" 'before they were certified'
sleep 2
make me
gpg --batch --quiet --import "$HOME/others.pgp"
gpg --batch --quiet --passphrase '' --pinentry-mode loopback --yes --quick-sign-key "$(fingerprint friend)"
sleep 2
commit friend "$HOME/elsewhere" afterwards
commit stranger "$HOME/elsewhere" afterwards
commit me "$HOME/.gnupg" afterwards
FINGERPRINT=$(fingerprint me)
export FINGERPRINT

begin=$(date +%s)
# shellcheck source=/dev/null
. /packages/commands
echo "$(($(date +%s) - begin)) seconds"
