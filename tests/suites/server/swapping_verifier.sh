#!/bin/sh
# Stands for the verifier: each $SWAPPED/FILE takes the place of $WATCHED/FILE just before a keyring is read. Then it
# does what trusting_verifier.py does, with little memory.
if [ "$2" = --certificates ]; then
    (cd "$SWAPPED" && find . ! -type d ! -name '*-end' -exec mv -fT '{}' "$WATCHED/{}" ';') || exit 70
fi
exec prlimit --as=1000000000 "$(dirname "$0")/trusting_verifier.py" "$@"
