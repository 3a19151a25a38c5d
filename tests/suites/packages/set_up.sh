#!/bin/sh
# Sets up what only root can, has apt ask, looks what the doctor says, and takes all of it back. What isn't there at the
# end as it was at the beginning is listed last.
files() { find /etc/apt /etc/tukyamid /usr/local -type f -exec sha256sum {} + 2> /dev/null | sort -k 2; }
update() {
    apt-get update > /tmp/update 2>&1
    status=$?
    grep -qE '^[WE]:' /tmp/update && status=1
    echo "update $1: $status"
}

files > /tmp/before
update before
for name in apt dpkg pacman; do
    tukyamid setup $name > /dev/null || echo "setup $name: $?"
done
update 'after setup'
tukyamid doctor | grep -E '^\[[a-z]+\] +program'
tukyamid setup apt --strict > /dev/null || echo "setup apt --strict: $?"
update 'with strict'
for name in apt dpkg pacman; do
    tukyamid setup $name --undo > /dev/null || echo "setup $name --undo: $?"
done
update 'after undo'
files | diff /tmp/before - | sed 's/^/left: /'
