#!/bin/sh
# Runs in the fresh root: installs the packages of /packages, uses them as an ordinary user, and takes them away. Each
# step's output stands in /results/NAME, and the file /results/steps has a line for each: name, status, seconds.
mkdir /results
export DEBIAN_FRONTEND=noninteractive LC_ALL=C.UTF-8 PATH=/usr/local/sbin:/usr/local/bin:/usr/sbin:/usr/bin:/sbin:/bin

step() {
    name=$1
    shift
    begin=$(date +%s.%N)
    "$@" > "/results/$name" 2>&1 < /dev/null
    status=$?
    echo "$name $status $(echo "$begin $(date +%s.%N)" | awk '{ printf "%.2f", $2 - $1 }')" >> /results/steps
}

user() {
    timeout 600 setpriv --reuid=1000 --regid=1000 --clear-groups \
        env -i HOME=/home/user USER=user PATH=/usr/bin:/bin LC_ALL=C.UTF-8 XDG_RUNTIME_DIR=/run/user/1000 "$@"
}

end_service() {
    user /usr/bin/python3 -c "$(cat << 'END'
import os, signal, time
from tukyamid import connect
process = int(connect("/run/user/1000/tukyamid.socket").status()["process"])
os.kill(process, signal.SIGTERM)
while os.path.exists(f"/proc/{process}"):
    time.sleep(0.1)
END
)"
}

files() {
    find / -xdev \( -path /proc -o -path /sys -o -path /dev -o -path /results -o -path /packages -o -path /tmp \) \
        -prune -o \( -name '*tukyamid*' -o -name '*wot-verdicts*' \) -print | sort
}


# Like an archive's, by the list of its packages.
echo 'deb [trusted=yes] file:/packages ./' > /etc/apt/sources.list.d/local.list
apt-get update > /results/update 2>&1

# As Debian's apt does it. mmdebstrap's takes nothing that is only recommended.
step simulated apt-get -o APT::Install-Recommends=true install --simulate tukyamid
step install apt-get install -y --no-install-recommends /packages/*.deb debian-keyring
step programs apt-get install -y --no-install-recommends git gpg-agent dpkg-dev pacman-package-manager
mkdir -p /home/user /run/user/1000
echo 'user:x:1000:1000::/home/user:/bin/sh' >> /etc/passwd
chown 1000:1000 /home/user /run/user/1000
chmod 700 /run/user/1000

step version user tukyamid --version
step doctor user tukyamid doctor
step quickstart user sh -c "$(cat << 'END'
cd /usr/share/doc/tukyamid/examples && tukyamid-engine run < quickstart.wot | cmp - quickstart.expected
END
)"
if command -v wot-verdicts > /dev/null; then
    step keyring user sh /packages/keyring
    step answer user sh /packages/answer
    step page user sh /packages/answer --format html
    step end end_service
    step newcomer user sh /packages/newcomer.sh
    step ended end_service
fi
step setup sh /packages/set_up.sh
step service user /usr/bin/python3 /packages/by_hand.py
step host /usr/bin/python3 /packages/by_hand.py host

# What an upgrade and a removal have systemd do to units that run. mmdebstrap's policy, that no service starts, is away.
mv /usr/sbin/policy-rc.d /tmp/policy-rc.d
mkdir -p /run/systemd/system
cat > /usr/local/bin/systemctl << 'END'
#!/bin/sh
echo "$*" >> /results/systemctl
case $* in *is-enabled*) echo enabled ;; esac
END
chmod 755 /usr/local/bin/systemctl
step upgrade apt-get -o "DPkg::Path=$PATH" install -y --reinstall --no-install-recommends tukyamid-server
mv /results/systemctl /results/upgraded
step remove apt-get -o "DPkg::Path=$PATH" remove -y '*tukyamid*'
mv /tmp/policy-rc.d /usr/sbin/policy-rc.d
step purge apt-get purge -y '*tukyamid*'
files > /results/left
grep tukyamid /etc/passwd >> /results/left
dpkg -l '*tukyamid*' 2> /dev/null | grep '^[^dunp|+]' >> /results/left
chmod -R a+rX /results
