#!/bin/sh
# Runs in namespaces of its own: a machine on which nobody has been yet, as far as the operator of a page is concerned.
# operator.sh HERE SCRIPT: HERE is a directory of the test's, and SCRIPT has the commands of the document.
set -eu

here=$1
mkdir "$here/above"
mount -t tmpfs none "$here/above"
for folder in /etc /var/lib /srv; do
    upper=$here/above/upper$folder work=$here/above/work$folder
    mkdir -p "$upper" "$work"
    mount -t overlay none -o "lowerdir=$folder,upperdir=$upper,workdir=$work" "$folder"
done
mount -t tmpfs -o mode=755 none /run
rm -f /etc/nginx/sites-enabled/*  # What Debian's own page listens at isn't there without IPv6.
mkdir -p /etc/tukyamid /srv/dump
echo '127.0.0.1 wot.example.org' >> /etc/hosts
cp "$here"/dump/*.pgp /srv/dump/
chmod 755 /etc/tukyamid /srv /srv/dump
chmod 644 /srv/dump/*.pgp
python3 -c 'import fcntl, socket, struct
fcntl.ioctl(socket.socket(), 0x8914, struct.pack("16sh", b"lo", 1))'  # Brings the loopback interface up.
systemd-sysusers "$UNITS/../sysusers/tukyamid.conf"  # As the package does.
sh -eu "$2"
