#!/bin/sh
# Installs the Debian package in a temporary root, and does there what README shows:  scripts/try_deb.sh DEB [GO]
#
# GO is a folder with a Go release as Debian's packages unpack it (`python3 python dev.recorder.fetching 1.27` prints the
# folder of its commands). debootstrap (a Debian package) makes the root; it needs root privileges and Debian's mirror.
# The root has no Go of its own, and apt must not install one, so recommended packages are left out.
set -eu
deb=$(readlink -f -- "$1")
cd "$(dirname "$0")/.."
go=${2:-$(python3 python dev.recorder.fetching 1.27)}
release=$(basename "$(dirname "$go")")
usr=$(readlink -f -- "$go/../../..")
room=$(mktemp -d)
trap 'rm -rf "$room"' EXIT
root=$room/root
debootstrap --variant=minbase --include=python3 bookworm "$root" > "$room/log" || {
	tail -n 5 "$room/log" >&2
	exit 1
}
mkdir -p "$root/usr/lib" "$root/usr/share" "$root/root/hijacked"
cp -a "$usr/lib/$release" "$root/usr/lib/"
cp -a "$usr/share/$release" "$root/usr/share/"
cp "$deb" "$root/root/"
cp tools/go/samples/hijacked/main.go "$root/root/hijacked/main.go"
echo 'APT::Install-Recommends "false";' > "$root/etc/apt/apt.conf.d/00netrev"
inside() {
	chroot "$root" env -i PATH="/usr/lib/$release/bin:/usr/bin:/bin:/usr/sbin:/sbin" HOME=/root LANG=C.UTF-8 GO111MODULE=off "$@"
}
mount -t proc proc "$root/proc"
trap 'umount "$root/proc"; rm -rf "$room"' EXIT
began=$(date +%s)
python3 python tests.program.support.readme_rooms "$root"
inside netrev-go doctor
inside sh -c 'cd /root/hijacked && netrev-go -o hijacked run main.go once && [ -s hijacked.jsonl ]'
inside sh -c 'cd /root/hijacked && nrdb --suspects hijacked.jsonl' || [ $? = 4 ] # (4: there are some)
echo "README and a recording of one's own: $(($(date +%s) - began)) s"
hunt=/usr/share/doc/netrev/examples/hunts/missed-release
inside sh -c "nrdb --batch -x $hunt.nrdb $hunt.jsonl | cmp - $hunt.session"
inside sh -c 'for name in netrev nrdb netrev-go; do [ -s /usr/share/man/man1/$name.1.gz ] || exit 1; done'
inside python3 -m zipfile -t /usr/share/netrev/editors/netrev.vsix
inside dpkg --verify netrev
inside dpkg -r netrev
[ ! -e "$root/usr/lib/netrev" ]
echo "The package installs, records, finds and goes again."
