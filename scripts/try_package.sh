#!/bin/sh
# Tries an archive as a user with nothing else of netrev would:  scripts/try_package.sh ARCHIVE
#
# It unpacks the archive in an empty folder. There, without a toolchain on the PATH and without variables that name
# anything in this checkout, it verifies the checksums, and runs all examples and a hunt in nrdb.
set -eu
archive=$(readlink -f -- "$1")
room=$(mktemp -d)
trap 'rm -rf "$room"' EXIT
cd "$room"
tar -xzf "$archive"
cd netrev-*
if PATH=/usr/bin:/bin command -v rt > /dev/null; then
	echo "try_package.sh: the toolchain is on /usr/bin or /bin, so this would show nothing." >&2
	exit 1
fi
alone() {
	env -i PATH=/usr/bin:/bin HOME="$room" LANG=C.UTF-8 NETREV="$PWD/bin/netrev" "$@"
}
sha256sum --quiet -c SHA256SUMS
alone sh examples/play_all.sh
hunt=examples/hunts/missed-release
alone bin/nrdb --batch -x "$hunt.nrdb" "$hunt.jsonl" > "$room/session"
cmp "$room/session" "$hunt.session"
for name in netrev nrdb netrev-go; do
	[ -s "share/man/man1/$name.1" ] && [ -s "share/bash-completion/completions/$name" ]
done
[ -s editors/emacs/netrev-dap.el ]
python3 -m zipfile -t editors/netrev.vsix > "$room/tested"
alone bin/nrdb --version > "$room/version"
[ "$(alone bin/netrev-go --version)" = "$(sed -n '1s/^nrdb/netrev-go/p' "$room/version")" ]
grep -q "installed with this nrdb" "$room/version" && grep -q "^proofs:  rattle-kit" "$room/version"
echo "The archive runs all examples and a hunt, without a toolchain."
