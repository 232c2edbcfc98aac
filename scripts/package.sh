#!/bin/sh
# Makes out/netrev-VERSION-linux-x86_64.tar.gz (scripts/archive.sh) of the program that passed the gate:
# scripts/package.sh VERSION [PROGRAM]
#
# PROGRAM must be the one that the gate ran, according to the checksum in out/gate.sum. The default is the program built
# here, by the gate or later from the same files; if none was built, netrev is proved and built first.
set -eu
cd "$(dirname "$0")/.."
version=$1 program=${2:-}
built=crates/netrev/out/netrev log=out/gate.log sum=out/gate.sum

fail() {
	echo "package.sh: $1" >&2
	exit 1
}

# Prints the first file of the crates that is newer than a given file.
newer_than() {
	find crates crates.txt -path '*/out' -prune -o -newer "$1" -type f -print | head -n 1
}

[ -s "$log" ] && [ -s "$sum" ] || fail "no gate has passed here (no $log or no $sum): run \`make test\` first."
changed=$(newer_than "$log")
[ -z "$changed" ] || fail "$changed is newer than $log: run \`make test\` first."

if [ -z "$program" ]; then
	[ -e "$built" ] || sh scripts/prove.sh
	program=$built
fi
[ -f "$program" ] && [ -x "$program" ] || fail "$program is no program."
if [ "$(sha256sum < "$program")" != "$(cat "$sum")" ]; then
	[ "$program" -ef "$built" ] && [ -z "$(newer_than "$built")" ] ||
		fail "$program isn't the program that passed the gate: its sum isn't the one in $sum."
fi
sh scripts/proved.sh "$program" > out/proved.txt
exec sh scripts/archive.sh "$version" "$program" "$log" out out/proved.txt
