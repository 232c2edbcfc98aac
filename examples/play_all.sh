#!/bin/sh
# Plays all examples in README.md's list, and then a session that two people share:  examples/play_all.sh [--alone]
#
# NETREV names the program, as for play.sh. With --alone no session is shared.
set -eu
here=$(dirname "$0")
for name in $(sed -n 's/^| `\([^`]*\)` |.*/\1/p' "$here/README.md"); do
	[ -e "$here/$name.script" ] || continue
	echo
	echo "== $name"
	sh "$here/play.sh" "$name"
done
[ "${1-}" != --alone ] || exit 0
echo
echo "== shared"
sh "$here/shared.sh"
