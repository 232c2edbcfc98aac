#!/bin/sh
# Plays the session of docs/guide/sharing.md:  examples/shared.sh
#
# Two people share examples/first.jsonl, each with their own `nc`, and take turns as examples/shared.script says. The
# script shows each line with its reply. It fails if the replies and the last output differ from shared.replies, or if
# the session takes more than a minute.
[ -n "${WITHIN-}" ] || WITHIN=60 exec timeout 60 sh "$0"
set -eu
here=$(cd "$(dirname "$0")" && pwd)
netrev=${NETREV:-$here/../crates/netrev/out/netrev}
work=$(mktemp -d)
server=
trap '[ -z "$server" ] || kill "$server"; rm -rf "$work"' EXIT

if command -v nc > /dev/null; then
	join() { nc 127.0.0.1 "$1"; }
else
	echo "nc isn't on this machine: Python takes its place."
	join() {
		python3 -c '
import socket, sys
with socket.create_connection(("127.0.0.1", int(sys.argv[1]))) as caller, caller.makefile("rw") as lines:
    for line in sys.stdin:
        lines.write(line)
        lines.flush()
        print(lines.readline(), end="", flush=True)
' "$1"
	}
fi

# Joins at a port as soon as netrev listens there. (A join that is refused has read nothing.)
join_soon() {
	tries=0
	until join "$1" 2> /dev/null; do
		tries=$((tries + 1))
		[ "$tries" -lt 500 ] || return 1
		sleep 0.02
	done
}

if [ -d "$here/../python/tests" ]; then
	port=$(python3 "$here/../python" tests.program.support.sharing 2)
else
	# (an archive of netrev lacks the tests, which choose free ports)
	port=$((10240 + $$ % 10000 * 2))
fi
"$netrev" serve "$here/first.jsonl" --port "$port" --fronts 2 --connections 1 > "$work/end" &
server=$!
mkfifo "$work/one" "$work/to-one" "$work/other" "$work/to-other"
join_soon "$port" < "$work/one" > "$work/to-one" &
join_soon $((port + 1)) < "$work/other" > "$work/to-other" &
exec 3> "$work/one" 4< "$work/to-one" 5> "$work/other" 6< "$work/to-other"

while read -r person line; do
	case $person in
	One) echo "$line" >&3 && read -r reply <&4 ;;
	Other) echo "$line" >&5 && read -r reply <&6 ;;
	esac
	printf '%-6s > %-18s %s\n' "$person" "$line" "$reply"
	echo "$reply" >> "$work/replies"
done < "$here/shared.script"
exec 3>&- 4<&- 5>&- 6<&-

wait "$server"
server=
cat "$work/end" | tee -a "$work/replies"
if cmp -s "$work/replies" "$here/shared.replies"; then
	echo "The replies are those of examples/shared.replies."
else
	echo "The replies differ from examples/shared.replies:" >&2
	diff "$here/shared.replies" "$work/replies" >&2 || true
	exit 1
fi
