#!/bin/sh
# Plays an example: examples/play.sh NAME shows each command of NAME.script with its reply on
# NAME.jsonl, and fails if the replies differ from NAME.replies. If NAME.replies begins with the fault of a step,
# netrev must refuse the recording: it answers no command, and exits with status 1.
set -eu
here=$(dirname "$0")
netrev=${NETREV:-$here/../crates/netrev/out/netrev}
name=$1
replies=$(mktemp)
trap 'rm -f "$replies"' EXIT
wanted=0 status=0
if grep -q "^step [0-9]*: fault " "$here/$name.replies"; then wanted=1; fi
"$netrev" run "$here/$name.jsonl" < "$here/$name.script" > "$replies" || status=$?
awk 'NR == FNR { reply[NR] = $0; next }
	{
		printf "%-20s %s\n", "> " $0, reply[++read]
		split(reply[read], word, " ")
		if (word[1] == "marks" || word[1] == "checkpoints")
			for (left = word[2]; left > 0; left--) printf "%-20s %s\n", "", reply[++read]
	}' "$replies" "$here/$name.script"
if [ "$status" != "$wanted" ]; then
	echo "netrev ended with status $status, and not with $wanted." >&2
	exit 1
elif cmp -s "$replies" "$here/$name.replies"; then
	echo "The replies are those of examples/$name.replies."
else
	echo "The replies differ from examples/$name.replies:" >&2
	diff "$here/$name.replies" "$replies" >&2 || true
	exit 1
fi
