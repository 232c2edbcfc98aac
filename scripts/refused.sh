#!/bin/sh
# Runs the built program with each of its allocations refused in turn:  scripts/refused.sh
#
# It does so for `run`, `check`, `upgrade`, `changes` and `suspects` over each example, and also for a recording that is
# refused, a missing file and a usage error. netrev must report a refused allocation once, and change nothing else.
# While it loads, it reports `fault 108 memory` with status 1. After that, the report replaces one reply: a query gets
# `fault 301 memory`, and is sent again; a `continue` or `reverse-continue` gets `fault 302 memory, placed N`, and
# `resume` asks for its reply. That reply and all others must then be right. After it has written some whole lines of
# the right text, `upgrade` reports `fault 108 memory` with status 1 too. If nothing is refused, or netrev could do
# without the allocation, then status, replies and standard error must be right. The first difference ends the script.
set -eu
here=$(cd "$(dirname "$0")" && pwd)
examples=$here/../examples
netrev=${NETREV:-$here/../crates/netrev/out/netrev}
work=$(mktemp -d)
trap 'rm -rf "$work"' EXIT
all=0 told=0

mkfifo "$work/commands" "$work/replies"
cc -O2 -fPIC -shared -o "$work/refused.so" "$here/refused.c" -ldl
echo "fault 108 memory" > "$work/no-memory"
: > "$work/nothing"

# Sends a line to the running netrev, and reads the first line of its reply.
ask() {
	echo "$1" >&5
	read -r reply <&6
}

# Sends the script line by line, each after the reply to the previous one, and writes the replies. If memory was
# refused, it asks for the reply once more, and leaves a line in $work/asked.
answer() {
	while read -r line; do
		ask "$line" || return 0
		case $line in
		continue | c | reverse-continue | rc) refused="fault 302 memory, placed " again=resume ;;
		*) refused="fault 301 memory" again=$line ;;
		esac
		if [ "${reply#"$refused"}" != "$reply" ]; then
			echo "$line" >> "$work/asked"
			ask "$again" || return 0
		fi
		echo "$reply"
		case $reply in
		marks\ * | checkpoints\ *)
			left=${reply#* }
			while [ "$left" -gt 0 ] && read -r reply <&6; do
				echo "$reply"
				left=$((left - 1))
			done
			;;
		esac
	done < "$input" > "$work/output"
}

# Runs netrev with these words and its allocation $number refused, or no allocation if $number is 0.
play() {
	status=0
	: > "$work/asked"
	if [ "${1-}" = run ] && [ $# = 2 ]; then
		exec 5<> "$work/commands"
		REFUSED=$number LD_PRELOAD=$work/refused.so "$netrev" "$@" \
			< "$work/commands" > "$work/replies" 2> "$work/errors" 9> "$work/told" 5>&- &
		exec 6< "$work/replies"
		answer
		wait $! || status=$?
		exec 5>&- 6<&-
	else
		REFUSED=$number LD_PRELOAD=$work/refused.so "$netrev" "$@" \
			< /dev/null > "$work/output" 2> "$work/errors" 9> "$work/told" || status=$?
	fi
}

differs() {
	echo "netrev $*: with allocation $number refused, status $status and" >&2
	cat "$work/output" "$work/errors" >&2
	exit 1
}

# Whether it ended with status $1, printed what is in $work/right, and printed $2 on standard error.
is_right() {
	[ "$status" = "$1" ] && cmp -s "$work/output" "$work/right" && cmp -s "$work/errors" "$2"
}

# Whether netrev printed the first lines of $work/right, then reported that memory ran out, and ended with status 1.
is_begun() {
	head -n "$(($(wc -l < "$work/output") - 1))" "$work/right" | cat - "$work/no-memory" > "$work/begun"
	[ "$status" = 1 ] && cmp -s "$work/output" "$work/begun"
}

# Refuses each allocation of netrev, run with the words from $3 on, until none is left to refuse. Once nothing is
# refused, it must end with status $1 and print $2 on standard error. It may also end in this way after a refusal, if it
# didn't need the allocation, or if one line had to be sent again.
refuse_each() {
	ends=$1 says=$2
	shift 2
	number=0 loading=0 lines=0 writing=0
	while number=$((number + 1)); play "$@"; [ -s "$work/told" ]; do
		all=$((all + 1))
		if is_right "$ends" "$says"; then
			[ ! -s "$work/asked" ] || lines=$((lines + 1))
			continue
		fi
		[ ! -s "$work/errors" ] || differs "$@"
		if [ "$lines" = 0 ] && [ "$status" = 1 ] && cmp -s "$work/output" "$work/no-memory"; then
			loading=$((loading + 1))
		elif [ "${1-}" = upgrade ] && is_begun; then
			writing=$((writing + 1))
		else
			differs "$@"
		fi
	done
	is_right "$ends" "$says" && [ ! -s "$work/asked" ] || differs "$@"
	[ "$loading" != 0 ] || differs "$@"
	told=$((told + loading + lines + writing))
}

# Checks `changes` and `suspects` with each allocation refused.
play_lists() {
	for program in changes suspects; do
		python3 "$here/../python" netrev.model "$program" "$2" > "$work/right" || [ "$1" != 0 ]
		refuse_each "$1" "$work/nothing" "$program" "$2"
	done
}

# Checks an example with all its memory, and then with each allocation refused.
play_example() {
	name=$1
	recording=$examples/$name.jsonl
	input=$work/script number=0
	{ cat "$examples/$name.script"; echo quit; } > "$input"
	{ cat "$examples/$name.replies"; echo bye; } > "$work/right"
	refuse_each 0 "$work/nothing" run "$recording"
	[ "$lines" != 0 ] || differs run "$recording"

	echo "ok $(($(wc -l < "$recording") - 1)) steps" > "$work/right"
	refuse_each 0 "$work/nothing" check "$recording"
	[ "$lines" = 0 ] || differs check "$recording"

	python3 "$here/../python" tests.program.support.case_files "$recording" > "$work/right"
	refuse_each 0 "$work/nothing" upgrade "$recording"
	play_lists 0 "$recording"
}

# Checks a recording that every subcommand refuses: $work/right has the fault.
play_refused() {
	refuse_each 1 "$work/nothing" run "$1"
	refuse_each 1 "$work/nothing" check "$1"
	refuse_each 1 "$work/nothing" upgrade "$1"
	refuse_each 1 "$work/nothing" serve "$1" --port 65535
	play_lists 1 "$1"
}

for recording in "$examples"/*.jsonl; do
	name=$(basename "$recording" .jsonl)
	if grep -q "^step [0-9]*: fault " "$examples/$name.replies"; then
		input=$examples/$name.script
		cp "$examples/$name.replies" "$work/right"
		play_refused "$recording"
	else
		play_example "$name"
	fi
done

# The recording of twelve steps, with six lines, two of which search.
recording=$here/recordings/woken-by-an-event.jsonl
input=$work/script
printf '%s\n' "watch rg 0" continue "stepi 3" "print in 0" reverse-continue "info position" quit > "$input"
printf '%s\n' "mark 1" "at 2 by 1" "at 5" "in 0 = 0" "at 2 by 1" "at 2 of 12 forward" bye > "$work/right"
refuse_each 0 "$work/nothing" run "$recording"
[ "$lines" != 0 ] || differs run "$recording"

input=$examples/first.script
{ head -n 4 "$examples/first.jsonl"; echo '["blockswap",0]'; } > "$work/refused.jsonl"
echo "step 4: fault 107 reason 2" > "$work/right"
play_refused "$work/refused.jsonl"

: > "$work/right"
refuse_each 3 "$work/nothing" run "$work/missing.jsonl"
refuse_each 3 "$work/nothing" check "$work/missing.jsonl"
refuse_each 3 "$work/nothing" upgrade "$work/missing.jsonl"
refuse_each 3 "$work/nothing" changes "$work/missing.jsonl"
refuse_each 3 "$work/nothing" suspects "$work/missing.jsonl"
refuse_each 3 "$work/nothing" serve "$work/missing.jsonl" --port 65535

{
	echo "usage: netrev run FILE"
	echo "       netrev check FILE"
	echo "       netrev upgrade FILE"
	echo "       netrev changes FILE"
	echo "       netrev suspects FILE"
	echo "       netrev serve FILE --port P [--fronts N] [--workers W] [--journal H] [--connections C]"
} > "$work/usage"
refuse_each 2 "$work/usage" walk "$examples/first.jsonl"
refuse_each 2 "$work/usage" run
refuse_each 2 "$work/usage" upgrade
refuse_each 2 "$work/usage" changes
refuse_each 2 "$work/usage" suspects
refuse_each 2 "$work/usage"
refuse_each 2 "$work/usage" serve "$examples/first.jsonl"
refuse_each 2 "$work/usage" serve "$examples/first.jsonl" --port 65535 --fronts 2

echo "Of $all refused allocations $told were told, as they have to be, and $((all - told)) could be done without."
