#!/bin/sh
# Runs all tests in Python, and the scripts that test the built programs or check the tree:  scripts/tests.sh
#
# First come the tests that may run in parallel, then, one by one, those that measure time or memory or need a given
# port. Tests that are left out for lack of a tool are named in out/left-out.txt, as are all tests if pytest itself
# isn't installed. The status is the number of failed tests, at most 100.
set -eu
cd "$(dirname "$0")/.."
mkdir -p out
: > out/left-out.txt
failed=0

for program in "${NETREV:-crates/netrev/out/netrev}" "${NETREV_PLAIN:-crates/netrev_plain/out/netrev_plain}" \
	"${NR_REFUSED:-crates/nr_refused/out/nr_refused}"; do
	[ -x "$program" ] || { echo "$program isn't built" >&2; exit 1; }
done

# Runs tests. If pytest finds no tests, or can't run them, that counts as one failure.
play() {
	{ sh scripts/pytest.sh "$@" 2>&1 && echo 0 > out/tests.status || echo $? > out/tests.status; } | tee out/tests.log
	read -r status < out/tests.status
	sed -n 's/^left out: //p' out/tests.log >> out/left-out.txt
	[ "$status" != 127 ] || exit 0
	more=$(grep -cE '^(FAILED|ERROR) ' out/tests.log) || more=$((status != 0))
	failed=$((failed + more))
}

play --beside -m "not alone" --durations 10
play -m alone
[ "$failed" -le 100 ] || failed=100
exit "$failed"
