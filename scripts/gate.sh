#!/bin/sh
# The gate:  scripts/gate.sh [--anew]
#
# It runs `rt ci` first, with the log in out/gate.log and the time of each crate in out/minutes.tsv. A toolchain that
# stores results skips what passed in an earlier run on this machine and hasn't changed. --anew makes such a toolchain
# prove and try everything again; other toolchains don't know this option. The verdicts are stored in out/verdicts.json,
# to be compared with docs/proof/TRUSTED.md. If `rt ci` passes, each edit that must fail must also be refused for the
# right reason: an edit doesn't count if it couldn't be tried, if the prover gave up on it, or if it is refused only
# because a proof file names what the edit removes. Then all tests in Python run, and the scripts that belong to them
# (scripts/tests.sh): the tests of the built program in python/tests/program, scripts/refused.sh, each example and
# examples/shared.sh, the tests of nrdb, which include the hunts of examples/hunts, and the tests of the recorder and
# the fuzzer. If a Go is installed, the samples and ten tests are recorded with it and compared; otherwise the gate says
# that they were left out. netrev must print the same as netrev_plain, whose world consists of lists
# (python/tests/program/agree.py). The pages must agree with the tree (scripts/pages.py), and black and mypy, if
# installed, must have no complaint about the Python code (scripts/lint.sh). The last line is that of `rt ci`, with one
# more failure for each of these checks that failed, and with the number of tests that were skipped because a tool is
# missing. Skipped tests are listed above that line, and don't count as passed. If nothing failed and pytest is
# installed, the checksum of the tested program is stored in out/gate.sum, for scripts/package.sh.
set -eu
cd "$(dirname "$0")/.."
mkdir -p out
log=out/gate.log sum=out/gate.sum
rm -f "$sum"
unset NETREV NETREV_PLAIN # (so that the program built here is tested)

# One job for each check, because a check with four jobs uses a quarter more processor time than with one. As
# many checks run at once as the machine has processors, but at most one for each 5 GB of available memory. (If `rt ci` is given a number of
# checks, it ignores the memory.)
fit=$(awk '/^MemAvailable:/ { print int($2 / 5000000) }' /proc/meminfo)
lanes=$(nproc)
[ "$fit" -ge "$lanes" ] || lanes=$fit
[ "$lanes" -lt 1 ] || export RT_JOBS="${RT_JOBS:-$lanes}"

# (The status of a pipe's first command is lost unless the command itself writes it to a file.)
{ python3 scripts/minutes.py out/minutes.tsv rt ci "$@" 2>&1 && echo 0 > out/gate.status || echo $? > out/gate.status; } | tee "$log"
read -r status < out/gate.status
[ "$status" = 0 ] || exit "$status"
python3 scripts/verdicts.py "$log"

more=0
if grep -E "BAD EDIT|only by a limit of the prover|only because a proof file names" "$log" >&2; then
	echo "These edits say nothing of a contract: change a value and keep the names." >&2
	more=$((more + 1))
fi
sh scripts/tests.sh || more=$((more + $?))

# prints the time of each crate from out/minutes.tsv
python3 scripts/minutes.py out/minutes.tsv | tail -n 2

# names what was left out here; that doesn't count as passed
skipped=$(wc -l < out/left-out.txt)
[ "$skipped" = 0 ] || { echo "left out here:" && sed 's/^/    /' out/left-out.txt; }

last=$(tail -n 1 "$log")
passed=${last%% passed*} failed=${last#*passed, }
[ "$more" != 0 ] || grep -q '^pytest: ' out/left-out.txt || sha256sum < crates/netrev/out/netrev > "$sum"
skipped=$([ "$skipped" = 0 ] || echo ", $skipped skipped")
echo "$passed passed, $((${failed%% failed*} + more)) failed$skipped"
[ "$more" = 0 ]
