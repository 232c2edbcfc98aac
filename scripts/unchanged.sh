#!/bin/sh
# Fails if a file from which a release is made has changed since the gate passed:  scripts/unchanged.sh
#
# It compares the times of files: the gate's log (out/gate.log) must be the newest. Built and compiled files don't
# count.
set -eu
cd "$(dirname "$0")/.."
log=out/gate.log

[ -s "$log" ] && [ -s out/gate.sum ] || {
	echo "no gate has passed here (no $log or no out/gate.sum): run \`make test\` first." >&2
	exit 1
}
parts="CHANGELOG.md CONTRIBUTING.md LICENSE LICENSE-APACHE LICENSE-MIT Makefile README.md crates crates.txt docs editors examples nrdb pyproject.toml
	python scripts tools"
changed=$(find $parts \( -name out -o -name __pycache__ \) -prune -o -newer "$log" -type f -print | head -n 1)
[ -z "$changed" ] || {
	echo "$changed has changed after the gate: run \`make test\` again." >&2
	exit 1
}
