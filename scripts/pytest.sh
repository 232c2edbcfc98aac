#!/bin/sh
# Runs pytest with a Python that has it:  scripts/pytest.sh [--beside] [WORDS ..]
#
# With --beside, and if pytest-xdist is installed, as many tests run in parallel as there are processors, or JOBS. Both
# are Debian packages; if the first python3 on the PATH isn't Debian's, it doesn't see them.
set -eu
for python in python3 /usr/bin/python3 ""; do
	[ -z "$python" ] || ! "$python" -c "import pytest" 2> /dev/null || break
done
if [ -z "$python" ]; then
	echo "left out: pytest: it isn't on this machine (Debian: apt-get install python3-pytest python3-pytest-xdist)"
	exit 127
fi
if [ "${1-}" = --beside ]; then
	shift
	if "$python" -c "import xdist" 2> /dev/null; then
		set -- -n "${JOBS:-$(nproc)}" "$@"
	fi
fi
cd "$(dirname "$0")/.."
exec "$python" -m pytest -q "$@"
