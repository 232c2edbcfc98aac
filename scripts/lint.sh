#!/bin/sh
# Runs black and mypy on netrev's Python code, as pyproject.toml configures them:  scripts/lint.sh [--if-there]
#
# If a tool isn't installed, that is a failure; with --if-there, as the gate calls it, the tool is named and left out.
# Both are Debian packages.
set -eu
cd "$(dirname "$0")/.."
status=0 how=${1-}

# Whether a tool is installed; if not, prints its name.
is_here() {
	command -v "$1" > /dev/null && return
	echo "left out: $1: it isn't on this machine (Debian: apt-get install $1)"
	[ "$how" = --if-there ] || status=1
	return 1
}

if is_here black; then black --quiet --check --diff python scripts conftest.py test_by_pytest.py || status=1; fi
if is_here mypy; then mypy || status=1; fi
exit $status
