#!/bin/sh
# Installs what the gate uses in addition to the toolchain:  scripts/setup.sh
#
# The Debian packages are installed with apt-get as root: pytest and pytest-xdist run the tests in Python, black and
# mypy check the Python sources, chromium opens the pages, Emacs with dap-mode debugs a recording, and go-dap decodes
# the adapter's messages. Two releases of Go go into the user's cache. If something can't be installed, it is named,
# with the command that installs it, and the gate continues; at its end it names each test that it left out. The status
# is always 0. out/setup.log has apt-get's output.
set -eu
cd "$(dirname "$0")/.."
mkdir -p out
log=out/setup.log
packages="black mypy python3-pytest python3-pytest-xdist chromium emacs-nox elpa-dap-mode golang-github-google-go-dap-dev"
began=$(date +%s)
: > "$log"

# Prints the packages that aren't installed.
missing() {
	for package in $packages; do
		dpkg-query -W -f '${Status}\n' "$package" 2> /dev/null | grep -q ' installed$' || echo "$package"
	done
}

# Installs these packages, all or none.
install() {
	DEBIAN_FRONTEND=noninteractive timeout 900 apt-get install -y --no-install-recommends "$@" < /dev/null
}

# Installs these packages, with updated lists if the old ones aren't enough, and one by one if they can't be installed
# together.
install_all() {
	install "$@" || { timeout 300 apt-get update && install "$@"; } || for package in "$@"; do
		install "$package" || echo "$package can't be installed"
	done
}

if ! command -v dpkg-query > /dev/null || ! command -v apt-get > /dev/null; then
	echo "setup: without apt nothing is installed. The gate leaves out what needs a missing one of: $packages"
else
	wanted=$(missing | tr '\n' ' ')
	if [ -n "$wanted" ] && [ "$(id -u)" != 0 ]; then
		echo "setup: not root, so not installed: ${wanted% } (sudo apt-get install ${wanted% })"
	elif [ -n "$wanted" ]; then
		install_all $wanted >> "$log" 2>&1
		left=$(missing | tr '\n' ' ')
		echo "setup: asked apt-get for these, $(($(date +%s) - began)) s: ${wanted% }"
		[ -z "$left" ] || echo "setup: not available here: ${left% } ($log)"
	fi
fi
for release in 1.19 1.27; do
	python3 python dev.recorder.fetching "$release" >> "$log" 2>&1 || echo "setup: Go $release can't be fetched here ($log)"
done
