#!/bin/sh
# Prints what `nrdb --version` shows about a package's program:  scripts/proved.sh PROGRAM > lib/netrev/proved.txt
#
# That is its SHA-256, and the output of `rt version`. Without the toolchain, it is the version that README.md names.
set -eu
cd "$(dirname "$0")/.."
sha256sum < "$1" | cut -d ' ' -f 1
rt version 2> /dev/null || sed -n 's/.*`\(rattle-kit-[^`]*\)`.*/\1/p' README.md | head -n 1
