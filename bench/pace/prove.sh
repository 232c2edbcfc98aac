#!/bin/sh
# Proves and builds the program of bench/pace/crate, nr_pace, and leaves it at out/nr_pace:  bench/pace/prove.sh
#
# Its sources end in .in, because the gate reads all .rt and .antt files and expects only the crates in crates.txt. This crate is proved only
# here: as crates/nr_pace in a copy of the repository, with a line for it in crates.txt.
set -eu
cd "$(dirname "$0")/../.."
copy=$(mktemp -d)
trap 'rm -rf "$copy"' EXIT

tar -cf - --exclude=out --exclude=must-fail HANDLES crates.txt crates scripts/prove.sh | tar -xf - -C "$copy"
echo "nr_pace: nr_rev nr_plain nr_machine nr_recording nr_marks nr_snaps nr_search" >> "$copy/crates.txt"
cp -r bench/pace/crate "$copy/crates/nr_pace"
find "$copy/crates/nr_pace" -name '*.in' | while read -r file; do
	mv "$file" "${file%.in}"
done
CPU='' sh "$copy/scripts/prove.sh" nr_pace
mkdir -p out
cp "$copy/crates/nr_pace/out/nr_pace" out/nr_pace
