#!/bin/sh
# Proves and builds a program, and leaves it at crates/NAME/out/NAME:  scripts/prove.sh [NAME]
#
# The default NAME is netrev. `rt ci` proves the program and the crates below it in a copy without the other crates.
# What an earlier run on this machine proved for the same files, in any checkout, isn't proved again. CPU names the
# processors for which the program is built, such as x86-64-v3; without CPU these are x86-64-v2 and later.
# With CPU the crates are proved in this checkout, and not in a copy; the proofs don't depend on CPU.
set -eu
cd "$(dirname "$0")/.."
top=${1:-netrev}

# Prints a crate and the crates below it, from the lines of crates.txt.
below() {
	awk -v top="$1" '
		/^[a-z]/ { name = $1; sub(/:$/, "", name); line = $0; sub(/^[^:]*:/, "", line); needs[name] = line }
		function add(name, words, count, i) {
			if (!(name in needs) || (name in seen)) return
			seen[name] = 1
			count = split(needs[name], words, " ")
			for (i = 1; i <= count; i++) add(words[i])
			print name
		}
		END { add(top) }' crates.txt
}

if [ -n "${CPU:-}" ]; then
	cd "crates/$top"
	exec rt run --cpu="$CPU"
fi
copy=$(mktemp -d)
trap 'rm -rf "$copy"' EXIT
cp HANDLES "$copy"
mkdir "$copy/crates"
for crate in $(below "$top"); do
	grep -E "^$crate[ :]" crates.txt >> "$copy/crates.txt"
	(cd crates && tar -cf - --exclude=out --exclude=must-fail "$crate") | tar -xf - -C "$copy/crates"
done
(cd "$copy" && rt ci)
mkdir -p "crates/$top/out"
cp "$copy/crates/$top/out/$top" "crates/$top/out/$top"
