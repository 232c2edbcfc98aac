#!/bin/sh
# Packs a netrev program with everything that belongs to it:  scripts/archive.sh VERSION PROGRAM LOG FOLDER [PROVED]
#
# FOLDER gets netrev-VERSION-linux-x86_64.tar.gz, and its checksum beside it. The archive contains PROGRAM, nrdb,
# netrev-go, their man pages and completions, README and the pages, the editors' files, the examples, the licenses, LOG
# (the gate's), and SHA256SUMS of all of these. If PROGRAM is proved, PROVED is the file that names the toolchain
# (scripts/proved.sh); the caller has to make sure that PROGRAM passed a gate (scripts/package.sh).
set -eu
cd "$(dirname "$0")/.."
version=$1 program=$2 log=$3 folder=$4 proved=${5:-}
name=netrev-$version-linux-x86_64

room=$(mktemp -d)
trap 'rm -rf "$room"' EXIT
top=$room/$name
make --no-print-directory -s install-files PROGRAM="$program" DESTDIR= PREFIX="$top"
[ -z "$proved" ] || cp "$proved" "$top/lib/netrev/proved.txt"
mkdir -p "$top/tools/go"
cp README.md CHANGELOG.md CONTRIBUTING.md LICENSE LICENSE-MIT LICENSE-APACHE "$top"
cp tools/go/README.md "$top/tools/go"
cp "$log" "$top/gate.log"
tar -cf - docs editors examples | tar -xf - --no-same-owner -C "$top"
python3 scripts/vsix.py "$top/editors/netrev.vsix"
(cd "$top" && find . -type f ! -name SHA256SUMS -print0 | LC_ALL=C sort -z | xargs -0 sha256sum > "$room/sums")
mv "$room/sums" "$top/SHA256SUMS"
tar -C "$room" --sort=name --owner=0 --group=0 --numeric-owner -czf "$folder/$name.tar.gz" "$name"
(cd "$folder" && sha256sum "$name.tar.gz" > "$name.tar.gz.sha256")
echo "$folder/$name.tar.gz"
