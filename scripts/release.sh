#!/bin/sh
# Puts a release into out/release, ready to be published:  scripts/release.sh VERSION
#
# It takes the archive and the Debian package from out/, where `make deb` leaves them after the gate has passed. It adds
# SHA256SUMS and RELEASE-NOTES.md, which has the sections of CHANGELOG.md about VERSION and about unreleased changes.
set -eu
cd "$(dirname "$0")/.."
version=$1
archive=netrev-$version-linux-x86_64.tar.gz deb=netrev_${version}_amd64.deb
room=out/release
new=$(mktemp -d out/release-XXXXXX)
trap 'rm -rf "$new"' EXIT
cp "out/$archive" "out/$deb" "$new"
python3 scripts/notes.py "$version" CHANGELOG.md > "$new/RELEASE-NOTES.md"
(cd "$new" && sha256sum "$archive" "$deb" RELEASE-NOTES.md > SHA256SUMS)
chmod 755 "$new"
rm -rf "$room"
mv "$new" "$room"
(cd "$room" && sha256sum --quiet -c SHA256SUMS && ls -l)
