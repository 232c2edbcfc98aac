#!/bin/sh
# Makes a Debian package of the archive that scripts/archive.sh left in a folder:  scripts/deb.sh VERSION [FOLDER]
#
# FOLDER (out by default) gets netrev_VERSION_amd64.deb. It contains the archive's netrev (byte for byte), nrdb,
# netrev-go, their man pages and completions, the editors' files, the examples, the pages, the licenses and the gate's
# log. If lintian (a Debian package) is installed, it must report nothing. COMPRESSION=gzip packs faster than xz, but
# less tightly.
set -eu
cd "$(dirname "$0")/.."
version=$1 folder=${2:-out}
name=netrev-$version-linux-x86_64
archive=$folder/$name.tar.gz deb=$folder/netrev_${version}_amd64.deb

[ -f "$archive" ] || {
	echo "deb.sh: no $archive: run \`make package\` first." >&2
	exit 1
}
room=$(mktemp -d)
trap 'rm -rf "$room"' EXIT
tar -C "$room" -xzf "$archive"
top=$room/$name root=$room/root
doc=$root/usr/share/doc/netrev
updates=$root/usr/share/python3/runtime.d
mkdir -p "$root/DEBIAN" "$doc" "$root/usr/share/lintian/overrides" "$root/usr/share/netrev" "$updates"
(cd "$top" && tar -cf - --exclude=__pycache__ bin lib share) | tar -xf - -C "$root/usr"
mv "$top/README.md" "$top/CHANGELOG.md" "$top/CONTRIBUTING.md" "$top/docs" "$top/examples" "$top/tools" "$doc"
mv "$top/editors" "$root/usr/share/netrev/editors"
author="the netrev authors <netrev@netrev.invalid>"
cat > "$doc/changelog" <<END
netrev ($version) unstable; urgency=medium

  * What changed is in CHANGELOG.md beside this file.

 -- $author  $(date -u -R -r "$top/gate.log")
END
mv "$top/gate.log" "$doc/gate.log"
gzip -9n "$doc/changelog" "$doc/gate.log" "$root"/usr/share/man/man1/*.1

cat > "$doc/copyright" <<END
Format: https://www.debian.org/doc/packaging-manuals/copyright-format/1.0/
Upstream-Name: netrev

Files: *
Copyright: $(sed -n 's/^Copyright (c) //p' LICENSE-MIT)
License: Expat or Apache-2.0

License: Expat
$(sed -n '/^Permission is/,$p' LICENSE-MIT | sed 's/^$/./; s/^/ /')

License: Apache-2.0
 On Debian systems the text of this license is in /usr/share/common-licenses/Apache-2.0.
END
cat > "$root/usr/share/lintian/overrides/netrev" <<END
# The program must keep the checksum that the gate stored, so nothing is stripped from it or linked into it again.
netrev: unstripped-binary-or-object [usr/bin/netrev]
END
cat > "$root/DEBIAN/control" <<END
Package: netrev
Version: $version
Architecture: amd64
Maintainer: $author
Section: devel
Priority: optional
Depends: libc6, python3 (>= 3.10)
Recommends: golang-go
Installed-Size: $(du -sk --apparent-size "$root/usr" | cut -f1)
Description: record-and-replay debugger for network programs in Go
 netrev walks a recorded run of a Go program's goroutines, sockets, deadlines
 and network poller in both directions. netrev-go makes recordings of programs
 and tests as they are, and nrdb is the companion at the prompt.
 .
 netrev itself is proved; nrdb and netrev-go aren't.
END
cat > "$root/DEBIAN/postinst" <<END
#!/bin/sh
# Compiles the modules for the installed Python, as Debian's own packages do.
set -e
if [ "\$1" = configure ] && command -v py3compile > /dev/null; then
	py3compile -p netrev /usr/lib/netrev
fi
END
cat > "$updates/netrev.rtupdate" <<END
#!/bin/sh
# Compiles the modules again when the version of Debian's Python has changed.
set -e
if [ "\$1" = rtupdate ]; then
	py3clean -p netrev /usr/lib/netrev
	py3compile -p netrev /usr/lib/netrev
fi
END
cat > "$root/DEBIAN/prerm" <<END
#!/bin/sh
# Removes what Python has compiled.
set -e
[ ! -d /usr/lib/netrev ] || find /usr/lib/netrev -name __pycache__ -prune -exec rm -rf {} +
END
find "$root" -type d -exec chmod 755 {} +
find "$root" -type f -exec chmod u=rwX,go=rX {} +
chmod 755 "$root/DEBIAN/postinst" "$root/DEBIAN/prerm" "$updates/netrev.rtupdate"
(cd "$root" && find usr -type f -print0 | LC_ALL=C sort -z | xargs -0 md5sum > DEBIAN/md5sums)
dpkg-deb --root-owner-group "-Z${COMPRESSION:-xz}" --build "$root" "$deb" > /dev/null
if command -v lintian > /dev/null; then
	lintian --fail-on error,warning "$deb"
else
	echo "left out: lintian: it isn't on this machine (Debian: apt-get install lintian)"
fi
echo "$deb"
