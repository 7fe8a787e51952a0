#!/bin/sh -eu
# Tries what `build install --prefix` makes as a package of Debian: lintian finds no error, and what is unpacked runs by
# its links and stays as it is. Call it by hand where lintian and dpkg-dev are installed: tests/by_hand/package.sh
room=$(mktemp -d)
trap 'rm -rf "$room"' EXIT
cd "$(dirname "$0")/../.."
python3 build install --prefix /usr --destdir "$room/made" --python lib/python3/dist-packages
mkdir "$room/made/DEBIAN"
cat >"$room/made/DEBIAN/control" <<END
Package: forestplan
Version: $(python3 build install --version | sed -n 's/^forestplan //p')
Architecture: $(dpkg --print-architecture)
Maintainer: A Packager <packager@example.org>
Depends: libc6, python3
Section: science
Priority: optional
Description: channel plans of interference graphs, by proved programs
 Transmitters need channels, and neighbours must not share one.
END
dpkg-deb --root-owner-group --build "$room/made" "$room/forestplan.deb"
lintian --fail-on error "$room/forestplan.deb"
dpkg-deb --extract "$room/forestplan.deb" "$room/unpacked"
unset PYTHONDONTWRITEBYTECODE PYTHONPYCACHEPREFIX
"$room/unpacked/usr/bin/forestplan" plain <examples/triangle.col
"$room/unpacked/usr/bin/forestlab" network tell petersen
PYTHONPATH=$room/unpacked/usr/lib/python3/dist-packages python3 -B -c 'import forestplan; print(forestplan.plan({1: []}))'
[ -z "$(find "$room/unpacked" -name __pycache__)" ] && echo "package: no error, and nothing is left beside it"
