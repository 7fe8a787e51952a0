#!/bin/sh -e
# Lays out an installed folder as a system has it: below.sh MADE PREFIX [FOLDER]. The folder gets its place in
# PREFIX/lib, and what a system looks for is where it looks, Python's package in FOLDER below PREFIX. Packages have
# their manual pages and their list of changes compressed.
home=$2/lib/forestplan share=$2/share pages=$2/share/doc/forestplan
mkdir -p "$2/bin" "$2/lib"
mv "$1" "$home"
mv "$home/share" "$share"
mkdir -p "$pages"
rm "$home/SHA256SUMS"
mv "$home/README.md" "$pages"
mv "$home/CHANGELOG.md" "$pages/changelog"
gzip -9n "$pages/changelog" "$share"/man/man1/*.1
{
  echo "forestplan is under the MIT licence, or the Apache License 2.0 (LICENSE-APACHE, or"
  echo "/usr/share/common-licenses/Apache-2.0)."
  echo
  cat "$home/LICENSE-MIT"
  echo
  cat "$home/LICENSE-THIRD-PARTY"
} >"$pages/copyright"
for name in docs examples LICENSE-MIT LICENSE-APACHE LICENSE-THIRD-PARTY; do
  ln -s "../../../lib/forestplan/$name" "$pages"
done
for name in forestplan forestplay forestlab; do ln -s "../lib/forestplan/bin/$name" "$2/bin"; done
for name in forestplan forestplay; do ln -s forestlab "$share/bash-completion/completions/$name"; done
[ -z "${3-}" ] || { mkdir -p "$2/$3" && ln -sr "$home/src/forestplan" "$2/$3"; }
