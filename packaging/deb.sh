#!/usr/bin/env bash
# Makes the Debian packages ciserver and ciserver-runner in out/, of the program that .ci/provide leaves. The same commit gives the same bytes.
#
#   packaging/deb.sh [VERSION]        as in: packaging/deb.sh 0.1.0
#
# Without a version it is that of the program, ~, and the moment and the name of the last commit: a later one is an upgrade, and the release itself too. The maintainer is
# DEBFULLNAME <DEBEMAIL>, as Debian's tools have it. It wants dpkg-deb, gzip, python3, python3-yaml and xz; lintian looks at the packages where it is there, and an error of it ends this with 1.
set -euo pipefail
cd "$(dirname "$0")/.."
. .ci/dist.sh
.ci/provide
room=$(mktemp -d)
trap 'rm -rf "$room"' EXIT
umask 022
moment=$(git log -1 --format=%ct 2> /dev/null || date +%s)
export SOURCE_DATE_EPOCH=${SOURCE_DATE_EPOCH:-$moment} LC_ALL=C
number=$(bin/ciserver --version | head -n 1 | cut -d ' ' -f 2)
version=${1:-$number~$(date -u -d "@$SOURCE_DATE_EPOCH" +%Y%m%d%H%M%S).$(git rev-parse --short=8 HEAD 2> /dev/null || echo none)}
maintainer="${DEBFULLNAME:-Bozskerun maintainers} <${DEBEMAIL:-maintainers@users.noreply.bozskerun.example}>"

# The program without its symbols, as dist/ has it.
cp bin/ciserver "$room/program"
if is_built; then llvm strip -o "$room/program" bin/ciserver; fi

# filled FILE SIZE: the file with what is known by now.
filled() {
  local text
  text=$(< "$1")
  text=${text//@VERSION@/"$version"} text=${text//@SIZE@/"$2"} text=${text//@GLIBC@/"$(told glibc dist/BUILT)"}
  echo "${text//@MAINTAINER@/"$maintainer"}"
}

# package NAME PART: makes one package.
package() {
  local name=$1 tree=$room/$1 script
  mkdir -p "$tree/DEBIAN" "$tree/usr/share/doc/$name"
  PREFIX=/usr SYSCONFDIR=/etc DESTDIR=$tree PROGRAM=$room/program packaging/install.sh "$2"
  install -m 644 packaging/debian/copyright "$tree/usr/share/doc/$name/copyright"
  install -m 644 "packaging/debian/$name.README.Debian" "$tree/usr/share/doc/$name/README.Debian"
  printf '%s (%s) unstable; urgency=medium\n\n  * What an operator must know of each version is in CHANGELOG.md of ciserver.\n\n -- %s  %s\n' \
    "$name" "$version" "$maintainer" "$(date -u -R -d "@$SOURCE_DATE_EPOCH")" | gzip -9n > "$tree/usr/share/doc/$name/changelog.gz"
  for script in postinst prerm postrm; do install -m 755 "packaging/debian/$name.$script" "$tree/DEBIAN/$script"; done
  (cd "$tree" && find etc -type f -printf '/%p\n' | sort > DEBIAN/conffiles)
  (cd "$tree" && find usr -type f -print0 | sort -z | xargs -0 md5sum > DEBIAN/md5sums)
  filled "packaging/debian/$name.control" "$(du -ks --apparent-size "$tree" | cut -f 1)" > "$tree/DEBIAN/control"
  find "$tree" -newermt "@$SOURCE_DATE_EPOCH" -exec touch --no-dereference --date="@$SOURCE_DATE_EPOCH" {} +
  mkdir -p out
  dpkg-deb --root-owner-group --build -Zxz "$tree" out > /dev/null
}

package ciserver server
package ciserver-runner runner
made=("out/ciserver_${version}_amd64.deb" "out/ciserver-runner_${version}_all.deb")
sha256sum "${made[@]}"
if command -v lintian > /dev/null; then lintian --allow-root --tag-display-limit 0 --fail-on error "${made[@]}"; fi
