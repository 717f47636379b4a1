#!/bin/sh
# deb.sh [FOLDER]: makes dueproxy_VERSION_ARCHITECTURE.deb in FOLDER, or here without one, and prints its name: the proved program, or the one that PROGRAM names, its man page, the unit of systemd, a
# configuration and documents. It needs dpkg-deb and python3. MAINTAINER is a name and an address; without it that of the last commit stands.
set -eu
here=$(cd "$(dirname "$0")" && pwd)
program=${PROGRAM:-$("$here/../dueproxy" --where)}
version=$("$program" --version | sed -n '1s/^dueproxy //p')
architecture=$(dpkg --print-architecture)
maintainer=${MAINTAINER:-$(git -C "$here" log -1 --format='%an <%ae>')}
target=$(cd "${1:-.}" && pwd)/dueproxy_${version}_$architecture.deb
root=$(mktemp -d)
trap 'rm -rf "$root"' EXIT
umask 022
chmod 755 "$root"
docs=$root/usr/share/doc/dueproxy

# A file of the package: its mode, where it comes from, and where it goes.
put() {
    mkdir -p "$root/$(dirname "$3")"
    install -m "$1" "$2" "$root/$3"
}

put 755 "$program" usr/bin/dueproxy
strip --strip-unneeded "$root/usr/bin/dueproxy"
put 644 "$here/dueproxy.service" lib/systemd/system/dueproxy.service
put 644 "$here/dueproxy.cfg" etc/dueproxy/dueproxy.cfg
put 644 "$here/dueproxy.logrotate" etc/logrotate.d/dueproxy
put 644 "$here/copyright" usr/share/doc/dueproxy/copyright
for name in FORMATS OPERATING; do
    put 644 "$here/../docs/$name.md" "usr/share/doc/dueproxy/$name.md"
done
for name in shop walk; do
    put 644 "$here/../examples/$name.cfg" "usr/share/doc/dueproxy/examples/$name.cfg"
done
mkdir -p "$root/usr/share/man/man1"
python3 "$here/man.py" "$program" >"$root/usr/share/man/man1/dueproxy.1"
printf 'dueproxy (%s) stable; urgency=medium\n\n  * The program as it stands in its repository.\n\n -- %s  %s\n' "$version" "$maintainer" "$(git -C "$here" log -1 --format=%aD)" >"$docs/changelog"
gzip -9n "$root/usr/share/man/man1/dueproxy.1" "$docs/changelog" "$docs/FORMATS.md" "$docs/OPERATING.md"

mkdir "$root/DEBIAN"
for name in postinst prerm postrm; do
    install -m 755 "$here/$name" "$root/DEBIAN/$name"
done
printf '%s\n' /etc/dueproxy/dueproxy.cfg /etc/logrotate.d/dueproxy >"$root/DEBIAN/conffiles"
(cd "$root" && find etc lib usr -type f -print0 | LC_ALL=C sort -z | xargs -0 md5sum) >"$root/DEBIAN/md5sums"
cat >"$root/DEBIAN/control" <<CONTROL
Package: dueproxy
Version: $version
Architecture: $architecture
Maintainer: $maintainer
Section: net
Priority: optional
Depends: libc6 (>= 2.34)
Installed-Size: $(du -ks "$root" | cut -f 1)
Description: reverse proxy that serves by class and due date
 It hands HTTP requests to servers, each of which takes so many at once. The
 others wait, and the next free slot is for the first by class, and then by
 due date. What it decides is proved, and its reports say how late requests
 had to be. It reads a subset of the configuration of HAProxy.
CONTROL
dpkg-deb --root-owner-group --build "$root" "$target" >/dev/null
echo "$target"
