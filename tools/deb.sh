#!/bin/sh
# Makes a Debian package of what ships, fire_VERSION_amd64.deb, in the folder that is named:
#
#     tools/deb.sh [FOLDER]
#
# The same sources give the same package, byte for byte: its times are those of the latest entry of the changelog.
root=$(CDPATH='' cd -- "$(dirname -- "$0")/.." && pwd) || exit 1
. "$root/tools/launcher/call.sh"
. "$root/tools/launcher/fresh.sh"
. "$root/tools/launcher/install.sh"
version=$(sed -n 's/^fire //p' "$root/crates/fire_sessions/data/version.txt")
date='Sun, 29 Nov 2026 12:00:00 +0000'
people='The fire authors <fire@localhost.localdomain>'
SOURCE_DATE_EPOCH=$(date -ud "$date" +%s)
export SOURCE_DATE_EPOCH

refuse() {
    echo "deb: $*" >&2
    exit 1
}

# What is installed, but for what the system does itself: it takes the package away, and has the license.
put_files() {
    without='prove install uninstall' plugin=
    put_all "$room/usr" && rm "$room/usr/lib/fire/uninstall.sh" "$room/usr/share/doc/fire/LICENSE" &&
        sed -i '/uninstall/d' "$room/usr/share/bash-completion/completions/fire"
}

put_documents() {
    cat >"$room/usr/share/doc/fire/copyright" <<TXT
Format: https://www.debian.org/doc/packaging-manuals/copyright-format/1.0/
Upstream-Name: fire

Files: *
Copyright: 2026 The fire authors
License: Apache-2.0
 On Debian systems the full text of the Apache License 2.0 is in
 /usr/share/common-licenses/Apache-2.0.
TXT
    cat >"$room/usr/share/doc/fire/changelog" <<TXT
fire ($version) unstable; urgency=medium

  * What changed is told in CHANGELOG.md of the repository.

 -- $people  $date
TXT
    gzip -9n "$room/usr/share/doc/fire/changelog" "$room/usr/share/man/man1/fire.1" "$room"/usr/share/man/man5/*
}

# What lintian would have otherwise, and why it is so.
put_overrides() {
    mkdir -p "$room/usr/share/lintian/overrides"
    cat >"$room/usr/share/lintian/overrides/fire" <<TXT
# The program is the one that was proved and built, byte for byte.
fire: unstripped-binary-or-object [usr/lib/fire/fire]
# The project has no mail address.
fire: bogus-mail-host Maintainer *
fire: bogus-mail-host-in-debian-changelog *
TXT
}

put_control() {
    mkdir "$room/DEBIAN"
    (cd "$room" && find usr -type f | LC_ALL=C sort | xargs md5sum >DEBIAN/md5sums)
    cat >"$room/DEBIAN/control" <<TXT
Package: fire
Version: $version
Architecture: amd64
Maintainer: $people
Installed-Size: $(du -sk --apparent-size "$room/usr" | cut -f 1)
Depends: libc6 (>= $(glibc_of "$root/dist/fire"))
Recommends: python3 (>= 3.8)
Section: utils
Priority: optional
Description: proved simulator and log decoder of FireWire audio and video buses
 fire runs a script on a simulated IEEE 1394 bus of camcorders, decks,
 computers and relays, and writes every bus reset, packet and event as a log.
 It reads such logs, and tells what stands in them. What it writes is proved.
TXT
}

make() {
    is_fresh dist/fire || { say_what_is_amiss; refuse "dist/ is of other sources: run rt ci && tools/dist.sh"; }
    command -v dpkg-deb >/dev/null || refuse "dpkg-deb is not on the path"
    room=$(mktemp -d) || exit 1
    trap 'rm -rf "$room"' EXIT
    chmod 755 "$room"
    umask 022
    put_files && put_documents && put_overrides && put_control || refuse "the package was not made"
    find "$room" -exec touch -hd "@$SOURCE_DATE_EPOCH" {} +
    dpkg-deb --root-owner-group -Zxz --build "$room" "$1/fire_${version}_amd64.deb" || refuse "the package was not made"
}

usage="usage: tools/deb.sh [FOLDER]: makes fire_${version}_amd64.deb of what ships, in the folder, or here"
case $#:${1-} in
1:--help | 1:-h) echo "$usage" ;;
0: | 1:[!-]*) make "${1:-.}" ;;
*)
    echo "$usage" >&2
    exit 2
    ;;
esac
