#!/usr/bin/env bash
# Makes a tarball and a Debian package of what tools/install.sh installs, in a folder.
#   tools/dist.sh FOLDER
# They need glibc, and Python 3.11 for the tools and the kit; no prover and no toolchain. Both name the commits of which the programs were built, as `make bin services`
# left them in $BIN (bin without $BIN), that of the rest, and how the gate's run ended, where $BIN/gate tells it of the program's commit, as .ci/run does: `commit HASH`,
# and below it a line. What Debian's strip, dpkg-deb and pandoc do is left out without them, by name.
set -euo pipefail
repository=$(realpath "$(dirname "$0")/..")
mkdir -p "$1"
folder=$(realpath "$1")
work=$(mktemp -d)
trap 'rm -rf "$work"' EXIT
cd "$repository"
version=0.$(git log -1 --format=%cd --date=format:%Y%m%d.%H%M)+git$(git rev-parse --short=8 HEAD)
maintainer=$(git log -1 --format='%an <%ae>')
bin=${BIN:-bin}

# The commit in a file; `-dirty` stands behind it where something wasn't committed.
commit_in() { if [ -f "$1" ]; then echo "commit $(cat "$1")"; else echo "a commit that isn't known"; fi; }

# What all this was built of.
built() {
    local program
    program=$(commit_in "$bin/okws.commit")
    echo "okws: of $program"
    [ ! -x "$bin/svc_guest" ] || echo "svc_guest, svc_probe: of $(commit_in "$bin/services.commit")"
    echo "all else: of commit $(git describe --always --dirty --abbrev=40 --exclude '*')"
    if [ -f "$bin/gate" ] && [ "$(sed -n 1p "$bin/gate")" = "$program" ]; then
        echo "The gate over okws's commit ended with: $(sed -n 2p "$bin/gate")"
    else
        echo "How the gate over okws's commit ended isn't known."
    fi
}

strip_programs() {
    command -v strip >/dev/null || { echo "dist: there is no strip, so the programs keep their symbols"; return; }
    for program in "$work"/usr/bin/okws "$work"/usr/bin/okws-run "$work"/usr/lib/okws/*; do
        [ ! -f "$program" ] || strip --strip-unneeded "$program"
    done
}

make_tarball() {
    local tarball=$folder/okws-$version-linux-$(uname -m).tar.gz
    tar -C "$work/usr" --owner=0 --group=0 --sort=name --mtime="@$(git log -1 --format=%ct)" --transform "flags=r;s,^\.,okws-$version," -czf "$tarball" .
    echo "$tarball"
}

# What a package of Debian has beside the tarball's files.
add_documents() {
    local doc=$work/usr/share/doc/okws
    install -D -m 644 "$work/usr/share/okws/tools/okws.logrotate" "$work/etc/logrotate.d/okws"
    mkdir -p "$doc" "$work/DEBIAN"
    echo /etc/logrotate.d/okws >"$work/DEBIAN/conffiles"
    for name in BUILT README.md docs examples; do ln -s "../../okws/$name" "$doc/$name"; done
    printf 'Copyright %s %s\nThe repository of which this was built states no licence.\n' "$(git log -1 --format=%cd --date=format:%Y)" "$maintainer" >"$doc/copyright"
    {
        printf 'okws (%s) unstable; urgency=medium\n\n  * ' "$version"
        built | sed '2,$s/^/    /'
        printf '\n -- %s  %s\n' "$maintainer" "$(git log -1 --format=%cD)"
    } | gzip -n9 >"$doc/changelog.gz"
}

make_package() {
    local package
    command -v dpkg-deb >/dev/null || { echo "dist: there is no dpkg-deb, so no package of Debian"; return; }
    add_documents
    cat >"$work/DEBIAN/control" <<C
Package: okws
Version: $version
Architecture: $(dpkg --print-architecture)
Maintainer: $maintainer
Installed-Size: $(du -ks "$work/usr" | cut -f1)
Depends: libc6 (>= 2.34), python3:any (>= 3.11)
Suggests: haproxy, nodejs
Section: web
Priority: optional
Description: web server of least-privilege compartments, proved
 A launcher, a dispatcher, a template publisher, a log daemon, a proxy for
 each database, and one child program for each web service, which gets from
 the others what the site's configuration gives it, and nothing else.
 .
$(built | fold -sw 76 | sed 's/^/ /; s/ *$//')
C
    package=$folder/okws_${version}_$(dpkg --print-architecture).deb
    chmod -R u=rwX,go=rX "$work"
    dpkg-deb --root-owner-group -Zxz --build "$work" "$package" >/dev/null
    echo "$package"
}

DESTDIR=$work tools/install.sh /usr
built >"$work/usr/share/okws/BUILT"
strip_programs
make_tarball
make_package
