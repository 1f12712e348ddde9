#!/usr/bin/env bash
# Installs the programs that `make bin services` left in bin, and all that needs no building: tools, kits, bridges, pages and examples.
#   tools/install.sh PREFIX     below $DESTDIR, if that is set; the programs are those of $BIN, if that is set
# PREFIX/share/okws has the tools, kits, bridges, docs and examples as they lie in this repository; PREFIX/bin has the programs and links to the tools.
set -euo pipefail
repository=$(realpath "$(dirname "$0")/..")
prefix=$1
root=${DESTDIR:-}$prefix
bin=${BIN:-$repository/bin}
share=$root/share/okws
[ -x "$bin/okws" ] || { echo "install: there is no program $bin/okws: make bin services builds it" >&2; exit 1; }

# The files of a folder that git has, or all where there is no git.
files_of() {
    if [ -e "$repository/.git" ]; then git -C "$repository" ls-files -z -- "$1"; else (cd "$repository" && find "$1" -type f -print0); fi
}

put_folder() {
    files_of "$1" | while IFS= read -r -d '' file; do
        install -D -m "$([ -x "$repository/$file" ] && echo 755 || echo 644)" "$repository/$file" "$share/$file"
    done
}

# A script's first line names Debian's own interpreter.
name_interpreters() {
    grep -rlE '^#!/usr/bin/env (python3|node)$' "$share" | while IFS= read -r file; do
        sed -i -E '1s,^#!/usr/bin/env (python3|node)$,#!/usr/bin/\1,' "$file"
    done
}

# Makes a manual page of a document.
put_manual() {
    local page=$1 folder
    folder=$root/share/man/man${page##*.}
    command -v pandoc >/dev/null || { echo "install: there is no pandoc, so no manual page $page"; return; }
    mkdir -p "$folder"
    pandoc --standalone --from markdown-smart --columns 66 --to man "$repository/docs/$page.md" | gzip -n9 >"$folder/$page.gz"
    chmod 644 "$folder/$page.gz"
}

for name in okws svc_guest svc_probe; do
    [ ! -x "$bin/$name" ] || install -D -m 755 "$bin/$name" "$root/$([ "$name" = okws ] && echo bin || echo lib/okws)/$name"
done
if command -v "${CC:-cc}" >/dev/null; then
    "${CC:-cc}" -O2 -o "$root/bin/okws-run" "$repository"/tools/okws-run/*.c
else
    echo "install: there is no C compiler, so no okws-run, and services aren't confined"
fi
for folder in tools kits bridges docs examples README.md; do put_folder "$folder"; done
rm -rf "$share"/tools/{install,dist}.sh "$share/tools/okws-run" "$share"/docs/*.py
name_interpreters
for tool in "$share"/tools/okws-* "$share"/bridges/okws-*; do
    [ ! -f "$tool" ] || ln -sf "../share/okws/${tool#"$share"/}" "$root/bin/$(basename "$tool")"
done
if [ -f "$share/kits/c/okws.h" ]; then
    mkdir -p "$root/include"
    ln -sf ../share/okws/kits/c/okws.h "$root/include/okws.h"
fi
for page in okws.1 okws-tools.1 okws-config.5 okws-frames.7; do put_manual "$page"; done
if [ -f "$root/share/man/man1/okws-tools.1.gz" ]; then
    for tool in "$root"/bin/okws-*; do ln -sf okws-tools.1.gz "$root/share/man/man1/$(basename "$tool").1.gz"; done
fi
completions=$root/share/bash-completion/completions
install -D -m 644 "$repository/tools/okws.bash" "$completions/okws"
for tool in up ctl show explain draw front; do ln -sf okws "$completions/okws-$tool"; done
install -D -m 644 "$repository/tools/okws@.service" "$root/lib/systemd/system/okws@.service"
sed -i "s,/usr/bin/okws,$prefix/bin/okws,g" "$root/lib/systemd/system/okws@.service"
install -D -m 644 "$repository/tools/okws.logrotate" "$share/tools/okws.logrotate"
