#!/usr/bin/env bash
# Runs okws-run on a kernel for ARM64, in a machine that is emulated: those checks of what it confines that need no server. The program okws is for x86-64 alone.
#   checks/arm64.sh [SYSTEM]     SYSTEM is a folder that `mmdebstrap --arch=arm64 --variant=extract` has filled so as it is done below
# It needs aarch64-linux-gnu-gcc with its C library, qemu-system-aarch64, cpio and, without SYSTEM, mmdebstrap and a mirror of Debian, so it isn't in the gate. It takes
# some minutes. The machine has no network. The last line is 'N passed, N failed'.
set -euo pipefail
top=$(realpath "$(dirname "$0")/..")
work=$(mktemp -d)
trap 'rm -rf "$work"' EXIT
if [ $# = 1 ]; then
    system=$(realpath "$1")
else
    system=$work/system
    mmdebstrap --quiet --arch=arm64 --variant=extract --include=python3,dash,coreutils,mount,libc-bin,linux-image-cloud-arm64 bookworm "$system"
fi
checks="what_is_named_is_given ways_around_are_refused a_kernel_without_landlock_is_told a_socket_is_of_the_internets_kinds_and_only_with_network memory_is_limited
    standard_error_is_not_the_servers descriptors_are_not_inherited words_that_ask_for_nothing_are_refused"

# The machine's files: the system without its kernel, this repository, and okws-run, also as older kernels would have it confine.
root=$work/root
mkdir "$root"
cp "$system"/boot/vmlinuz-* "$work/vmlinuz"
tar -C "$system" --exclude=./boot --exclude=./usr/lib/modules --exclude=./lib/modules --exclude=./usr/share/doc --exclude=./usr/share/locale --exclude=./var -cf - . |
    tar -C "$root" -xf -
mkdir -p "$root"/{proc,sys,dev,etc,tmp,top,tried}
[ -e "$root/etc/passwd" ] || echo 'root:x:0:0::/:/bin/sh' >"$root/etc/passwd"
cp -r "$top"/{checks,kits,bridges,docs} "$root/top"
sed -i 's/timeout=60/timeout=600/' "$root"/top/checks/kits/*.py    # an emulated processor is slow
for part in calls main relay; do aarch64-linux-gnu-gcc -O2 -Wall -Wextra -Werror -c "$top/tools/okws-run/$part.c" -o "$work/$part.o"; done
for version in 0 1 2 4 1000; do
    aarch64-linux-gnu-gcc -O2 -DLANDLOCK_KNOWN=$version -o "$root/tried/okws-run-$version" "$top/tools/okws-run/files.c" "$work"/*.o
done
mv "$root/tried/okws-run-1000" "$root/tried/okws-run"
cat >"$root/init" <<S
#!/bin/sh
export PATH=/usr/bin:/bin:/usr/sbin:/sbin PYTHONDONTWRITEBYTECODE=1
mount -t proc proc /proc
mount -t sysfs sys /sys
mount -t devtmpfs dev /dev
mkdir -p /dev/pts
mount -t devpts pts /dev/pts
[ -e /usr/bin/python3 ] || ln -s python3.11 /usr/bin/python3
ldconfig
uname -srm
cd /tried
for check in $(echo $checks); do echo "\$check: \$(python3 /top/checks/kits/run.py /bin/true \$check 2>&1)"; done
echo whole
echo o >/proc/sysrq-trigger
sleep 60
S
chmod 755 "$root/init"
(cd "$root" && find . | cpio --quiet -o -H newc) >"$work/initrd"
words=(-M virt -cpu cortex-a57 -m 1500 -nographic -no-reboot -nic none -kernel "$work/vmlinuz" -initrd "$work/initrd")
boots='console=ttyAMA0 rdinit=/init panic=-1 loglevel=3 lsm=landlock'
timeout 3600 qemu-system-aarch64 "${words[@]}" -append "$boots" </dev/null | sed -u 's/\r$//' | tee "$work/said" || true
passed=$(grep -c ': 1 passed, 0 failed$' "$work/said" || true)
failed=$(($(echo $checks | wc -w) - passed))
echo "$passed passed, $failed failed"
[ "$failed" = 0 ]
