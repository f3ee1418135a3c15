#!/bin/sh
# boot.sh VMLINUZ FOLDER/SCRIPT [HEADERS]: boots a kernel in qemu, runs the script there as root, and prints what it writes,
# with the kernel's own warnings. HEADERS, a kernel's build tree, is for a folder with a module: it is built, and lies in /.
# Needs qemu-system-x86_64, busybox-static and cpio, and with HEADERS make and a compiler; ACCEL=kvm if there is a /dev/kvm.
set -e
folder=$(cd "$(dirname "$2")" && pwd)
room=$(mktemp -d)
trap 'rm -rf "$room"' EXIT
mkdir -p "$room/root/bin" "$room/root/proc" "$room/root/sys" "$room/root/dev"
cp "$(command -v busybox)" "$room/root/bin/busybox"
cp "$folder/$(basename "$2")" "$room/root/script"
if [ -n "$3" ]; then
    cp -r "$folder" "$room/module"
    make -s -C "$3" M="$room/module" modules
    cp "$room"/module/*.ko "$room/root/"
fi
cat > "$room/root/init" <<'END'
#!/bin/busybox sh
/bin/busybox --install -s /bin
export PATH=/bin
mount -t devtmpfs none /dev
mount -t proc none /proc
mount -t sysfs none /sys
mount -t tracefs none /sys/kernel/tracing
uname -r
sh /script
dmesg | grep -E -A25 'WARNING|BUG:|Oops' | head -40
poweroff -f
END
chmod +x "$room/root/init"
(cd "$room/root" && find . | cpio -o -H newc 2>/dev/null | gzip -1) > "$room/initrd"
timeout "${LIMIT:-300}" qemu-system-x86_64 -accel "${ACCEL:-tcg,thread=multi}" -cpu max -smp 2 -m 768 -display none -monitor none -serial stdio \
    -no-reboot -net none -kernel "$1" -initrd "$room/initrd" \
    -append "console=ttyS0 quiet loglevel=3 panic=-1 nokaslr mitigations=off nowatchdog no_timer_check tsc=reliable rcupdate.rcu_cpu_stall_suppress=1" </dev/null || {
    echo "the guest didn't end: it was stopped after ${LIMIT:-300} s, or qemu ended with a fault"
    exit 2
}
