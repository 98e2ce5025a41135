"""A guest by qemu with a Debian of its own, for file systems that this machine's kernel hasn't.

`made` makes its root folder once, by debootstrap: Debian's kernel, what snapshots need, and ZFS, whose module dkms
builds there for that kernel. Nothing is installed on this machine. `booted` boots a guest that has the folder and this
repository, both read-only, and a disk, and runs a script in it.
"""

import fcntl
import os
import shlex
import shutil
import subprocess
import tempfile
from pathlib import Path

from common.needs import ROOT
from common.program import Failed

MIRROR = "http://deb.debian.org/debian"
PACKAGES = (
    "linux-image-amd64 linux-headers-amd64 zfs-dkms zfsutils-linux lvm2 btrfs-progs e2fsprogs fdisk kmod procps python3"
    " sqlite3"
)
FIRST = "virtio_pci virtio_blk 9p 9pnet_virtio overlay".split()
LATER = "zfs dm-mod dm-snapshot dm-thin-pool ext4"
SECONDS = 7200
MEMORY = "1536"

# Runs in the new root folder. dkms takes as many processors as it is given.
INSTALL = f"""set -e
mount -t proc proc /proc
export DEBIAN_FRONTEND=noninteractive LC_ALL=C.UTF-8
apt-get -q update
apt-get -q -y --no-install-recommends install {PACKAGES}
version=$(ls /lib/modules)
modinfo -k "$version" zfs > /dev/null || dkms install zfs/$(ls /usr/src | sed -n s/^zfs-//p) -k "$version"
depmod "$version"
"""

# The first process of the guest.
INIT = """#!/bin/busybox sh
export PATH=/bin
/bin/busybox --install -s /bin
mount -t proc proc /proc; mount -t sysfs sys /sys; mount -t devtmpfs dev /dev
while read -r module; do insmod "$module" 2> /dev/null; done < /modules
mount -t 9p -o trans=virtio,version=9p2000.L,ro,msize=262144,cache=loose host /host || poweroff -f
mount -t tmpfs -o size=300m tmpfs /over; mkdir -p /over/up /over/work
mount -t overlay -o "lowerdir=/host$(cat /cache)/root,upperdir=/over/up,workdir=/over/work" overlay /root
for each in proc sys dev; do mount --move /$each /root/$each; done
for each in $(cat /shown); do mkdir -p "/root$each"; mount --bind "/host$each" "/root$each"; done
mkdir -p /root/dev/shm; cp /begin /command /root/; cp /lvmlocal.conf /root/etc/lvm/lvmlocal.conf
ifconfig lo 127.0.0.1 up
exec switch_root /root /bin/sh /begin
"""

# It goes on in its root folder, as a kernel mounts a snapshot of ZFS by commands of the first process's root folder.
BEGIN = f"""export PATH=/usr/sbin:/usr/bin:/sbin:/bin TMPDIR=/tmp PYTHONUNBUFFERED=1
mount -t tmpfs tmpfs /run; mount -t tmpfs -o size=400m tmpfs /tmp
mount --make-rshared /
echo "options zfs zfs_arc_max=134217728" > /etc/modprobe.d/zfs.conf
modprobe -a {LATER}
cd /tmp && sh /command < /dev/null
echo "guest ended with $?"
sync
echo o > /proc/sysrq-trigger
sleep 60
"""

# No udev runs in the guest.
LVM = "activation {\n udev_sync = 0\n udev_rules = 0\n}\ndevices {\n obtain_device_list_from_udev = 0\n}\n"


def made(cache: Path) -> Path:
    """The guest's root folder in a cache, which is made where there is none. A run beside this one waits for it."""
    root, begun = cache / "root", cache / "root.new"
    cache.mkdir(exist_ok=True)
    with open(cache / "log", "ab") as log:
        fcntl.flock(log, fcntl.LOCK_EX)
        if root.is_dir():
            return root
        print(f"guest: makes {root}, with a module for ZFS: some 10 to 25 minutes, by {cache}/log", flush=True)
        shutil.rmtree(begun, ignore_errors=True)
        given = sorted(map(str, os.sched_getaffinity(0)))
        gently = ["nice", "-n", "5", "taskset", "-c", ",".join(given[1:] or given)]
        first = ["debootstrap", "--variant=minbase", "--components=main,contrib", "bookworm", str(begun), MIRROR]
        then = ["unshare", "--mount", "chroot", str(begun), "sh", "-c", INSTALL]
        for words in (first, then):
            if subprocess.run([*gently, *words], stdin=subprocess.DEVNULL, stdout=log, stderr=log).returncode:
                raise Failed(f"{words[0]} failed: the end of {cache}/log says why")
            begun.joinpath("usr/sbin/policy-rc.d").write_text("#!/bin/sh\nexit 101\n", encoding="utf-8")
            begun.joinpath("usr/sbin/policy-rc.d").chmod(0o755)
        begun.rename(root)
    return root


def _modules(root, version):
    """The files of the modules that are needed to have the root folder, each behind those that it needs."""
    files = []
    for name in FIRST:
        words = ["chroot", str(root), "modprobe", "--set-version", version, "--show-depends", name]
        for line in subprocess.run(words, capture_output=True, text=True, check=True).stdout.splitlines():
            path = line.partition(" ")[2].strip()
            if line.startswith("insmod") and path not in files:
                files.append(path)
    return files


def _initramfs(root, version, command, shown, folder):
    made_of = folder / "initramfs.d"
    for name in ("bin", "proc", "sys", "dev", "host", "over", "root", "modules.d"):
        (made_of / name).mkdir(parents=True)
    shutil.copy(shutil.which("busybox"), made_of / "bin/busybox")
    names = []
    for number, path in enumerate(_modules(root, version)):
        names.append(f"/modules.d/{number:03}.ko")
        shutil.copy(root / path.lstrip("/"), made_of / names[-1].lstrip("/"))
    texts = {"modules": "".join(f"{it}\n" for it in names), "command": command, "lvmlocal.conf": LVM, "begin": BEGIN}
    texts |= {"cache": str(root.parent), "shown": "\n".join(shown), "init": INIT}
    for name, text in texts.items():
        (made_of / name).write_text(text, encoding="utf-8")
    (made_of / "init").chmod(0o755)
    image = folder / "initramfs"
    with open(image, "wb") as out:
        found = subprocess.run(["find", "."], cwd=made_of, capture_output=True, check=True).stdout
        words = ["cpio", "--quiet", "-o", "-H", "newc"]
        subprocess.run(words, cwd=made_of, input=found, stdout=out, check=True)
    return image


def booted(cache, words, program, disk, is_reset=False):
    """Boots a guest that runs a script, prints what that prints, and fails where it does, or where a guest that is to
    be reset wasn't. The guest has a disk, which is made where there is none."""
    root = made(cache).resolve()
    image = max((root / "boot").glob("vmlinuz-*"))
    if not disk.exists():
        with open(disk, "wb") as out:
            out.truncate(1 << 30)
    with tempfile.TemporaryDirectory(dir=disk.parent) as folder:
        command = f"cd {ROOT}/tests && {shlex.join(['python3', '-B', *words, '--disk', '/dev/vda'])}"
        shown = sorted({str(ROOT), str(program.parent)})
        initramfs = _initramfs(root, image.name.partition("-")[2], command, shown, Path(folder).resolve())
        # Without KVM, which a machine that is a guest itself may have and not serve.
        # The program takes a processor of x86-64-v2, as qemu's own default is none.
        qemu = ["qemu-system-x86_64", "-accel", "tcg,thread=multi", "-cpu", "max", "-smp", "2", "-m", MEMORY]
        qemu += ["-nographic", "-no-reboot", "-nodefaults", "-serial", "stdio"]
        qemu += ["-kernel", str(image), "-initrd", str(initramfs)]
        qemu += ["-append", "console=ttyS0 panic=-1 no_timer_check loglevel=4"]
        qemu += ["-drive", f"file={disk},format=raw,if=virtio,cache=unsafe"]
        qemu += ["-virtfs", "local,path=/,mount_tag=host,security_model=none,readonly=on,multidevs=remap"]
        said = _said_by(["timeout", str(SECONDS), *qemu], root.parent / "console")
    if is_reset and any("guest: resets" in line for line in said) and not any("guest ended" in line for line in said):
        return
    if "guest ended with 0" not in said:
        raise Failed(f"the guest: {said[-20:]}")


def _said_by(command, console):
    """The lines of the guest's console, which a file has too; those of a test are printed as they come."""
    said = []
    pipes = {"stdin": subprocess.DEVNULL, "stdout": subprocess.PIPE, "stderr": subprocess.STDOUT}
    with open(console, "ab", buffering=0) as log, subprocess.Popen(command, **pipes) as qemu:
        for line in qemu.stdout:
            said.append(line.decode(errors="replace").strip())
            log.write(line)
            if said[-1].startswith(("lvm: ", "zfs", "guest: ")) or "FAILED" in said[-1]:
                print(said[-1], flush=True)
    return said
