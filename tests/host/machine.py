#!/usr/bin/env python3
"""Makes a machine of Debian's with systemd, boots it under emulation, and runs trials in it. By hand, as root, on Debian with mmdebstrap,
e2fsprogs, cpio, qemu-utils and qemu-system-x86; it fetches packages by apt, and the machine has no network:

  machine.py make FOLDER SUITE [PACKAGE ..]    a disk of the standard packages and these, with this checkout's packages, in FOLDER
  machine.py boot FOLDER [--as-left] [--by-instructions]
                                               from that disk, or as the last machine left its own; until it answers
  machine.py do FOLDER COMMAND ..              runs a command in it, with the trials in /root/trials, and prints what it says
  machine.py put FOLDER FILE PLACE             copies a file, or what is in a folder, into a folder of it
  machine.py halt FOLDER

  machine.py make m trixie podman crun && machine.py boot m && machine.py do m python3 openings_trial.py /usr/bin --together
  machine.py halt m && machine.py boot m --as-left && machine.py do m python3 openings_trial.py /usr/bin --booted

Whatever is booted is an overlay of the disk, which stays as it was made. A command's status is that of `do`. With --by-instructions the
machine's own clock goes on by a nanosecond with each instruction of its one processor (Linux 6.1 starts no second one so): what it takes by
that clock is the same on a busy host, and is about what a slow machine takes.
"""
import argparse
import base64
import glob
import json
import os
import shutil
import signal
import socket
import subprocess
import sys
import tempfile
import time

HERE = os.path.dirname(os.path.realpath(__file__))
TOP = os.path.dirname(os.path.dirname(HERE))
SOURCES = """deb http://deb.debian.org/debian {0} main
deb http://deb.debian.org/debian {0}-updates main
deb http://deb.debian.org/debian-security {0}-security main
"""
NEEDED = ("acl apparmor attr busybox-static dbus-user-session kmod libcap2-bin libpam-systemd linux-image-cloud-amd64 python3 systemd-sysv "
          "udev").split()
# what a machine without a network waits for, and what makes it slow
MASKED = ("apt-daily.timer apt-daily-upgrade.timer console-setup dpkg-db-backup.timer e2scrub_all.timer e2scrub_reap fstrim.timer "
          "getty@tty1 keyboard-setup lxc-net man-db.timer networking podman-auto-update podman-auto-update.timer serial-getty@ttyS0 "
          "systemd-networkd-wait-online systemd-timesyncd").split()
WORDS = ("root=/dev/vda rw console=ttyS0 loglevel=3 panic=-1 random.trust_cpu=on mitigations=off no_timer_check tsc=reliable "
         "systemd.show_status=0")
SERVICE = """[Unit]
After=systemd-logind.service dbus.service
[Service]
ExecStartPre=/bin/sh -c 'modprobe virtio_console; until [ -e /dev/virtio-ports/trials ]; do sleep 1; done'
ExecStart=/usr/bin/python3 /root/trials/machine.py answer
Restart=always
OOMScoreAdjust=-900
"""
INIT = """#!/bin/busybox sh
/bin/busybox mount -t devtmpfs d /dev
for each in $(/bin/busybox cat /order); do /bin/busybox insmod /modules/$each; done
/bin/busybox mount -t ext4 /dev/vda /root && exec /bin/busybox switch_root /root /sbin/init
/bin/busybox poweroff -f
"""
PORT = "/dev/virtio-ports/trials"
DISK = "8G"
# seconds until a machine answers
BOOTING = 1800
# letters of a command that carries a part of a file
PART = 100000


def run(*words, **more):
    return subprocess.run(words, check=True, **more)


def write(file, text, mode=0o644):
    os.makedirs(os.path.dirname(file), exist_ok=True)
    with open(file, "w", encoding="ascii") as out:
        out.write(text)
    os.chmod(file, mode)


# making


def make(folder, suite, packages):
    os.makedirs(folder, exist_ok=True)
    root = f"{folder}/root"
    write(f"{folder}/sources.list", SOURCES.format(suite))
    included = ",".join((*NEEDED, *packages))
    run("mmdebstrap", "--variant=standard", '--aptopt=APT::Install-Recommends "false"', f"--include={included}", suite, root,
        f"{folder}/sources.list")
    put_packages(root)
    settle(root)
    run("mke2fs", "-q", "-t", "ext4", "-O", "^has_journal", "-d", root, f"{folder}/disk", DISK)
    put_kernel(folder, root)
    shutil.rmtree(root)


def put_packages(root):
    with tempfile.TemporaryDirectory(dir=f"{root}/tmp") as room:
        run(f"{TOP}/tools/package", room, stdout=subprocess.DEVNULL)
        inside = [file[len(root):] for kind in ("amd64", "all") for file in glob.glob(f"{room}/*_{kind}.deb")]
        run("chroot", root, "dpkg", "--install", *inside, stdout=subprocess.DEVNULL)


def settle(root):
    """Trials, who answers for them, and a name; nothing is a first boot, which would start all that is installed."""
    write(f"{root}/etc/machine-id", "0123456789abcdef0123456789abcdef\n")
    write(f"{root}/etc/hostname", "trials\n")
    write(f"{root}/etc/hosts", "127.0.0.1 localhost trials\n")
    write(f"{root}/etc/fstab", "")
    for name in MASKED:
        place = f"{root}/etc/systemd/system/{name if '.' in name else f'{name}.service'}"
        if os.path.lexists(place):
            os.remove(place)
        os.symlink("/dev/null", place)
    os.makedirs(f"{root}/root/trials", exist_ok=True)
    for file in glob.glob(f"{HERE}/*.py"):
        shutil.copy(file, f"{root}/root/trials")
    write(f"{root}/etc/systemd/system/trials.service", SERVICE)
    wants = f"{root}/etc/systemd/system/multi-user.target.wants"
    os.makedirs(wants, exist_ok=True)
    os.symlink("../trials.service", f"{wants}/trials.service")
    default = f"{root}/etc/systemd/system/default.target"
    if not os.path.lexists(default):
        os.symlink("/usr/lib/systemd/system/multi-user.target", default)


def put_kernel(folder, root):
    """The kernel, and a small first root with the modules of the disk."""
    release = sorted(os.listdir(f"{root}/usr/lib/modules"))[-1]
    modules = f"{root}/usr/lib/modules/{release}"
    shutil.copy(f"{root}/boot/vmlinuz-{release}", f"{folder}/kernel")
    with open(f"{modules}/modules.dep", encoding="ascii") as text:
        needs = dict(line.strip().split(":", 1) for line in text)
    order = []
    for name in ("virtio_pci", "virtio_blk", "ext4"):
        # one that the kernel has itself is no file
        for file in [each for each in needs if os.path.basename(each).startswith(f"{name}.ko")]:
            order += [each for each in (*reversed(needs[file].split()), file) if each not in order]
    with tempfile.TemporaryDirectory() as room:
        for name in ("bin", "dev", "modules", "root"):
            os.mkdir(f"{room}/{name}")
        shutil.copy(f"{root}/bin/busybox", f"{room}/bin")
        for each in order:
            plain = f"{room}/modules/{os.path.basename(each).partition('.ko')[0]}.ko"
            with open(plain, "wb") as out:
                run("xz" if each.endswith(".xz") else "cat", *(["-dc"] if each.endswith(".xz") else []), f"{modules}/{each}", stdout=out)
        write(f"{room}/order", "\n".join(f"{os.path.basename(each).partition('.ko')[0]}.ko" for each in order))
        write(f"{room}/init", INIT, 0o755)
        run("sh", "-c", f"cd {room} && find . | cpio -o -H newc --quiet | gzip -1", stdout=open(f"{folder}/first", "wb"))


# running


def boot(folder, as_left, by_instructions):
    overlay, port = f"{folder}/overlay", f"{folder}/port"
    if not as_left:
        run("qemu-img", "create", "-q", "-f", "qcow2", "-b", os.path.realpath(f"{folder}/disk"), "-F", "raw", overlay)
    how = ["tcg,thread=single", "-icount", "shift=0,sleep=on"] if by_instructions else ["tcg,thread=multi"]
    words = ["qemu-system-x86_64", "-accel", *how, "-cpu", "Nehalem,+rdrand,+rdseed", "-m", "3072", "-smp", "1" if by_instructions else "2",
             "-nodefaults", "-no-user-config", "-display", "none", "-no-reboot",
             "-kernel", f"{folder}/kernel", "-initrd", f"{folder}/first", "-append", WORDS, "-serial", f"file:{folder}/console",
             "-drive", f"file={overlay},format=qcow2,if=virtio,cache=unsafe", "-device", "virtio-rng-pci",
             "-device", "virtio-serial-pci", "-chardev", f"socket,id=a,path={port},server=on,wait=off",
             "-device", "virtserialport,chardev=a,name=trials"]
    with open(f"{folder}/qemu", "w", encoding="ascii") as out:
        process = subprocess.Popen(words, stdin=subprocess.DEVNULL, stdout=out, stderr=out, start_new_session=True)
    write(f"{folder}/pid", str(process.pid))
    began = time.monotonic()
    while process.poll() is None and time.monotonic() - began < BOOTING:
        time.sleep(1)
        if asked(folder, "true", 5) is not None:
            print(f"it answers after {time.monotonic() - began:.0f} s")
            return 0
    return 1


def asked(folder, command, within=None):
    """What a command says in the machine, and its status; None where nothing answers in time."""
    request = {"id": f"{os.getpid()} {time.monotonic()}", "command": command}
    try:
        with socket.socket(socket.AF_UNIX) as port:
            port.settimeout(within)
            port.connect(f"{folder}/port")
            port.sendall(base64.b64encode(json.dumps(request).encode()) + b"\n")
            for line in port.makefile("rb"):
                answer = json.loads(base64.b64decode(line))
                if answer["id"] == request["id"]:
                    return answer
    except (OSError, ValueError):
        pass
    return None


def do(folder, words):
    answer = asked(folder, " ".join(words))
    if answer is None:
        print("nothing answers", file=sys.stderr)
        return 3
    sys.stdout.write(answer["said"])
    return answer["status"]


def put(folder, file, place):
    """Copies by commands, each with a part of an archive."""
    where, name = (file, ".") if os.path.isdir(file) else os.path.split(os.path.abspath(file))
    data = base64.b64encode(run("tar", "-C", where, "-cz", name, stdout=subprocess.PIPE).stdout).decode()
    parts = [data[at:at + PART] for at in range(0, len(data), PART)]
    commands = (f"mkdir -p {place}; : >/tmp/put", *(f"printf %s {part} >>/tmp/put" for part in parts),
                f"base64 -d /tmp/put | tar -C {place} --no-same-owner -xz && rm /tmp/put")
    return max(do(folder, [each]) for each in commands)


def halt(folder):
    """Ends it as a machine is ended, or by force."""
    with open(f"{folder}/pid", encoding="ascii") as text:
        pid = int(text.read())
    asked(folder, "sync; (sleep 1; systemctl poweroff) >/dev/null 2>&1 &", 60)
    for _ in range(120):
        if not os.path.exists(f"/proc/{pid}"):
            return 0
        time.sleep(1)
    os.kill(pid, signal.SIGKILL)
    return 1


def answer_all():
    """In the machine: carries out what is asked, one after another."""
    with open(PORT, "r+b", buffering=0) as port:
        left = b""
        while True:
            read = port.read(65536)
            if not read:
                time.sleep(0.2)
                continue
            *lines, left = (left + read).split(b"\n")
            for line in lines:
                asks = json.loads(base64.b64decode(line))
                ended = subprocess.run(["sh", "-c", asks["command"]], stdin=subprocess.DEVNULL, stdout=subprocess.PIPE,
                                       stderr=subprocess.STDOUT, cwd="/root/trials")
                said = {"id": asks["id"], "status": ended.returncode, "said": ended.stdout.decode("utf-8", "replace")}
                data = base64.b64encode(json.dumps(said).encode()) + b"\n"
                while data:
                    data = data[port.write(data[:32768]):]


def main():
    parser = argparse.ArgumentParser(description=__doc__, formatter_class=argparse.RawDescriptionHelpFormatter)
    parser.add_argument("act", choices=("make", "boot", "do", "put", "halt", "answer"))
    parser.add_argument("folder", nargs="?", default="")
    parser.add_argument("words", nargs=argparse.REMAINDER)
    given = parser.parse_args()
    if given.act == "make":
        return make(given.folder, given.words[0], given.words[1:]) or 0
    if given.act == "boot":
        return boot(given.folder, "--as-left" in given.words, "--by-instructions" in given.words)
    if given.act == "put":
        return put(given.folder, *given.words)
    if given.act == "do":
        return do(given.folder, given.words)
    return halt(given.folder) if given.act == "halt" else answer_all()


if __name__ == "__main__":
    sys.exit(main())
