#!/usr/bin/env python3
"""A process of a user's that runs elsewhere than its first thread, or that holds an entry open, for tests on a real mount:

    holder.py WAY UID PLACE [FILE ..]

Run as root, it goes to the cgroup PLACE, opens the files, becomes the user, writes a line when it is so far, and waits until its standard
input ends. For each line of that, a cgroup, it writes itself to its cgroup.procs, and tells what became of that. Of the ways `later` opens
the files as the user, `received` is sent them over a socket whose number stands in their place, and `executing` is one whose first thread
has ended, and that executes another program where the line says so.
"""
import ctypes
import os
import socket
import struct
import sys
import threading
import time

LIBC = ctypes.CDLL(None, use_errno=True)
# numbers of system calls that all machines but the oldest have in common, and that of exit by machine
RING_SETUP, RING_REGISTER, REGISTER_FILES = 425, 427, 2
EXIT = {"x86_64": 60}.get(os.uname().machine, 93)
CLONE_FILES = 0x400
# ways in which the first thread ends
HEADLESS = ("headless", "executing")
EXECUTE = "execute"


def opened(files):
    return [os.open(file, os.O_WRONLY) for file in files]


def in_own_table(files):
    """Opens files in a table of descriptors that one thread has for itself."""
    ready = threading.Event()

    def run():
        if LIBC.unshare(CLONE_FILES):
            os._exit(1)
        opened(files)
        ready.set()
        threading.Event().wait()
    threading.Thread(target=run, daemon=True).start()
    ready.wait()


def in_ring(files):
    """Registers files with an io_uring, and closes them."""
    parameters = ctypes.create_string_buffer(120)
    ring = LIBC.syscall(RING_SETUP, 4, parameters)
    numbers = opened(files)
    if ring < 0 or LIBC.syscall(RING_REGISTER, ring, REGISTER_FILES, struct.pack(f"{len(numbers)}i", *numbers), len(numbers)):
        sys.exit("there is no io_uring")
    for number in numbers:
        os.close(number)


def put(path, text):
    try:
        number = os.open(path, os.O_WRONLY)
        try:
            os.write(number, text)
        finally:
            os.close(number)
        return "done"
    except OSError as error:
        return error.strerror


def has_ended(thread):
    # as this user no module may be there that isn't loaded
    stat = os.open(f"/proc/self/task/{thread}/stat", os.O_RDONLY)
    try:
        return os.read(stat, 4096).rpartition(b")")[2].split()[0] == b"Z"
    finally:
        os.close(stat)


def obey_alone():
    """The same in a thread that is alone once the first one has ended."""
    while not has_ended(os.getpid()):
        time.sleep(0.01)
    obey()


def obey():
    """Says that it is so far, moves this process to where it is told to, and ends with its standard input."""
    os.write(1, b"ready\n")
    while place := os.read(0, 4096).decode().strip():
        if place == EXECUTE:
            os.execv("/bin/sleep", ["sleep", "1000"])
        os.write(1, f"{put(f'{place}/cgroup.procs', b'0')}\n".encode())
    os._exit(0)


def receive(number):
    """Takes what is sent over a socket."""
    os.write(1, b"ready\n")
    received = socket.recv_fds(socket.socket(fileno=int(number)), 1, 64)[1]
    os.write(1, f"received {len(received)}\n".encode())
    os.read(0, 1)
    os._exit(0)


def main():
    way, uid, place, *files = sys.argv[1:]
    put(f"{place}/cgroup.procs", b"0")
    if way not in ("later", "received"):
        {"table": in_own_table, "ring": in_ring}.get(way, opened)(files)
    os.setgroups([])
    os.setresgid(int(uid), int(uid), int(uid))
    os.setresuid(int(uid), int(uid), int(uid))
    if way == "received":
        receive(*files)
    if way == "later":
        opened(files)
    if way not in HEADLESS:
        obey()
    threading.Thread(target=obey_alone).start()
    # the first thread ends, and the process goes on
    LIBC.syscall(EXIT, 0)


if __name__ == "__main__":
    main()
