"""Calls of zirofen-host as if it were started each time, by a process that has its modules already: most tests are of what it says, and
starting Python and its modules, for the program that is played too, is most of what such a call takes.

Each call is a copy of a process that began before any test, so nothing that tests or calls change is there. It has its own words,
environment, folder, standard streams and status. Where it asks the program that is made up, it plays that itself.
"""
import atexit
import importlib
import os
import pickle
import pkgutil
import socket
import subprocess
import sys
import tempfile

import made_up_program
import zirofen_host
from made_up import COMMAND, HERE
from zirofen_host import command
from zirofen_host.ask import program as asking

PROGRAM = f"{HERE}/made_up_program.py"
LONGEST = 1 << 20


class InTurn:
    """A pool of one worker, which is the test itself."""

    def __init__(self, _):
        self.map = map

    def __enter__(self):
        return self

    def __exit__(self, *_):
        pass


def called(*words, given=None, cwd=None, env=None):
    """A call of zirofen-host with some words, as subprocess tells of one; what is given it reads from standard input."""
    with tempfile.TemporaryFile() as into, tempfile.TemporaryFile() as out, tempfile.TemporaryFile() as errors:
        into.write((given or "").encode())
        into.seek(0)
        asked = pickle.dumps((words, dict(os.environ if env is None else env), cwd or os.getcwd()))
        socket.send_fds(CALLER, [asked], [each.fileno() for each in (into, out, errors)])
        status = pickle.loads(CALLER.recv(LONGEST))
        said = []
        for each in (out, errors):
            each.seek(0)
            said.append(each.read().decode())
    return subprocess.CompletedProcess([COMMAND, *words], status, *said)


def begin():
    """Starts the process of which calls are copies, and returns the socket by which it is asked. It ends with that."""
    for each in pkgutil.walk_packages(zirofen_host.__path__, "zirofen_host."):
        importlib.import_module(each.name)
    caller, asked = socket.socketpair(socket.AF_UNIX, socket.SOCK_SEQPACKET)
    for each in (caller, asked):
        each.setsockopt(socket.SOL_SOCKET, socket.SO_SNDBUF, LONGEST)
    if os.fork():
        asked.close()
        return caller
    caller.close()
    atexit._clear()
    while True:
        told, streams, _, _ = socket.recv_fds(asked, LONGEST, 3)
        if not told:
            os._exit(0)
        child = os.fork()
        if not child:
            call(streams, *pickle.loads(told))
        for each in streams:
            os.close(each)
        asked.send(pickle.dumps(os.waitstatus_to_exitcode(os.waitpid(child, 0)[1])))


def call(streams, words, environment, folder):
    """Ends with the status of the call that this process is."""
    status = 70
    try:
        for number, each in enumerate(streams):
            os.dup2(each, number)
        os.chdir(folder)
        os.environ.clear()
        os.environ.update(environment)
        sys.argv = [COMMAND, *words]
        if PROGRAM in (*words, environment.get("ZIROFEN")):
            asking.Program.start = play
            asking.ThreadPoolExecutor = InTurn
        command.run()
    except SystemExit as ended:
        status = ended.code
    finally:
        atexit._run_exitfuncs()
        os._exit(status)


def play(program, words):
    if program.path == PROGRAM:
        return made_up_program.play(words)
    return STARTED(program, words)


STARTED = asking.Program.start
CALLER = begin()
