"""Tests of runtime/runtime.c by itself, as a library: the bytes that it moves, the memory that it gives and takes back, its calls."""
import array
import ctypes
import errno
import os
import random
import resource
import struct
import subprocess
import tempfile
import unittest

TOP = os.path.dirname(os.path.dirname(os.path.dirname(os.path.abspath(__file__))))
FILE = f"{TOP}/runtime/runtime.c"
# as a library without a start of its own, whose calls of its own functions stay in it
BUILT = ["-shared", "-fPIC", "-O2", "-std=gnu11", "-ffreestanding", "-fno-builtin", "-nostdlib", "-Wl,-Bsymbolic", "-Wl,--defsym,main=0"]
SPAN, HEAD, MOST = 1 << 16, 64, 1 << 15
MOST_LINES = 400


class Tried(ctypes.Structure):
    _fields_ = (("ok", ctypes.c_bool), ("block", ctypes.c_void_p))


def setUpModule():
    global runtime, room
    room = tempfile.TemporaryDirectory()
    subprocess.run(["cc", *BUILT, "-o", f"{room.name}/runtime.so", FILE], check=True)
    runtime = ctypes.CDLL(f"{room.name}/runtime.so")
    size, pointer = ctypes.c_size_t, ctypes.c_void_p
    for name, given, result in (("memmove", (pointer, pointer, size), pointer), ("memset", (pointer, ctypes.c_int, size), pointer),
                                ("memcpy", (pointer, pointer, size), pointer), ("rattle_alloc", (size, size), Tried),
                                ("rattle_realloc", (pointer, size, size, size), Tried), ("rattle_dealloc", (pointer,), None),
                                ("read", (ctypes.c_int, pointer, size), ctypes.c_long),
                                ("open", (ctypes.c_char_p, ctypes.c_int), ctypes.c_int),
                                ("statx", (ctypes.c_int, ctypes.c_char_p, ctypes.c_int, ctypes.c_uint, pointer), ctypes.c_int),
                                ("__xpg_strerror_r", (ctypes.c_int, pointer, size), ctypes.c_int)):
        getattr(runtime, name).argtypes, getattr(runtime, name).restype = given, result


def tearDownModule():
    room.cleanup()


def resident():
    with open("/proc/self/statm", encoding="ascii") as it:
        return int(it.read().split()[1]) * resource.getpagesize()


class Blocks:
    """Blocks in use, each filled with a byte of its own."""

    def __init__(self, test, drawn):
        self.test, self.drawn, self.all = test, drawn, {}

    def size(self):
        drawn = self.drawn.randint
        return self.drawn.choice((drawn(1, 200), drawn(1, 1100), 1 << drawn(0, 18), drawn(1, 1 << 18)))

    def add(self, tried, size):
        self.test.assertTrue(tried.ok)
        self.test.assertEqual(tried.block % 16, 0)
        byte = self.drawn.randint(0, 255)
        runtime.memset(tried.block, byte, size)
        self.all[tried.block] = size, byte

    def check(self, block, count):
        self.test.assertEqual(ctypes.string_at(block, count), bytes([self.all[block][1]]) * count)

    def make(self):
        size = self.size()
        self.add(runtime.rattle_alloc(size, 1), size)

    def end(self, block=None):
        block = block or self.drawn.choice([*self.all])
        self.check(block, self.all[block][0])
        runtime.rattle_dealloc(block)
        del self.all[block]

    def change(self):
        block, size = self.drawn.choice([*self.all]), self.size()
        before, byte = self.all[block]
        kept = self.drawn.randint(0, min(before, size))
        tried = runtime.rattle_realloc(block, kept, size, 1)
        self.test.assertEqual(ctypes.string_at(tried.block, kept), bytes([byte]) * kept)
        del self.all[block]
        self.add(tried, size)


class RuntimeTest(unittest.TestCase):
    def test_is_small(self):
        with open(FILE, encoding="ascii") as it:
            self.assertLessEqual(len(it.readlines()), MOST_LINES)

    def test_bytes_move(self):
        drawn = random.Random(1)
        for size in [*range(140), 255, 256, 257, 1000, 4096, 5001]:
            for by in sorted({0, 1, 3, 15, 16, 17, 33, 63, 64, 65, 100, size // 2, size}):
                for to, of in ((0, by), (by, 0)):
                    before = bytearray(drawn.randbytes(size + by + 32))
                    wanted, got = before[:], (ctypes.c_char * len(before)).from_buffer(before)
                    wanted[to:to + size] = wanted[of:of + size]
                    at = ctypes.addressof(got)
                    self.assertEqual(runtime.memmove(at + to, at + of, size), at + to)
                    self.assertEqual(got.raw, bytes(wanted), (size, by))

    def test_bytes_are_set(self):
        for size in range(200):
            got = ctypes.create_string_buffer(b"." * 220, 220)
            self.assertEqual(runtime.memset(ctypes.addressof(got) + 3, 0x141, size), ctypes.addressof(got) + 3)
            self.assertEqual(got.raw, b"..." + b"A" * size + b"." * (217 - size))

    def test_blocks_keep_what_they_have(self):
        for seed in range(4):
            blocks = Blocks(self, random.Random(seed))
            for _ in range(6000):
                grows = len(blocks.all) < blocks.drawn.choice((3, 100, 800))
                (blocks.make if grows or not blocks.all else blocks.drawn.choice((blocks.end, blocks.change)))()
            for it in [*blocks.all]:
                blocks.end(it)

    def test_each_size(self):
        for size in [*range(1, 1200), *range(1200, MOST + 200, 61), MOST, MOST + 1, SPAN - 16, SPAN - 15, SPAN]:
            first, other = (runtime.rattle_alloc(size, 16) for _ in range(2))
            self.assertGreaterEqual(abs(first.block - other.block), size)
            for it in (first, other):
                runtime.memset(it.block, 7, size)
                runtime.rattle_dealloc(it.block)

    def test_no_bytes_are_a_block(self):
        first, other = (runtime.rattle_alloc(0, 8) for _ in range(2))
        self.assertTrue(first.ok and other.ok and first.block != other.block)
        self.assertTrue(runtime.rattle_realloc(first.block, 0, 0, 8).ok)

    def test_memory_is_given_back(self):
        before = resident()
        for size in (48, 640, 9000, 300000):
            blocks = array.array("Q", (runtime.rattle_alloc(size, 8).block for _ in range((48 << 20) // size)))
            for it in blocks:
                runtime.memset(it, 1, size)
            self.assertGreater(resident(), before + (44 << 20))
            for it in blocks:
                runtime.rattle_dealloc(it)
            # 64 spans of 64 KiB stay for what comes, beside what Python takes for its list
            self.assertLess(resident(), before + (24 << 20), size)

    def test_a_span_without_blocks_serves_another_size(self):
        before = resident()
        for size in range(16, 1024, 16):
            blocks = [runtime.rattle_alloc(size, 8).block for _ in range((2 << 20) // size)]
            for it in blocks:
                runtime.memset(it, 1, size)
            for it in blocks:
                runtime.rattle_dealloc(it)
        self.assertLess(resident(), before + (16 << 20))

    def test_refused_memory_is_told(self):
        for size in (1 << 46, (1 << 63) - 1):
            self.assertFalse(runtime.rattle_alloc(size, 1).ok)
            small = runtime.rattle_alloc(100000, 1)
            runtime.memset(small.block, 5, 100000)
            self.assertFalse(runtime.rattle_realloc(small.block, 100000, size, 1).ok)
            self.assertEqual(ctypes.string_at(small.block, 100000), b"\5" * 100000)
            runtime.rattle_dealloc(small.block)

    def test_errors_of_calls(self):
        self.assertEqual((runtime.open(b"/none", 0), runtime.rattle_errno()), (-1, errno.ENOENT))
        self.assertEqual((runtime.read(-1, None, 0), runtime.rattle_errno()), (-1, errno.EBADF))
        self.assertEqual((runtime.close(-1), runtime.isatty(-1)), (-1, 0))
        runtime.rattle_set_errno(3)
        file = runtime.open(FILE.encode(), 0)
        got = ctypes.create_string_buffer(16)
        self.assertEqual((runtime.read(file, got, 16), got.raw, runtime.rattle_errno()), (16, b"/* What the prog", 3))
        self.assertEqual((runtime.isatty(file), runtime.rattle_errno(), runtime.close(file)), (0, errno.ENOTTY, 0))

    def test_kinds_of_files(self):
        for path in (FILE, TOP, "/dev/null"):
            about = ctypes.create_string_buffer(256)
            self.assertEqual(runtime.statx(-100, path.encode(), 0, 0xfff, about), 0)
            self.assertEqual(int.from_bytes(about.raw[28:30], "little"), os.stat(path).st_mode)
        self.assertEqual((runtime.statx(-100, b"/none", 0, 0xfff, about), runtime.rattle_errno()), (-1, errno.ENOENT))

    def test_an_older_linux_has_no_statx(self):
        """By a filter of calls, seccomp(2), in a process of its own."""
        number = {"x86_64": 332, "aarch64": 291}[os.uname().machine]
        steps = ((0x20, 0, 0, 0), (0x15, 0, 1, number), (0x06, 0, 0, 0x50000 + errno.ENOSYS), (0x06, 0, 0, 0x7fff0000))
        code = ctypes.create_string_buffer(b"".join(struct.pack("=HBBI", *it) for it in steps))
        child = os.fork()
        if child == 0:
            library, program = ctypes.CDLL(None), ctypes.create_string_buffer(struct.pack("=HxxxxxxQ", len(steps), ctypes.addressof(code)))
            has_begun = library.prctl(38, 1, 0, 0, 0) == 0 and library.prctl(22, 2, program) == 0
            about, kinds = ctypes.create_string_buffer(256), []
            for path in (FILE, TOP, "/dev/null"):
                given, kind = runtime.statx(-100, path.encode(), 0, 0xfff, about), os.stat(path).st_mode.to_bytes(2, "little")
                kinds.append(given == 0 and about.raw[28:30] == kind)
            is_missing = runtime.statx(-100, b"/none", 0, 0xfff, about) == -1 and runtime.rattle_errno() == errno.ENOENT
            os._exit(0 if has_begun and all(kinds) and is_missing else 1)
        self.assertEqual(os.waitpid(child, 0)[1], 0)

    def test_names_of_errors(self):
        """As the C library of this machine has them."""
        library = ctypes.CDLL(None, use_errno=True)
        got, wanted = (ctypes.create_string_buffer(b"." * 64, 64) for _ in range(2))
        numbers = [*range(300), 1000, 4095, 2147483647]
        for number in numbers:
            given = getattr(runtime, "__xpg_strerror_r")(number, got, 64), getattr(library, "__xpg_strerror_r")(number, wanted, 64)
            self.assertEqual((given[0], got.value), (given[1], wanted.value), number)
        got = ctypes.create_string_buffer(b"." * 64, 64)
        self.assertEqual((getattr(runtime, "__xpg_strerror_r")(5, got, 18), got.value), (errno.ERANGE, b"." * 64))
        self.assertEqual((getattr(runtime, "__xpg_strerror_r")(5, got, 19), got.value), (0, b"Input/output error"))


if __name__ == "__main__":
    unittest.main()
