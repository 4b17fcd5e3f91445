"""Archives whose bytes depend on what is in them alone: no clock, no owner, no order of a folder."""
import hashlib
import io
import lzma
import struct
import tarfile
import zlib
from collections import namedtuple

# seconds since 1970 that each file is said to be of: a date would change with each release, and says nothing
MOMENT = 1577836800

# deflated, of no time, by the slowest way, on Unix
GZIP_HEADER = b"\x1f\x8b\x08\0\0\0\0\0\x02\x03"
# what preset 9 stands for, each by itself, so that no version of the library reads the preset its own way
XZ_FILTER = {"id": lzma.FILTER_LZMA2, "dict_size": 1 << 26, "lc": 3, "lp": 0, "pb": 2, "mode": lzma.MODE_NORMAL, "nice_len": 64,
             "mf": lzma.MF_BT4, "depth": 0}

# one file of a package: where it is installed, without the first slash; of a symbolic link the data is where it leads
File = namedtuple("File", "path mode data kind", defaults=[tarfile.REGTYPE])


def link(path, to):
    return File(path, 0o777, to.encode(), tarfile.SYMTYPE)


def header(name, mode, kind=tarfile.REGTYPE, size=0):
    made = tarfile.TarInfo(name)
    made.mode, made.type, made.size, made.mtime = mode, kind, size, MOMENT
    made.uname = made.gname = "root"
    return made


def folders_of(files):
    """Every folder above a file, each before what is in it."""
    found = set()
    for file in files:
        parts = file.path.split("/")[:-1]
        found |= {"/".join(parts[:end]) for end in range(1, len(parts) + 1)}
    return sorted(found)


def tar(files, prefix="./"):
    out = io.BytesIO()
    with tarfile.open(fileobj=out, mode="w", format=tarfile.GNU_FORMAT) as archive:
        if prefix == "./":
            archive.addfile(header("./", 0o755, tarfile.DIRTYPE))
        for folder in folders_of(files):
            archive.addfile(header(f"{prefix}{folder}/", 0o755, tarfile.DIRTYPE))
        for file in sorted(files):
            if file.kind == tarfile.SYMTYPE:
                made = header(prefix + file.path, file.mode, file.kind)
                made.linkname = file.data.decode()
                archive.addfile(made)
            else:
                archive.addfile(header(prefix + file.path, file.mode, size=len(file.data)), io.BytesIO(file.data))
    return out.getvalue()


def gz(data):
    """A gzip member. Its header is written here, since Python's own names another system from version to version."""
    packer = zlib.compressobj(9, zlib.DEFLATED, -zlib.MAX_WBITS, 8, zlib.Z_DEFAULT_STRATEGY)
    body = packer.compress(data) + packer.flush()
    return GZIP_HEADER + body + struct.pack("<II", zlib.crc32(data), len(data) & 0xffffffff)


def xz(data):
    return lzma.compress(data, format=lzma.FORMAT_XZ, check=lzma.CHECK_CRC64, filters=[XZ_FILTER])


def ar(members):
    """A Debian package's outer archive: names and contents, in their order."""
    out = [b"!<arch>\n"]
    for name, data in members:
        out.append(f"{name:<16}{MOMENT:<12}{0:<6}{0:<6}{0o100644:<8o}{len(data):<10}`\n".encode())
        out.append(data + b"\n" * (len(data) % 2))
    return b"".join(out)


def md5(data):
    return hashlib.md5(data, usedforsecurity=False).hexdigest()


def debian_package(control, scripts, files):
    """The package with this text of its control file, these scripts of its maintainer, and these files. What is below etc/ is the
    administrator's to change, and has no sum, and neither has a link."""
    summed = (it for it in sorted(files) if it.kind == tarfile.REGTYPE and not it.path.startswith("etc/"))
    sums = "".join(f"{md5(file.data)}  {file.path}\n" for file in summed)
    about = [File("control", 0o644, control.encode()), File("md5sums", 0o644, sums.encode()), *scripts]
    return ar([("debian-binary", b"2.0\n"), ("control.tar.xz", xz(tar(about))), ("data.tar.xz", xz(tar(files)))])
