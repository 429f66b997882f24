"""The bytes of the entries of a jar: read straight from it where nothing about an entry is odd, which takes a fraction of the time, and else by `zipfile`."""
import contextlib
import errno
import os
import struct
import zipfile
import zlib

# The bytes in front of the name of an entry: the mark, the flags, the way of packing, and the bytes of the name and of the extra field.
LOCAL = struct.Struct("<4s2xHH16xHH")
MARK = b"PK\3\4"
# The flags that are not odd: how it was deflated (2, 4), that sizes stand behind it (8), and that its name is UTF-8.
UTF8 = 0x800
FLAGS = UTF8 | 0xE


class Entries:
    """The entries of a jar, of a path or of a file in memory, until it is closed. Of each at most so many bytes are read."""

    def __init__(self, source, most):
        self.source, self.most, self.room, self.zip = source, most, contextlib.ExitStack(), None
        self.file = self.room.enter_context(open(source, "rb", buffering=0)) if isinstance(source, str) else source

    def __enter__(self):
        return self

    def __exit__(self, *_):
        self.close()

    def close(self):
        self.room.close()

    def data(self, info):
        """The bytes of an entry, of which `zipfile` says what is wrong."""
        data = plain(self.file, info) if info.file_size < self.most else None
        if data is not None:
            return data
        if self.zip is None:
            self.zip = self.room.enter_context(zipfile.ZipFile(self.source))
        return self.zip.open(info).read(self.most)


def plain(file, info):
    """The bytes of an entry that `zipfile` would give; None where anything about it is odd."""
    file.seek(info.header_offset)
    head = file.read(LOCAL.size)
    if len(head) < LOCAL.size or info.flag_bits & ~FLAGS:
        return None
    mark, flags, way, *sizes = LOCAL.unpack(head)
    if (mark, flags, way) != (MARK, info.flag_bits, info.compress_type):
        return None
    name = info.orig_filename.encode("utf-8" if flags & UTF8 else "cp437")
    size = sum(sizes) + info.compress_size
    # Newer versions of Python know where the next entry begins.
    end = getattr(info, "_end_offset", None)
    if end is not None and info.header_offset + LOCAL.size + size > end:
        return None
    rest = file.read(size)
    if len(rest) < size or rest[: sizes[0]] != name:
        return None
    data = inflated(rest[sum(sizes) :], info)
    return data if data is not None and len(data) == info.file_size and zlib.crc32(data) == info.CRC else None


def inflated(packed, info):
    """The bytes of an entry that is stored or deflated; None where they have no end."""
    if info.compress_type == zipfile.ZIP_STORED:
        return packed
    if info.compress_type != zipfile.ZIP_DEFLATED:
        return None
    unpacker = zlib.decompressobj(-zlib.MAX_WBITS)
    try:
        data = unpacker.decompress(packed, info.file_size + 1)
    except zlib.error:
        return None
    return data if unpacker.eof else None


def write(path, data, mode=0o666):
    """Writes a new file, in one piece."""
    file = os.open(path, os.O_WRONLY | os.O_CREAT | os.O_TRUNC | os.O_CLOEXEC, mode)
    try:
        # Where the room ends a part is written.
        if os.write(file, data) != len(data):
            raise OSError(errno.ENOSPC, os.strerror(errno.ENOSPC))
    finally:
        os.close(file)
