"""A program for Windows, for those who sign one."""

import struct


def program():
    """A program for Windows, as short as one can be: a return, in one section (Microsoft's PE format)."""
    page, block = 4096, 512
    head = b"MZ".ljust(60, b"\0") + struct.pack("<I", 64) + b"PE\0\0"
    head += struct.pack("<HHIIIHH", 0x14C, 1, 0, 0, 0, 224, 0x102)
    head += struct.pack("<HBBIIIIII", 0x10B, 0, 0, block, 0, 0, page, page, 2 * page)
    head += struct.pack("<IIIHHHHHHI", 0x400000, page, block, 4, 0, 0, 0, 4, 0, 0)
    head += struct.pack("<IIIHHIIIIII", 2 * page, block, 0, 3, 0, 2**20, page, 2**20, page, 0, 16) + bytes(128)
    head += b".text\0\0\0" + struct.pack("<IIIIIIHHI", 1, page, block, block, 0, 0, 0, 0, 0x60000020)
    return head.ljust(block, b"\0") + b"\xc3".ljust(block, b"\0")
