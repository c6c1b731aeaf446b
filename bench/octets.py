"""Addresses and frames in octets, for the scripts beside this file."""


def address(call, ssid, bit7=0, last=0):
    return bytes(ord(c) << 1 for c in call.ljust(6)) + bytes([bit7 << 7 | 0x60 | ssid << 1 | last])


def kiss(octets):
    """A frame as KISS bytes: data on port 0."""
    return b"\xC0\x00" + octets.replace(b"\xDB", b"\xDB\xDD").replace(b"\xC0", b"\xDB\xDC") + b"\xC0"
