"""macos/signature.py PROGRAM: whether a program for macOS has a whole signature, ad hoc: a checksum of each of its pages,
up to where the signature begins."""

import hashlib
import struct
import sys

LC_CODE_SIGNATURE = 0x1D
SUPER_BLOB, DIRECTORY = 0xFADE0CC0, 0xFADE0C02
AD_HOC = 0x2
SHA256 = 2


def part(data: bytes) -> "tuple[int, int]":
    """Returns the place of the signature, and its length."""
    magic, _, _, _, count = struct.unpack_from("<5I", data)
    at = 32
    if magic != 0xFEEDFACF:
        sys.exit("FAILED: it is no program of 64 bits for macOS")
    for _ in range(count):
        command, size = struct.unpack_from("<II", data, at)
        if command == LC_CODE_SIGNATURE:
            start, length = struct.unpack_from("<II", data, at + 8)
            return start, length
        at += size
    sys.exit("FAILED: it has no signature")


def directory(signature: bytes) -> bytes:
    """The list of checksums."""
    magic, _, count = struct.unpack_from(">III", signature)
    if magic != SUPER_BLOB:
        sys.exit("FAILED: its signature is none")
    for number in range(count):
        kind, start = struct.unpack_from(">II", signature, 12 + 8 * number)
        if kind == 0 and struct.unpack_from(">I", signature, start)[0] == DIRECTORY:
            return signature[start:]
    sys.exit("FAILED: its signature lists no checksums")


def main() -> None:
    """Looks at the program."""
    with open(sys.argv[1], "rb") as file:
        data = file.read()
    start, length = part(data)
    listed = directory(data[start : start + length])
    flags, hashes, _, _, slots, limit, size, kind, _, shift = struct.unpack_from(">IIIIIIBBBB", listed, 12)
    if not flags & AD_HOC or limit != start or start + length != len(data) or (size, kind) != (32, SHA256):
        sys.exit("FAILED: its signature is of another kind")
    pages = [data[at : min(at + (1 << shift), limit)] for at in range(0, limit, 1 << shift)]
    wanted = b"".join(hashlib.sha256(page).digest() for page in pages)
    if slots != len(pages) or listed[hashes : hashes + len(wanted)] != wanted:
        sys.exit("FAILED: a page has another checksum than its signature says")


if __name__ == "__main__":
    main()
