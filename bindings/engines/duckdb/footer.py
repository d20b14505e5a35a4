"""Puts DuckDB's footer of metadata after a shared object: footer.py OBJECT OUT VERSION PLATFORM. (It is laid out as by DuckDB's
append_extension_metadata: a WebAssembly section that holds eight fields of 32 bytes, the last one first, and no signature.)"""

import sys

# The head of the section, as LEB128 has its length: of type 0 (a custom one), 531 bytes, a name of 16, then 512 more.
HEAD = bytes([0, 147, 4, 16]) + b"duckdb_signature" + bytes([128, 4])
# The version of DuckDB's C API that rows.h asks for.
API = "v1.2.0"


def main(module, out, version, platform):
    """Writes the object and its footer."""
    fields = ("", "", "", "C_STRUCT", version, API, platform, "4")
    with open(module, "rb") as file:
        data = file.read()
    with open(out, "wb") as file:
        file.write(data + HEAD + b"".join(it.encode().ljust(32, b"\0") for it in fields) + bytes(256))


if __name__ == "__main__":
    main(*sys.argv[1:])
