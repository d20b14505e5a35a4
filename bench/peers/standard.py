"""The basic URL parser of the URL Standard (section 4.4) without state override, read a second time. It stops at its
first validation error or failure. A method stands for each state, in the order and the words of the Standard.

Domains beyond ASCII, and those with a label that begins with `xn--`, are asked of a function that the caller gives.
"""

import re
from urllib.parse import unquote_to_bytes

SPECIAL = {"ftp": 21, "file": None, "http": 80, "https": 443, "ws": 80, "wss": 443}
FORBIDDEN_HOST = set("\0\t\n\r #/:<>?@[\\]^|")
FORBIDDEN_DOMAIN = FORBIDDEN_HOST | {chr(c) for c in range(0x20)} | {"%", "\x7f"}
DIGITS = set("0123456789")
HEX_DIGITS = set("0123456789abcdefABCDEF")


class Stop(Exception):
    """A validation error, or a failure."""


def stop_where(wrong):
    """Stops where something is wrong."""
    if wrong:
        raise Stop


# ---- code points


def is_url_code_point(c):
    """A URL code point (section 4.3)."""
    point = ord(c)
    if point < 0x80:
        return c.isalnum() or c in "!$&'()*+,-./:;=?@_~"
    return 0xA0 <= point <= 0x10FFFD and not 0xFDD0 <= point <= 0xFDEF and point & 0xFFFE != 0xFFFE


def check_unit(text, place):
    """Stops where no URL unit begins at the place."""
    c = text[place]
    stop_where(c != "%" and not is_url_code_point(c))
    stop_where(c == "%" and not re.match(r"%[0-9A-Fa-f]{2}", text[place : place + 3]))


def encoded(text, also=""):
    """The text with each code point beyond ASCII percent-encoded, and those that are named."""
    return "".join("".join(f"%{byte:02X}" for byte in c.encode()) if not c.isascii() or c in also else c for c in text)


def is_drive_letter(text):
    """A Windows drive letter (section 4.2)."""
    return re.fullmatch(r"[A-Za-z][:|]", text) is not None


def is_normalized_drive_letter(text):
    """A Windows drive letter with `:`."""
    return re.fullmatch(r"[A-Za-z]:", text) is not None


def starts_with_drive_letter(text):
    """The text starts with a Windows drive letter (section 4.2)."""
    return is_drive_letter(text[:2]) and text[2:3] in ("", "/", "\\", "?", "#")


# ---- hosts (section 3.5)


def ends_in_number(domain):
    """The ends in a number checker."""
    parts = domain.split(".")
    if parts[-1] == "":
        if len(parts) == 1:
            return False
        parts.pop()
    last = parts[-1]
    return (last != "" and set(last) <= DIGITS) or re.fullmatch(r"0[xX][0-9A-Fa-f]*", last) is not None


def ipv4_parser(domain):
    """The IPv4 parser, and the serializer. An error is reported on all but shortest decimal numbers of at most 255."""
    parts = domain.split(".")
    stop_where(len(parts) > 4)
    stop_where(not all(re.fullmatch(r"0|[1-9][0-9]*", part) and int(part) <= 255 for part in parts))
    numbers = [int(part) for part in parts]
    value = numbers[-1] + sum(number * 256 ** (3 - i) for i, number in enumerate(numbers[:-1]))
    return ".".join(str(value >> shift & 255) for shift in (24, 16, 8, 0))


def ipv4_in_ipv6(text, place, address, piece):
    """The numbers at the end of an IPv6 text, put into the address from a piece on."""
    stop_where(piece > 6)
    found = re.fullmatch(r"(\d+)\.(\d+)\.(\d+)\.(\d+)", text[place:], re.ASCII)
    stop_where(found is None)
    for i, number in enumerate(found.groups()):
        stop_where(len(number) > 1 and number[0] == "0" or int(number) > 255)
        address[piece + i // 2] = address[piece + i // 2] * 256 + int(number)


def ipv6_parser(text):
    """The eight pieces of an IPv6 text."""
    address, piece, compress, place = [0] * 8, 0, None, 0
    if text.startswith(":"):
        stop_where(not text.startswith("::"))
        place, piece, compress = 2, 1, 1
    while place < len(text):
        stop_where(piece == 8)
        if text[place] == ":":
            stop_where(compress is not None)
            place, piece = place + 1, piece + 1
            compress = piece
            continue
        digits = re.match(r"[0-9A-Fa-f]{0,4}", text[place:])[0]
        if text[place + len(digits) : place + len(digits) + 1] == ".":
            stop_where(digits == "")
            ipv4_in_ipv6(text, place, address, piece)
            piece += 2
            break
        place += len(digits)
        if place < len(text):
            stop_where(text[place] != ":" or place + 1 == len(text))
            place += 1
        address[piece] = int(digits or "0", 16)
        piece += 1
    stop_where(compress is None and piece != 8)
    if compress is None:
        return address
    return address[:compress] + [0] * (8 - piece) + address[compress:piece]


def ipv6_serializer(pieces):
    """The pieces in brackets, the first longest run of two zero pieces or more as `::` (section 3.6)."""
    runs = [(i, j) for i in range(8) for j in range(i + 2, 9) if not any(pieces[i:j])]
    words = [f"{piece:x}" for piece in pieces]
    if not runs:
        return f"[{':'.join(words)}]"
    start, end = max(runs, key=lambda run: (run[1] - run[0], -run[0]))
    return f"[{':'.join(words[:start])}::{':'.join(words[end:])}]"


def domain_to_ascii(domain, ask):
    """Domain to ASCII, not strict (section 3.3)."""
    if domain.isascii() and not any(label.lower().startswith("xn--") for label in domain.split(".")):
        return domain.lower()
    form = ask(domain)
    stop_where(form is None)
    return form


def host_parser(text, is_special, ask):
    """The serialized host."""
    if text.startswith("["):
        stop_where(not text.endswith("]"))
        return ipv6_serializer(ipv6_parser(text[1:-1]))
    if not is_special:
        stop_where(not FORBIDDEN_HOST.isdisjoint(text))
        for place in range(len(text)):
            check_unit(text, place)
        return encoded(text)
    try:
        domain = unquote_to_bytes(text).decode("utf-8")
    except UnicodeDecodeError as error:
        raise Stop from error
    form = domain_to_ascii(domain, ask)
    stop_where(form == "" or not FORBIDDEN_DOMAIN.isdisjoint(form))
    return ipv4_parser(form) if ends_in_number(form) else form


# ---- URLs


class Url:
    """A URL's record; the path is a text where it is opaque, otherwise a list."""

    def __init__(self):
        self.scheme, self.host, self.port, self.path, self.query, self.fragment = "", None, None, [], None, None

    def is_opaque(self):
        """Whether the path is opaque."""
        return isinstance(self.path, str)

    def is_special(self):
        """Whether the scheme is special, `file` too."""
        return self.scheme in SPECIAL

    def shorten(self):
        """Shortens the path (section 4.2)."""
        is_drive = self.scheme == "file" and len(self.path) == 1 and is_normalized_drive_letter(self.path[0])
        if not is_drive:
            self.path = self.path[:-1]

    def serialized(self):
        """The URL serializer (section 4.5)."""
        text = f"{self.scheme}:"
        if self.host is not None:
            text += f"//{self.host}" + ("" if self.port is None else f":{self.port}")
        elif not self.is_opaque() and len(self.path) > 1 and self.path[0] == "":
            text += "/."
        text += self.path if self.is_opaque() else "".join(f"/{segment}" for segment in self.path)
        text += "" if self.query is None else f"?{self.query}"
        return text + ("" if self.fragment is None else f"#{self.fragment}")


class Parser:
    """The machine: a state, a pointer, a buffer, and the URL. A state's method looks at the code point `c` at the
    pointer, which is the empty text at the end, and names the next state."""

    def __init__(self, text, base, ask):
        self.text, self.base, self.ask = text, base, ask
        self.pointer, self.buffer, self.inside_brackets, self.url = 0, "", False, Url()

    def run(self):
        """The URL of a text on which the parser is silent."""
        text = self.text
        stop_where(any(c in "\t\n\r" for c in text) or any(ord(c) <= 0x20 for c in text[:1] + text[-1:]))
        state = self.scheme_start
        while True:
            c = text[self.pointer : self.pointer + 1]
            state = state(c)
            if c == "" and self.pointer == len(text):
                return self.url
            self.pointer += 1

    def again(self, state):
        """The state at the same place once more."""
        self.pointer -= 1
        return state

    def remaining(self):
        """What is after the pointer's code point."""
        return self.text[self.pointer + 1 :]

    def is_end(self, c):
        """The end of an authority, a host, a port or a segment."""
        return c in ("", "/", "?", "#") or (c == "\\" and self.url.is_special())

    def after_path(self, c, otherwise):
        """The state after `?` or `#`, or another."""
        if c == "?":
            self.url.query = ""
            return self.query
        if c == "#":
            self.url.fragment = ""
            return self.fragment
        return otherwise

    def take_base(self):
        """Host, port, path and query of the base."""
        self.url.host, self.url.port, self.url.query = self.base.host, self.base.port, self.base.query
        self.url.path = self.base.path if self.base.is_opaque() else list(self.base.path)

    def host_of_buffer(self):
        """The host that the buffer is; the buffer is empty then."""
        host, self.buffer = host_parser(self.buffer, self.url.is_special(), self.ask), ""
        return host

    def scheme_start(self, c):
        if c.isascii() and c.isalpha():
            self.buffer += c.lower()
            return self.scheme
        return self.again(self.no_scheme)

    def scheme(self, c):
        if c != "" and c.isascii() and (c.isalnum() or c in "+-."):
            self.buffer += c.lower()
            return self.scheme
        if c == ":":
            self.url.scheme, self.buffer = self.buffer, ""
            return self.after_scheme()
        self.buffer, self.pointer = "", -1
        return self.no_scheme

    def after_scheme(self):
        if self.url.scheme == "file":
            stop_where(not self.remaining().startswith("//"))
            return self.file
        if self.url.is_special():
            return self.special_authority_slashes
        if self.remaining().startswith("/"):
            self.pointer += 1
            return self.path_or_authority
        self.url.path = ""
        return self.opaque_path

    def no_scheme(self, c):
        stop_where(self.base is None or (self.base.is_opaque() and c != "#"))
        if self.base.is_opaque():
            self.url.scheme = self.base.scheme
            self.take_base()
            self.url.fragment = ""
            return self.fragment
        return self.again(self.file if self.base.scheme == "file" else self.relative)

    def special_authority_slashes(self, c):
        # (so of a base of the same scheme: what isn't `//` there is an error too)
        stop_where(c != "/" or not self.remaining().startswith("/"))
        self.pointer += 1
        return self.special_authority_ignore_slashes

    def path_or_authority(self, c):
        return self.authority if c == "/" else self.again(self.path)

    def relative(self, c):
        self.url.scheme = self.base.scheme
        if c == "/":
            return self.relative_slash
        stop_where(c == "\\" and self.url.is_special())
        self.take_base()
        if c in ("", "?", "#"):
            return self.after_path(c, self.relative)
        self.url.query = None
        self.url.shorten()
        return self.again(self.path)

    def relative_slash(self, c):
        stop_where(c == "\\" and self.url.is_special())
        if c == "/":
            return self.special_authority_ignore_slashes if self.url.is_special() else self.authority
        self.url.host, self.url.port = self.base.host, self.base.port
        return self.again(self.path)

    def special_authority_ignore_slashes(self, c):
        stop_where(c in ("/", "\\"))
        return self.again(self.authority)

    def authority(self, c):
        stop_where(c == "@")
        if self.is_end(c):
            self.pointer -= len(self.buffer) + 1
            self.buffer = ""
            return self.host
        self.buffer += c
        return self.authority

    def host(self, c):
        if c == ":" and not self.inside_brackets:
            stop_where(self.buffer == "")
            self.url.host = self.host_of_buffer()
            return self.port
        if self.is_end(c):
            stop_where(self.buffer == "" and self.url.is_special())
            self.url.host = self.host_of_buffer()
            return self.again(self.path_start)
        self.inside_brackets = c == "[" or (self.inside_brackets and c != "]")
        self.buffer += c
        return self.host

    def port(self, c):
        if c in DIGITS:
            self.buffer += c
            return self.port
        stop_where(not self.is_end(c))
        if self.buffer != "":
            port, self.buffer = int(self.buffer), ""
            stop_where(port > 65535)
            self.url.port = None if port == SPECIAL.get(self.url.scheme) else port
        return self.again(self.path_start)

    def file(self, c):
        self.url.scheme, self.url.host = "file", ""
        stop_where(c == "\\")
        if c == "/":
            return self.file_slash
        if self.base is None or self.base.scheme != "file":
            return self.again(self.path)
        self.take_base()
        if c in ("", "?", "#"):
            return self.after_path(c, self.file)
        self.url.query = None
        stop_where(starts_with_drive_letter(self.text[self.pointer :]))
        self.url.shorten()
        return self.again(self.path)

    def file_slash(self, c):
        stop_where(c == "\\")
        if c == "/":
            return self.file_host
        if self.base is not None and self.base.scheme == "file":
            self.url.host = self.base.host
            has_drive = self.base.path != [] and is_normalized_drive_letter(self.base.path[0])
            if has_drive and not starts_with_drive_letter(self.text[self.pointer :]):
                self.url.path.append(self.base.path[0])
        return self.again(self.path)

    def file_host(self, c):
        if c not in ("", "/", "\\", "?", "#"):
            self.buffer += c
            return self.file_host
        stop_where(is_drive_letter(self.buffer))
        host = "" if self.buffer == "" else self.host_of_buffer()
        self.url.host = "" if host == "localhost" else host
        return self.again(self.path_start)

    def path_start(self, c):
        if self.url.is_special():
            stop_where(c == "\\")
            return self.path if c == "/" else self.again(self.path)
        if c in ("", "?", "#"):
            return self.after_path(c, self.path_start)
        return self.path if c == "/" else self.again(self.path)

    def path(self, c):
        if not self.is_end(c):
            check_unit(self.text, self.pointer)
            self.buffer += encoded(c)
            return self.path
        stop_where(c == "\\")
        dots = self.buffer.lower().replace("%2e", ".")
        if dots == "..":
            self.url.shorten()
        if dots not in (".", ".."):
            self.url.path.append(self.buffer)
        elif c != "/":
            self.url.path.append("")
        self.buffer = ""
        return self.after_path(c, self.path)

    def opaque_path(self, c):
        if c in ("?", "#"):
            return self.after_path(c, self.opaque_path)
        if c == " ":
            self.url.path += "%20" if self.remaining()[:1] in ("?", "#") else " "
        elif c != "":
            check_unit(self.text, self.pointer)
            self.url.path += encoded(c)
        return self.opaque_path

    def query(self, c):
        if c not in ("", "#"):
            check_unit(self.text, self.pointer)
            self.url.query += encoded(c, "'" if self.url.is_special() else "")
            return self.query
        return self.after_path(c, self.query)

    def fragment(self, c):
        if c != "":
            check_unit(self.text, self.pointer)
            self.url.fragment += encoded(c)
        return self.fragment


def parse(text, base, ask):
    """The URL of a text on which the parser is silent, alone or against a base; otherwise it raises `Stop`."""
    return Parser(text, base, ask).run()
