"""Writes so many made links of a kind, one per line, from a seed, and on standard error how many of them are valid:
python3 bench/links.py COUNT SEED [KIND]. The kinds are in MAKERS below; with none the list is mixed, by SHARES.
Each of own_base is two lines, a base and a reference. Against which base and by which profile a kind is checked stands
in bench/kinds."""
import ipaddress
import random
import sys

WORDS = (
    "about archive article assets blog book category code data docs download edit en example file forum help history "
    "home image index issue item library link list login main map media news open page paper photo post project "
    "public read release report search section shop source static story tag theme topic user view wiki year"
).split()
ENDS = "com com com org org net de fr io co.uk gov edu info".split()
ABROAD = (
    "bücher münchen café españa français smørrebrød łódź čeština ελληνικά пример новости україна "
    "例え 東京 中国 新闻 한국어 ไทย"
).split()
# Of 244,152 links of real documents 0.03 % have upper case in scheme or name, 0.07 % an IPv4 address and 0.10 % a port.
# 4.5 % have escapes, and so have the plain links here. The other shares are chosen.
SHARES = (
    ("upper", 0.0003),
    ("ipv4", 0.0007),
    ("port", 0.0010),
    ("root_dot", 0.0020),
    ("beyond_ascii", 0.0080),
    ("bad", 0.0080),
)
# The kinds of which each text is refused.
REFUSED = ("bad", "code_point", "space", "hyphens", "credentials")
LONG_HOST, LONG_PATH, LONG_ESCAPES = 100, 10_000, 362

draw = random.Random()


def name():
    labels = [draw.choice(WORDS) + draw.choice(["", "", str(draw.randrange(99)), "-" + draw.choice(WORDS)])]
    if draw.random() < 0.6:
        labels.insert(0, draw.choice(["www", "www", "en", "m", "docs", "news"]))
    return ".".join(labels + [draw.choice(ENDS)])


def long_name():
    """A name of so many bytes: labels before a name, cut at the front."""
    text = name()
    while len(text) < LONG_HOST:
        text = draw.choice(WORDS) + "." + text
    text = text[-LONG_HOST:]
    return "a" + text[1:] if text.startswith(".") else text


def credentials():
    return draw.choice(WORDS) + draw.choice(["", ":" + draw.choice(WORDS)])


def name_abroad():
    return draw.choice(["", "www."]) + draw.choice(ABROAD) + "." + draw.choice(ENDS)


def ace_label(label):
    return label if label.isascii() else "xn--" + label.encode("punycode").decode()


def ace_name():
    return ".".join(map(ace_label, name_abroad().split(".")))


def escaped_name():
    """A name with one letter escaped."""
    text = name()
    at = draw.choice([place for place, c in enumerate(text) if c.isalpha()])
    return text[:at] + f"%{ord(text[at]):02{draw.choice('xX')}}" + text[at + 1:]


def ipv6():
    pieces = [f"{draw.randrange(1, 65536):x}" for _ in range(8)]
    return draw.choice([
        str(ipaddress.IPv6Address(draw.getrandbits(128))),
        "2001:db8:" + ":".join(pieces[:3]) + "::" + pieces[3],
        "fe80::" + ":".join(pieces[:4]),
        "::1",
        "::ffff:" + ipv4(),
    ])


def ipv4():
    return ".".join(str(draw.randrange(256)) for _ in range(4))


def word():
    return draw.choice(WORDS) + draw.choice(["", "", "-" + draw.choice(WORDS), "_" + str(draw.randrange(9999))])


def segment():
    return word() + ("%20x" if draw.random() < 0.02 else "")


def path():
    segments = "".join("/" + segment() for _ in range(draw.choice([0, 1, 1, 2, 2, 3, 4, 5])))
    return segments + draw.choice(["", "/", ".html"])


def long_path():
    """A path of so many bytes."""
    text = ""
    while len(text) < LONG_PATH:
        text += "/" + word()
    return text[:LONG_PATH]


def query():
    fields = [draw.choice(WORDS) + "=" + str(draw.randrange(10**6)) for _ in range(draw.choice([1, 2, 3]))]
    return "?" + "&".join(fields)


def rest():
    text = path()
    if text and not text.startswith("/"):
        text = "/index" + text
    if draw.random() < 0.25:
        text += query()
    if draw.random() < 0.1:
        text += "#" + draw.choice(WORDS)
    return text


def scheme():
    return draw.choice(["https", "https", "https", "https", "http", "http"])


def link(host, after=rest):
    """A link with a host that is made after its scheme, and with what is after it."""
    return scheme() + "://" + host() + after()


def upper():
    return draw.choice(["HTTPS://" + name(), scheme() + "://" + name().title()]) + rest()


def escapes():
    text = link(name, lambda: "/e")
    while len(text) < LONG_ESCAPES:
        text += draw.choice("/_" + " " * 10).strip() + f"%{draw.randrange(256):02{draw.choice('xX')}}"
    return text


def file_link():
    host = draw.choice(["", "", "", "", "/C:", draw.choice(WORDS)])
    return "file://" + host + "/" + word() + rest()


def reference():
    if draw.random() < 0.1:
        return draw.choice([query(), "#" + draw.choice(WORDS)])
    segments = "/".join(segment() for _ in range(draw.choice([1, 1, 2, 3])))
    text = draw.choice(["", "", "/", "/", "./", "../", "../../"]) + segments + draw.choice(["", "/", ".html"])
    return text + (query() if draw.random() < 0.25 else "")


def own_base():
    """A page's address, and a reference on that page."""
    return link(name, lambda: "/" + word() + path()) + "\n" + reference()


MAKERS = {
    "plain": lambda: link(name),
    "root_dot": lambda: link(lambda: name() + "."),
    "port": lambda: link(lambda: name() + ":" + str(draw.choice([80, 443, 8080, 3000, 8443]))),
    "beyond_ascii": lambda: link(name, lambda: "/café" + rest()),
    "escapes": escapes,
    "long_path": lambda: link(name, long_path),
    "long_host": lambda: link(long_name),
    "upper": upper,
    "upper_host": lambda: link(lambda: draw.choice([str.title, str.upper])(name())),
    "name_abroad": lambda: link(name_abroad),
    "ace": lambda: link(ace_name),
    "ipv4": lambda: link(ipv4),
    "ipv6": lambda: link(lambda: "[" + ipv6() + "]"),
    "file": file_link,
    "reference": reference,
    "own_base": own_base,
    "host_reference": lambda: "//" + name() + rest(),
    "underscore": lambda: link(lambda: draw.choice(WORDS) + "_" + name()),
    "escaped_host": lambda: link(escaped_name),
    "hyphens": lambda: link(lambda: draw.choice(WORDS)[:2] + "--" + name()),
    "credentials": lambda: link(lambda: credentials() + "@" + name()),
    "code_point": lambda: link(name, lambda: "/" + word() + draw.choice('"<>[]^`{|}') + word() + rest()),
    "space": lambda: link(name, lambda: "/" + word() + " " + word() + rest()),
    "bad": lambda: link(name, lambda: "/" + draw.choice(["a b", "a|b", "%zz", "[x]"])),
}


def drawn():
    """A kind of the mixed list."""
    at = draw.random()
    for which, share in SHARES:
        if at < share:
            return which
        at -= share
    return "plain"


def main(count, seed, kind="mixed"):
    draw.seed(int(seed))
    valid = 0
    lines = []
    for _ in range(int(count)):
        which = drawn() if kind == "mixed" else kind
        valid += which not in REFUSED
        lines.append(MAKERS[which]() + "\n")
    sys.stdout.buffer.write("".join(lines).encode())
    sys.stderr.write(f"{valid}\n")


main(*sys.argv[1:])
