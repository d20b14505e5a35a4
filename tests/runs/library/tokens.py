"""Made-up documents of HTML, whose attributes another reader finds where urlcheck.documents does: tokens.py READER
COUNT SEED, of which the reader is made of tokens.c. The package is on PYTHONPATH."""

import random
import subprocess
import sys

from urlcheck._readers import html_links
from urlcheck._readers.source import Source

# Tags that no tree leaves out, and what a tokenizer looks at, but for `&` and U+0000, with which gumbo has other
# names and places.
TAGS = "a A b p div span img x-y script Script style textarea title xmp iframe noembed noframes".split()
PIECES = ["<", "</", ">", "/>", "<!--", "-->", "--!>", "<!-->", "<!--->", "<!", "<?", "<!DOCTYPE x", "<![CDATA[", "]]>", "--", "-", "!",
          " ", "\n", "\t", "\f", "/", "=", "= ", '"', "'", '=""', "='x>y'", '="<a href=z>"', "=q", "x", "\u00e9", "\u212a",
          '<a href="x">', "<p class='y' src = z>", "<b x=\"<\" data=''>", "<p class='<a href=z>'>", "<p class=\"<a href=z>\">", "<script>",
          "</script", "</script>", "</SCRIPT x", "<script/", "<style>", "</style>", "<plaintext>"]
LOOKED_AT = {*html_links._TAKEN, "content"}
NAMES = ["href", "HREF", "src", "data", "ping", "class", "content", "a", "x:y"]


def document(chance):
    """A document of some pieces."""
    pieces = []
    for _ in range(chance.randint(1, 24)):
        kind = chance.random()
        if kind < 0.3:
            pieces.append(chance.choice(("<", "</")) * (chance.random() < 0.9) + chance.choice(TAGS))
        elif kind < 0.5:
            pieces.append(" " * (chance.random() < 0.8) + chance.choice(NAMES) + chance.choice(("", "=", '="x y"', "='z'", "=w")))
        else:
            # (after this all is text)
            piece = chance.choice(PIECES)
            pieces.append(piece if piece != "<plaintext>" or chance.random() < 0.1 else ">")
    return "".join(pieces)


class Reader(html_links._Reader):
    """Keeps the attributes that are looked at, each with where its name and its value are, and takes no links of
    them."""

    def _take_all(self, tag, attributes):
        for name, found in attributes.items():
            start, end = found.span(found.lastgroup)
            self.links.append((name, found.start("name"), *((start, end) if found.lastgroup != "name" and start < end else ())))

    def _take_sheet(self, start, end):
        pass


def read(text):
    """The attributes that the package reads: name, place, and the place and the length of a value that isn't empty,
    in bytes."""
    reader = Reader(Source(text))
    reader.read()
    found = set()
    for name, *places in reader.links:
        place, *value = (len(text[:at].encode()) for at in places)
        found.add((name, place, *((value[0], value[1] - value[0]) if value else ())))
    return found


def attributes_in(lines):
    """The same of a document as the other reader says it, of whose lines the next ones are taken."""
    found = set()
    for line in iter(lines.__next__, ""):
        name, place, *value = line.split(" ")
        if name in LOOKED_AT:
            found.add((name, int(place), *(map(int, value) if value[1:] != ["0"] else ())))
    return found


def main():
    program, count, seed = sys.argv[1], int(sys.argv[2]), int(sys.argv[3])
    chance = random.Random(seed)
    texts = [document(chance) for _ in range(count)]
    given = b"".join(b"%d\n%s" % (len(it.encode()), it.encode()) for it in texts)
    said = subprocess.run([program], input=given, stdout=subprocess.PIPE, check=True).stdout.decode()
    lines = iter(said.split("\n"))
    attributes = 0
    for text in texts:
        wanted, found = attributes_in(lines), read(text)
        attributes += len(found)
        if wanted != found:
            sys.exit("FAILED: {!r} has the attributes {}, and {} were read".format(text, sorted(wanted), sorted(found)))
    if attributes < count // 8:
        sys.exit("FAILED: {} documents have but {} attributes".format(count, attributes))
    print("library: {} attributes in {} documents of HTML are where gumbo has them".format(attributes, count))


if __name__ == "__main__":
    main()
