"""Compares the links of made-up front matter with what PyYAML and Python's tomllib read in it, before and after each link that may
be written is. The package is on PYTHONPATH."""

import importlib
import random
import re
import sys

from urlcheck._readers.front_matter import front_matter_of
from urlcheck._readers.source import Source

WORDS = ("https://h/{}", "https://h/{} b", "https://h/{}^", "a {}", "see https://h/{}", "https://h/it's {}", 'https://h/"{}', "\u00e9 {}",
         "https://h/\u00e9{}", "ftp://h/#{}", "x: y {}", "https://h/{}: z", "https://h/{} # c", "", "https://h/{},b", "https://h/[{}]")
URL = re.compile("[A-Za-z][A-Za-z0-9+.-]*://")


def leaves(value, path=()):
    """The strings of a value that aren't keys, each by its path."""
    if isinstance(value, str):
        yield path, value
    for key, inner in value.items() if isinstance(value, dict) else enumerate(value if isinstance(value, list) else ()):
        yield from leaves(inner, (*path, key))


def made(random, depth=0):
    """A value of a mapping."""
    kind = random.randrange(3 if depth < 3 else 1)
    text = lambda: random.choice(WORDS).format(random.randrange(100))  # noqa: E731
    if kind == 1:
        return [made(random, depth + 1) for _ in range(random.randrange(1, 4))]
    if kind == 2:
        return {random.choice(("k{}", "https://k/{}", "a b {}")).format(it): made(random, depth + 1) for it in range(random.randrange(1, 4))}
    return text()


def of_yaml(random, yaml):
    """Front matter of YAML in one of its styles."""
    value = {"first": "x", **{"k{}".format(it): made(random) for it in range(4)}}
    style, flow = random.choice((None, None, "'", '"', "|", ">")), random.choice((None, False, True))
    text = yaml.safe_dump(value, default_style=style, default_flow_style=flow, allow_unicode=random.random() < 0.5, width=random.choice((30, 1000)))
    return "---\n" + text + "---\n", lambda text: yaml.safe_load(text[4:-4])


def of_toml(random, tomllib):
    """Front matter of TOML."""

    def written(value):
        if isinstance(value, dict):
            return "{" + ", ".join('"{}" = {}'.format(key, written(inner)) for key, inner in value.items()) + "}"
        if isinstance(value, list):
            return "[\n " + ", # 'https://no/^'\n ".join(map(written, value)) + " ]"
        if "'" not in value and random.random() < 0.3:
            return "'''{}'''".format(value) if random.random() < 0.3 else "'{}'".format(value)
        escaped = value.replace("\\", "\\\\").replace('"', '\\"').replace("\u00e9", random.choice(("\u00e9", "\\u00e9", "\\U000000e9")))
        return '"""{}"""'.format(escaped) if random.random() < 0.2 else '"{}"'.format(escaped)

    text = "".join("{} = {}\n".format(key, written(made(random, 1))) for key in ("a", "'https://k/b'", "c"))
    return "+++\n" + text + '[ "https://t/^" ]\nd = 1\n+++\n', lambda text: tomllib.loads(text[4:-4])


def compare(text, load):
    """How many links of a text were compared with what another parser reads there."""
    found = front_matter_of(text)
    assert found is not None and found[0] == len(text) and not found[1].lost, text
    source, links = Source(text), found[1].links
    before = dict(leaves(load(text)))
    count = 0
    for link in links:
        slot = link.slot(source)
        if slot is None:
            continue
        count += 1
        new = slot.write(link.text + "%20z")
        assert new is not None, (text, link)
        after = dict(leaves(load(text[: slot.start] + new + text[slot.end :])))
        changed = [path for path in before.keys() | after.keys() if before.get(path) != after.get(path)]
        assert len(changed) == 1, (text, link, changed)
        ((was, became),) = [(before.get(it), after.get(it)) for it in changed]
        assert (was, became) == (link.text, link.text + "%20z"), (text, link, was, became)
    # (what is within a line and has no space is written and found, in whatever style)
    wanted = sorted(it for it in before.values() if URL.match(it) and not re.search(r"\s", it))
    assert not is_within_lines(text) or wanted == sorted(it.text for it in links if not re.search(r"\s", it.text)), (text, wanted, links)
    return count


def is_within_lines(text):
    """Whether no string of a text is a block or goes over lines."""
    return not re.search(r"[|>][-+0-9]*\n|\"\"\"|'''", text) and all(it.count('"') % 2 == 0 for it in text.replace('\\"', "").split("\n"))


def main():
    count, seed = int(sys.argv[1]), sys.argv[2]
    for name, made_by in (("yaml", of_yaml), ("tomllib", of_toml)):
        try:
            module = importlib.import_module(name)
        except ImportError:
            print("library: front matter isn't compared with {}, which isn't installed".format(name))
            continue
        numbers = random.Random(name + seed)
        links = sum(compare(*made_by(numbers, module)) for _ in range(count))
        if links < count:
            sys.exit("FAILED: only {} links of {} documents were compared with {}".format(links, count, name))
        print("library: {} links of front matter are written as {} reads them".format(links, name))


if __name__ == "__main__":
    main()
