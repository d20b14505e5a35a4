"""How long the server takes from a change of a page with 5,000 wrong links to its diagnostics: latency.py. Besides the
clock's time it says the processor's, of the server and of what checks for it, which a busy machine changes less. The package
is on PYTHONPATH."""

import os
import sys
import time

from server import Client, at

LINKS, CHANGES = 5000, 5
PAGES = {
    "HTML": ("a.html", "<p>text <a href='http://h/a{} b'>a</a> and more\n"),
    "Markdown": ("a.md", "text [a](http://h/a{}^b) and more\n\n"),
    "reStructuredText": ("a.rst", "text `a <http://h/a{}^b>`__ and more\n\n"),
    "a list": ("a.links", "http://h/a{} b\n"),
}
MOST = 600
"""How many milliseconds of the processor's time a change takes at most, on a busy machine too."""


def processor_time(process):
    """The milliseconds that a process and its children have taken."""
    taken = 0
    tasks = "/proc/{}/task".format(process)
    for task in os.listdir(tasks):
        with open("{}/{}/children".format(tasks, task), encoding="ascii") as file:
            taken += sum(map(processor_time, map(int, file.read().split())))
    with open("/proc/{}/stat".format(process), encoding="ascii") as file:
        fields = file.read().rpartition(")")[2].split()
    return taken + 1000 * (int(fields[11]) + int(fields[12])) / os.sysconf("SC_CLK_TCK")


def measured(name, line):
    """The milliseconds of a change: the median of the clock's, and the mean of the processor's."""
    client = Client({})
    client.patience = 300
    uri = "file:///nowhere/" + name
    found = client.open(uri, "".join(line.format(number) for number in range(LINKS)))
    if len(found) != LINKS:
        sys.exit("FAILED: {}: {} diagnostics".format(name, len(found)))
    before, times = processor_time(client.process.pid), []
    for _ in range(CHANGES):
        begun = time.monotonic()
        client.change(uri, {"range": at(1000, 4), "text": "x"})
        client.diagnostics(uri)
        times.append(1000 * (time.monotonic() - begun))
    taken = (processor_time(client.process.pid) - before) / CHANGES
    client.end()
    return sorted(times)[CHANGES // 2], taken


def main():
    """Says the figures of each kind."""
    for kind, (name, line) in PAGES.items():
        clock, processor = measured(name, line)
        said = "authors: {} links of {}: a change takes {:.0f} ms, {:.0f} of the processor"
        print(said.format(LINKS, kind, clock, processor))
        if processor > MOST:
            sys.exit("FAILED: a change of {} takes {:.0f} ms of the processor".format(kind, processor))


if __name__ == "__main__":
    main()
