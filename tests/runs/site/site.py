"""The site that tools/build-site has made.

    site.py links SITE                  each link leads to a file, and to an anchor of it; nothing is loaded from elsewhere;
                                        no table shows a backslash before a `|`, and no title says one name twice
    site.py looks SITE NAME..           these pages in a headless Chromium, in two widths, in light and dark: they fit the
                                        width, each text has a contrast of 4.5, and there is no error
    site.py browser SITE [PICTURES]     the same of some pages of each kind, and the search

Where a folder PICTURES is given, a picture of each page that is opened is written there. It ends with 1 where something
is wrong.
"""

import html.parser
import itertools
import pathlib
import sys
import time
import urllib.parse

# What a page loads: the tag, and the attribute that names it. (Other tags have links, which a reader follows.)
LOADED = {("script", "src"), ("img", "src"), ("iframe", "src"), ("source", "src")}
STYLES = ("stylesheet", "icon", "preload")
BROWSER = pathlib.Path(__file__).resolve().parent.parent / "browser"
WIDTHS = (320, 1280)
# How many browsers try the search, and how long each.
BROWSERS, SECONDS = 4, 60
PAGES = ("index", "docs/START", "docs/COMMANDS", "docs/guides/sphinx", "docs/rules/host-domain", "docs/PROFILES", "docs/FORMATS")


class Links(html.parser.HTMLParser):
    """The title of a page, its links, what it loads, its anchors, and what the cells of its tables show."""

    def __init__(self):
        super().__init__()
        self.links, self.loaded, self.anchors, self.cells = [], [], set(), []
        self.is_in_cell = self.is_in_title = False
        self.title = ""

    def handle_data(self, data):
        if self.is_in_cell:
            self.cells.append(data)
        if self.is_in_title:
            self.title += data

    def handle_endtag(self, tag):
        self.is_in_cell = self.is_in_cell and tag != "td"
        self.is_in_title = False

    def handle_starttag(self, tag, attributes):
        self.is_in_cell = self.is_in_cell or tag == "td"
        self.is_in_title = tag == "title" and not self.title
        said = dict(attributes)
        self.anchors.update(said[name] for name in ("id", "name") if said.get(name))
        for name in ("href", "src"):
            if said.get(name) is None:
                continue
            is_style = tag == "link" and any(it in STYLES for it in (said.get("rel") or "").split())
            if (tag, name) in LOADED or is_style:
                self.loaded.append(said[name])
            else:
                self.links.append(said[name])


def read(file):
    page = Links()
    page.feed(file.read_text(encoding="utf-8"))
    return page


def check_links(site):
    wrong, count, pages = [], 0, {}
    for file in sorted(site.rglob("*.html")):
        # (the page to try has runs of its own)
        if "try" not in file.relative_to(site).parts:
            pages[file] = read(file)
    for file, page in pages.items():
        wrong += ["{}: a table shows '{}'".format(file.relative_to(site), it) for it in page.cells if "\\|" in it]
        name, _, rest = page.title.partition(" - ")
        if name == rest:
            wrong.append("{}: its title says '{}' twice".format(file.relative_to(site), name))
        for target in page.links + page.loaded:
            parts = urllib.parse.urlsplit(target)
            if parts.scheme or parts.netloc:
                if target in page.loaded:
                    wrong.append("{}: it loads {}".format(file.relative_to(site), target))
                continue
            count += 1
            # (the page for what isn't there has addresses from the top of the site)
            top = site if target.startswith("/") else file.parent
            to = (top / urllib.parse.unquote(parts.path).lstrip("/")).resolve() if parts.path else file
            to = to / "index.html" if to.is_dir() else to
            if not to.is_file():
                wrong.append("{}: a link to {}, which isn't there".format(file.relative_to(site), target))
            elif parts.fragment and to in pages and urllib.parse.unquote(parts.fragment) not in pages[to].anchors:
                wrong.append("{}: a link to {}, and no such anchor is there".format(file.relative_to(site), target))
    if not pages:
        wrong.append("there is no page")
    return wrong, "{} pages, {} links".format(len(pages), count)


def check_page(browser, contrast, name, width, scheme, wrong):
    where = "{} at {} pixels, {}".format(name, width, scheme)
    wide, room, colours = browser.execute_script(
        "return [document.documentElement.scrollWidth, innerWidth, document.body.dataset.mdColorScheme]"
    )
    if wide > room:
        wrong.append("{}: it is {} pixels wide".format(where, wide))
    if colours != ("slate" if scheme == "dark" else "default"):
        wrong.append("{}: its colours are {}".format(where, colours))
    poor = browser.execute_script(contrast)
    if poor:
        wrong.append("{}: little contrast: {}".format(where, [" ".join(it.split()) for it in poor[:3]]))
    for line in browser.get_log("browser"):
        wrong.append("{}: {}".format(where, line["message"]))


def search(browser, address, seconds):
    """Returns the targets of a search's results, once there are some, or nothing within so many seconds."""
    browser.get(address + "index.html")
    found, end = [], time.time() + seconds
    while not found and time.time() < end:
        # (words typed before the search is ready may be lost, and the same words again change nothing)
        for words in "", "first segment":
            browser.execute_script(
                "const field = document.querySelector('.md-search__input'); field.focus(); field.value = arguments[0];"
                "field.dispatchEvent(new Event('keyup', { bubbles: true }));"
                "field.dispatchEvent(new Event('input', { bubbles: true }))",
                words,
            )
        time.sleep(2)
        found = browser.execute_script(
            "return [...document.querySelectorAll('.md-search-result__link')].map(it => it.getAttribute('href'))"
        )
    return found


def check_search(started, address, wrong):
    """A search finds a page. (A browser on a busy machine may not load what the search needs, so there are several.)"""
    said = []
    for _ in range(BROWSERS):
        with started() as browser:
            found = search(browser, address, SECONDS)
            said += [line["message"] for line in browser.get_log("browser")]
        if found:
            break
    if not any("rules/first-segment-empty" in it for it in found):
        wrong.append("the search for 'first segment' finds {}, and a browser says {}".format(found, said))


def check_looks(browser, shown_as, address, names, pictures):
    """These pages in both widths and colours: what is wrong, and how many were looked at."""
    contrast = (BROWSER / "contrast.js").read_text(encoding="utf-8")
    wrong, count = [], 0
    for width, scheme, name in itertools.product(WIDTHS, ("light", "dark"), names):
        shown_as(browser, width, 900, scheme)
        browser.get(address + name + ".html")
        # (the colours that were chosen are kept, even if nobody chose them)
        browser.execute_script("localStorage.clear()")
        browser.refresh()
        time.sleep(0.3)
        check_page(browser, contrast, name, width, scheme, wrong)
        count += 1
        if pictures:
            picture = "{}-{}-{}.png".format(name.replace("/", "-"), width, scheme)
            browser.save_screenshot(str(pictures / picture))
    return wrong, count


def check_browser(site, names, pictures, is_searched):
    sys.path.insert(0, str(BROWSER))
    from driver import chromium, served, shown_as

    address = served({"site": str(site)}) + "site/"
    with chromium() as browser:
        wrong, count = check_looks(browser, shown_as, address, names, pictures)
    if not is_searched:
        return wrong, "{} pages in a browser".format(count)
    check_search(chromium, address, wrong)
    return wrong, "{} pages in a browser, and a search".format(count)


def main():
    words = sys.argv[1:]
    if words[:1] == ["links"] and len(words) == 2:
        wrong, what = check_links(pathlib.Path(words[1]).resolve())
    elif words[:1] == ["browser"] and len(words) in (2, 3):
        pictures = pathlib.Path(words[2]) if len(words) == 3 else None
        wrong, what = check_browser(pathlib.Path(words[1]).resolve(), PAGES, pictures, True)
    elif words[:1] == ["looks"] and len(words) > 2:
        wrong, what = check_browser(pathlib.Path(words[1]).resolve(), words[2:], None, False)
    else:
        sys.exit(__doc__)
    for line in wrong:
        print("FAILED: " + line)
    print("site: {}, {}".format(what, "as they should be" if not wrong else "{} wrong".format(len(wrong))))
    sys.exit(1 if wrong else 0)


if __name__ == "__main__":
    main()
