"""What tools/build-site adds to the pages of the site: a link from each to its source, which is next to it as a text."""

import posixpath
import re
import shutil
from pathlib import Path
from typing import Any

# The folder of the site with the sources.
SOURCES = "sources"

# How the theme calls a link to a page's source, and how it is called here.
TITLE, OWN_TITLE = 'title="Edit this page"', 'title="The source of this page"'


def source_of(path: str) -> str:
    """Where the source of a page is in the site."""
    return f"{SOURCES}/{path}.txt"


def on_page_markdown(markdown: str, page: Any, config: Any, files: Any) -> str:
    """Writes a `|` in the code of a table without its backslash, which this reader of Markdown would show."""
    lines = markdown.split("\n")
    return "\n".join(re.sub("`[^`]*`", _without_backslash, it) if it.startswith("|") else it for it in lines)


def _without_backslash(code: "re.Match[str]") -> str:
    """The code that was found, with each `|` as it is."""
    return code[0].replace("\\|", "|")


def on_page_context(context: Any, page: Any, config: Any, nav: Any) -> Any:
    """Gives a page the link to its source."""
    page.edit_url = posixpath.relpath(source_of(page.file.src_path), posixpath.dirname(page.url) or ".")
    return context


def on_post_page(output: str, page: Any, config: Any) -> str:
    """Names that link for what it is, and the first page once in its title."""
    name = config["site_name"]
    return output.replace(TITLE, OWN_TITLE).replace(f"<title>{name} - {name}</title>", f"<title>{name}</title>")


def on_post_build(config: Any) -> None:
    """Puts the sources into the site, and leaves out a map of a site whose address isn't known."""
    pages, site = Path(config["docs_dir"]), Path(config["site_dir"])
    for page in sorted(pages.rglob("*.md")):
        to = site / source_of(page.relative_to(pages).as_posix())
        to.parent.mkdir(parents=True, exist_ok=True)
        shutil.copyfile(page, to)
    if not config["site_url"]:
        for map_of_site in site.glob("sitemap.xml*"):
            map_of_site.unlink()
