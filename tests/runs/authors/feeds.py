"""Holds the links that urlcheck.documents finds in a feed against those that feedparser reads: each of feedparser's is found.
The package is on PYTHONPATH."""

import os
import subprocess
import sys
import tempfile

import feedparser

SPACES = {
    "atom": "http://www.w3.org/2005/Atom", "itunes": "http://www.itunes.com/dtds/podcast-1.0.dtd",
    "media": "http://search.yahoo.com/mrss/", "wfw": "http://wellformedweb.org/CommentAPI/",
    "feedburner": "http://rssnamespace.org/feedburner/ext/1.0", "thr": "http://purl.org/syndication/thread/1.0",
    "content": "http://purl.org/rss/1.0/modules/content/", "podcast": "https://podcastindex.org/namespace/1.0",
    "creativeCommons": "http://backend.userland.com/creativeCommonsRssModule", "dc": "http://purl.org/dc/elements/1.1/",
}

CHANNEL = """<link>http://h/1</link><docs>http://h/2</docs><atom:link rel="self" href="http://h/3"/>
<image><url>http://h/4</url><link>http://h/5</link></image><itunes:image href="http://h/6"/>
<itunes:new-feed-url>http://h/7</itunes:new-feed-url><creativeCommons:license>http://h/8</creativeCommons:license>
<textInput><link>http://h/9</link></textInput>
<description>&lt;a href="http://h/10"&gt;x&lt;/a&gt;</description>"""

ITEM = """<link>http://h/20</link><guid>http://h/21</guid><comments>http://h/22</comments>
<enclosure url="http://h/23" length="1" type="audio/mpeg"/><source url="http://h/24">x</source>
<wfw:comment>http://h/25</wfw:comment><wfw:commentRss>http://h/26</wfw:commentRss>
<media:content url="http://h/27"/><media:thumbnail url="http://h/28"/><media:player url="http://h/29"/>
<media:license href="http://h/30">x</media:license><feedburner:origLink>http://h/31</feedburner:origLink>
<thr:in-reply-to href="http://h/32" ref="http://h/33"/><podcast:transcript url="http://h/34" type="x/y"/>
<podcast:chapters url="http://h/35" type="x/y"/><podcast:person href="http://h/36" img="http://h/37">x</podcast:person>
<content:encoded><![CDATA[<p><img src="http://h/38">]]></content:encoded><itunes:image href="http://h/39"/>
<category domain="http://h/40">x</category><dc:source>http://h/41</dc:source><dc:identifier>http://h/42</dc:identifier>
<media:rating scheme="http://h/43">x</media:rating><media:copyright url="http://h/44">x</media:copyright>
<media:category scheme="http://h/45">x</media:category>"""

ATOM = """<id>http://h/50</id><link href="http://h/51"/><icon>http://h/52</icon><logo>http://h/53</logo>
<generator uri="http://h/54">x</generator><author><uri>http://h/55</uri></author><category term="x" scheme="http://h/56"/>
<entry><id>http://h/57</id><link href="http://h/58"/><link rel="enclosure" href="http://h/59"/><content src="http://h/60" type="x/y"/>
<summary type="html">&lt;a href="http://h/61"&gt;x</summary><source><id>http://h/62</id><link href="http://h/63"/></source></entry>"""


def texts_in(value):
    """All texts that a reader's answer has."""
    if isinstance(value, str):
        yield value
    elif isinstance(value, dict):
        for it in value.values():
            yield from texts_in(it)
    elif isinstance(value, (list, tuple)):
        for it in value:
            yield from texts_in(it)


def main():
    spaces = "".join(' xmlns:{}="{}"'.format(*it) for it in SPACES.items())
    feeds = {
        "a.rss": '<rss version="2.0"{}><channel>{}<item>{}</item></channel></rss>'.format(spaces, CHANNEL, ITEM),
        "b.atom": '<feed xmlns="{}">{}</feed>'.format(SPACES["atom"], ATOM),
    }
    planted = read = found = 0
    for name, text in feeds.items():
        with tempfile.TemporaryDirectory() as room:
            path = os.path.join(room, name)
            with open(path, "w", encoding="utf-8") as file:
                file.write(text)
            ran = subprocess.run([sys.executable, "-m", "urlcheck.documents", "--list", path], stdout=subprocess.PIPE, stderr=subprocess.DEVNULL)
        links = {line.split(":", 3)[3] for line in ran.stdout.decode().splitlines()}
        urls = {"http://h/{}".format(at) for at in range(70) if '"http://h/{}"'.format(at) in text or ">http://h/{}<".format(at) in text}
        known = " ".join(texts_in(feedparser.parse(text)))
        theirs = {url for url in urls if url + " " in known + " " or url + '"' in known}
        missing = sorted((urls - links) | (theirs - links))
        if missing:
            sys.exit("FAILED: {}: {} aren't found".format(name, missing))
        planted, read, found = planted + len(urls), read + len(theirs), found + len(urls & links)
    print("authors: feeds: {} planted links, {} found here, {} by feedparser".format(planted, found, read))


if __name__ == "__main__":
    main()
