"""Web pages in a folder: what they link to, and which of their links lead nowhere."""
import html.parser
import urllib.parse


class Page(html.parser.HTMLParser):
    """What a page links to, what of that a browser reads by itself, and the anchors that it has."""

    def __init__(self, text):
        super().__init__()
        self.targets, self.sources, self.anchors = set(), set(), set()
        self.feed(text)

    def handle_starttag(self, tag, attrs):
        named = dict(attrs)
        self.targets.update(named[name] for name in ("href", "src") if named.get(name))
        if tag in ("img", "script", "link", "iframe"):
            self.sources.update(named[name] for name in ("href", "src") if named.get(name))
        self.anchors.update(named[name] for name in ("id", "name") if named.get(name))


def pages(folder):
    """The pages below a folder, but for the one of what is not found, which a server shows at any place."""
    return {path: Page(path.read_text()) for path in sorted(folder.rglob("*.html")) if path.name != "404.html"}


def dead(found):
    """The links of pages that lead nowhere."""
    for path, page in found.items():
        for target in sorted(page.targets):
            parts = urllib.parse.urlsplit(target)
            if parts.scheme or parts.netloc or target.startswith("javascript:"):
                continue
            there = (path.parent / urllib.parse.unquote(parts.path)).resolve() if parts.path else path
            there = there / "index.html" if there.is_dir() else there
            if not there.is_file() or parts.fragment and there in found and parts.fragment not in found[there].anchors:
                yield "%s: %s" % (path, target)
