"""Functions that the checks on pages share."""

from html.parser import HTMLParser

from checking import want

BYTE_UNITS = ["B", "KiB", "MiB", "GiB", "TiB", "PiB", "EiB", "ZiB", "YiB"]


class Page(HTMLParser):
    """The content of a page: the cells under each title of a table, the facts, the items. The bars
    outside tables come with their tooltips. `asks` are the resources that the page would load."""

    def __init__(self, text):
        super().__init__()
        self.tables, self.title, self.open, self.asks = {}, None, [], []
        self.bars, self.hints = [], []
        self.facts, self.fact, self.items = {}, None, []
        self.feed(text)
        self.close()

    def handle_starttag(self, tag, attributes):
        if tag != "meta":
            self.open.append(tag)
        if tag == "rect" and "g" in self.open:
            self.bars.append(dict(attributes))
        self.asks += [tag] * (tag in ("script", "link", "img", "iframe"))
        self.asks += [value for name, value in attributes if name in ("src", "href", "style")]
        if tag == "tr":
            self.tables.setdefault(self.title, []).append([])
        if tag == "td":
            self.tables[self.title][-1].append("")
        if tag == "li":
            self.items.append("")

    def handle_startendtag(self, tag, attributes):
        self.handle_starttag(tag, attributes)
        self.open.pop()

    def handle_endtag(self, tag):
        want(self.open and self.open[-1] == tag, f"</{tag}> closes {self.open[-1:]}")
        self.open.pop()

    def handle_data(self, data):
        inmost = self.open[-1:]
        if inmost == ["h2"]:
            self.title = data
        if self.open[-2:] == ["g", "title"]:
            self.hints.append(data)
        if inmost == ["td"]:
            self.tables[self.title][-1][-1] += data
        if inmost == ["li"]:
            self.items[-1] += data
        if inmost == ["dt"]:
            self.fact = data
        if inmost in (["dd"], ["small"]):
            self.facts[self.fact] = data

    def rows(self, title):
        """The rows of a table without its heading."""
        return [row for row in self.tables.get(title, []) if row]


def stands_alone(page):
    """All tags are closed, and the page loads nothing from elsewhere."""
    want(not page.open, f"not closed: {page.open}")
    want(not page.asks, f"the page asks for {page.asks}")


def in_unit(count):
    """Bytes in the greatest unit of which there is one, to a tenth, rounded down."""
    if count < 1024:
        return f"{count} B"
    power = (count.bit_length() - 1) // 10
    tenths = (count * 10) >> (10 * power)
    return f"{tenths // 10}.{tenths % 10} {BYTE_UNITS[power]}"
