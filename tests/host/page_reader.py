"""A checker of pages over html.parser: what is open and closed, ids, links, and the texts of a page."""
from html.parser import HTMLParser

EMPTY = {"meta", "link", "br", "input"}
TAGS = {*EMPTY, "html", "head", "title", "style", "body", "script", "header", "footer", "section", "article", "nav", "p",
        "h1", "h2", "h3", "h4", "h5", "ul", "ol", "li", "dl", "dt", "dd", "strong", "span", "a", "code", "pre", "details",
        "summary", "figure", "figcaption", "time", "label", "svg", "rect", "text", "circle", "path", "div", "table", "thead", "tbody",
        "tr", "th", "td", "main", "caption", "select", "option", "button", "output", "tspan"}
ATTRIBUTES = {"id", "class", "href", "lang", "charset", "content", "name", "http-equiv", "rel", "src", "type", "for", "hidden",
              "open", "tabindex", "aria-hidden", "aria-label", "aria-labelledby", "role", "datetime", "viewbox", "d", "x", "y",
              "cx", "cy", "r", "rx", "width", "height", "scope", "value"}
# what SVG has no text in
SHAPES = {"rect", "circle", "path"}


class PageReader(HTMLParser):
    """Reads a page; `faults` has what is wrong with it."""

    def __init__(self, page, files=()):
        """Of a page that may lead to these files beside it."""
        super().__init__()
        self.faults, self.ids, self.links, self.named, self.opened = [], {}, [], [], []
        self.texts, self.tags, self.headings, self.policy = [], [], [], None
        # the text of each element that has an id
        self.within = {}
        self.feed(page)
        self.close()
        if self.opened:
            self.faults.append(f"left open: {[tag for tag, _ in self.opened]}")
        self.faults += [f"a link to nothing: {link}" for link in self.links
                        if link not in files and (link[:1] != "#" or link[1:] not in self.ids)]
        self.faults += [f"no such id: {name}" for name in self.named if name not in self.ids]
        for before, behind in zip([0, *self.headings], self.headings):
            if behind > before + 1:
                self.faults.append(f"a heading of level {behind} below one of {before}")

    def handle_starttag(self, tag, attributes):
        self.begin(tag, attributes)
        if tag not in EMPTY:
            self.opened.append((tag, dict(attributes).get("id")))

    def handle_startendtag(self, tag, attributes):
        self.begin(tag, attributes)
        if tag not in SHAPES:
            self.faults.append(f"closed at once: {tag}")

    def begin(self, tag, attributes):
        values = dict(attributes)
        self.tags.append(tag)
        if tag not in TAGS or len(values) != len(attributes):
            self.faults.append(f"a tag: {tag} {attributes}")
        self.faults += [f"an attribute: {tag} {name}" for name in values if name not in ATTRIBUTES]
        if "id" in values:
            if values["id"] in self.ids:
                self.faults.append(f"an id twice: {values['id']}")
            self.ids[values["id"]] = tag
            self.within[values["id"]] = []
        if tag == "a":
            self.links.append(values.get("href", ""))
        elif "href" in values and values["href"] != "data:,":
            self.faults.append(f"a load: {values}")
        if "src" in values:
            self.faults.append(f"a load: {values}")
        self.named += [values[name] for name in ("for", "aria-labelledby") if name in values]
        if len(tag) == 2 and tag[0] == "h" and tag[1].isdigit():
            self.headings.append(int(tag[1]))
        if values.get("http-equiv") == "Content-Security-Policy":
            self.policy = values["content"]

    def handle_endtag(self, tag):
        if not self.opened or self.opened[-1][0] != tag:
            self.faults.append(f"closes what isn't open: {tag}")
        else:
            self.opened.pop()

    def handle_data(self, data):
        self.texts.append(data)
        for _, name in self.opened:
            if name:
                self.within[name].append(data)

    def unknown_decl(self, data):
        self.faults.append(f"a declaration: {data}")

    def handle_comment(self, data):
        self.faults.append(f"a comment: {data}")

    def handle_pi(self, data):
        self.faults.append(f"an instruction: {data}")

    def text(self, name=None):
        """The text of the page, or of an element by its id."""
        return "".join(self.texts if name is None else self.within[name])
