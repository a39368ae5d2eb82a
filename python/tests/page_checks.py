"What every page is to be: well formed, without parts from outside, and clear about what is proved."
import html.parser
import re

VOID = ("meta", "input", "br", "hr", "link", "img")


class Read(html.parser.HTMLParser):
    "the text of a page by its table lines and paragraphs, its tags and their attributes; what is open where another thing is closed is wrong"
    def __init__(self, page):
        super().__init__()
        self.open, self.faults, self.tags, self.pieces = [], [], [], []
        self.feed(page)
        self.close()
        self.text = re.sub(r"[ \n]+", " ", " ".join(self.pieces))

    def handle_starttag(self, tag, attributes):
        self.tags.append((tag, dict(attributes)))
        if tag not in VOID:
            self.open.append(tag)

    def handle_endtag(self, tag):
        if not self.open or self.open.pop() != tag:
            self.faults.append(tag)

    def handle_data(self, text):
        if "style" not in self.open:
            self.pieces.append(text)


def words_of(text):
    "the words of a text, with the brackets around a fraction and the marks between words taken away"
    return " ".join(re.sub(r"(?<=[\w)])([.,:;])(?= |$)", r" \1", text).split())


def check_page(what, page):
    read = Read(page)
    tags = [tag for tag, _ in read.tags]
    assert not read.faults and not read.open, f"{what}: tags {read.faults} {read.open}"
    assert (not {"script", "img", "iframe", "object", "embed", "base", "form", "link"} & set(tags) and
          not any(key in ("src", "href", "action", "style") and value != "#page" or key.startswith("on")
                  for _, attributes in read.tags for key, value in attributes.items()) and
          not re.search(r"@import|url\(", page)), f"{what}: parts from outside"
    assert "default-src 'none'" in str(read.tags), f"{what}: a policy that lets nothing in"
    assert "What is proved, and what this page only shows" in read.text, f"{what}: what is proved"
    return read
