"""The elements of a page, for tests that look at it without a browser."""

from __future__ import annotations

from html.parser import HTMLParser
from typing import Iterator, Optional

WITHOUT_END = {"meta", "link", "input"}


class Element:
    """An element, its attributes, and what is in it: elements and texts."""

    def __init__(self, tag: str, attributes: dict[str, Optional[str]]) -> None:
        self.tag, self.attributes = tag, attributes
        self.parts: list[Element | str] = []

    def all(self, tag: str, name: str = "") -> Iterator[Element]:
        """The elements in it with this tag, and with this class or identity if one is named."""
        for part in self.parts:
            if isinstance(part, Element):
                names = {part.attributes.get("class"), part.attributes.get("id")}
                if part.tag == tag and (not name or name in names):
                    yield part
                yield from part.all(tag, name)

    def one(self, tag: str, name: str = "") -> Element:
        """The only such element in it."""
        found = list(self.all(tag, name))
        if len(found) != 1:
            raise AssertionError(f"{len(found)} elements {tag} {name}")
        return found[0]

    @property
    def text(self) -> str:
        """All texts in it."""
        return "".join(part if isinstance(part, str) else part.text for part in self.parts)


class Reader(HTMLParser):
    """Reads a page, and refuses one in which an element isn't closed in its place."""

    def __init__(self) -> None:
        super().__init__()
        self.open = [Element("page", {})]

    def handle_starttag(self, tag: str, attrs: list[tuple[str, Optional[str]]]) -> None:
        element = Element(tag, dict(attrs))
        self.open[-1].parts.append(element)
        if tag not in WITHOUT_END:
            self.open.append(element)

    def handle_endtag(self, tag: str) -> None:
        if self.open.pop().tag != tag:
            raise AssertionError(f"</{tag}> closes another element, {self.getpos()}")

    def handle_data(self, data: str) -> None:
        self.open[-1].parts.append(data)


def elements_of(page: str) -> Element:
    """All elements of a page."""
    reader = Reader()
    reader.feed(page)
    reader.close()
    if len(reader.open) != 1:
        raise AssertionError(f"{reader.open[-1].tag} isn't closed")
    return reader.open[0]
