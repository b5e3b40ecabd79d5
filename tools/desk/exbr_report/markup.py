"""Builds HTML and SVG: every text and every attribute is escaped here, and nowhere else."""
from html import escape

from exbr_desk.shown import shown

EMPTY_TAGS = frozenset(("meta", "br", "input", "rect", "circle", "line", "path"))


class Markup(str):
    """A text that is HTML already."""


def text(content: object) -> Markup:
    """A plain text as HTML."""
    return content if isinstance(content, Markup) else Markup(escape(shown(content), quote=False))


def attribute(name: str, value: object) -> str:
    """An attribute. `True` stands for one without a value, `None` and `False` for none."""
    if value is None or value is False:
        return ""
    key = name.rstrip("_").replace("_", "-")
    return f" {key}" if value is True else f' {key}="{escape(shown(value))}"'


def tag(name: str, /, *content: object, **attributes: object) -> Markup:
    """An element. `class_` stands for `class`, and other `_` in names of attributes for `-`."""
    head = f"<{name}" + "".join(attribute(key, value) for key, value in attributes.items())
    if name in EMPTY_TAGS:
        return Markup(head + ("/>" if name not in ("meta", "br", "input") else ">"))
    return Markup(f"{head}>{join(*content)}</{name}>")


def join(*content: object) -> Markup:
    """Parts one behind the other. A list is a part of parts."""
    return Markup("".join(join(*it) if isinstance(it, (list, tuple)) else text(it) for it in content if it is not None))
