"""The time line as a picture: how many frames came in each stretch of time, what became of them, and when the configuration changed."""
from .facts import Change, Report, Span
from .markup import Markup, join, tag

WIDE, HIGH, FOOT, TOP, SIDE = 960, 190, 24, 26, 44
MARKS, WIDEST, APART = 8, 26, 32


def steps(most: int) -> int:
    """A round distance between lines that puts two to five of them below `most`."""
    size = 1
    while most // size > 5:
        size = size * 5 if str(size)[0] == "1" else size * 2
    return size


def clock(second: int) -> str:
    """Seconds after the start as a reader says them."""
    if second < 100:
        return f"{second} s"
    minutes, rest = divmod(second, 60)
    hours, minutes = divmod(minutes, 60)
    return f"{hours}:{minutes:02}:{rest:02}" if hours else f"{minutes}:{rest:02}"


def spoken(span: Span) -> str:
    """A stretch in words."""
    when = f"Second {span.second}" if span.seconds == 1 else f"Seconds {span.second} to {span.second + span.seconds - 1}"
    return f"{when}: {span.left} frames left somewhere, {span.nowhere} went nowhere, {span.ignored} were ignored"


class Scale:
    """From seconds and frames to places in the picture."""

    def __init__(self, spans: list[Span]) -> None:
        self.begin = spans[0].second if spans else 0
        self.end = max(spans[-1].second + spans[-1].seconds if spans else 1, self.begin + 1)
        self.most = max((it.all for it in spans), default=0) or 1

    def x(self, second: float) -> float:
        return SIDE + (WIDE - SIDE - 8) * (second - self.begin) / (self.end - self.begin)

    def high(self, count: int) -> float:
        return (HIGH - FOOT - TOP) * count / self.most


def pile(span: Span, scale: Scale) -> Markup:
    """A stretch: what left at the bottom, what went nowhere above it, what was ignored on top."""
    x, end = scale.x(span.second), scale.x(span.second + span.seconds)
    wide = min(max(end - x - (1 if end - x > 3 else 0), 0.8), WIDEST)
    foot, parts = float(HIGH - FOOT), []
    for name in ("left", "nowhere", "ignored"):
        high = scale.high(getattr(span, name))
        foot -= high
        parts.append(tag("rect", x=f"{x:.1f}", y=f"{foot:.1f}", width=f"{wide:.1f}", height=f"{high:.1f}", class_=name) if high else None)
    whole = tag("rect", x=f"{x:.1f}", y=TOP, width=f"{end - x:.1f}", height=HIGH - FOOT - TOP, class_="touch")
    return tag("g", tag("title", spoken(span)), whole, parts, class_="span", role="button", tabindex="-1",
               data_from=span.second, data_to=span.second + span.seconds, aria_label=spoken(span))


def lines(scale: Scale) -> list[Markup]:
    """The lines that say how many frames a height is."""
    step, found = steps(scale.most), []
    for count in range(0, scale.most + 1, step):
        y = HIGH - FOOT - scale.high(count)
        found.append(tag("line", x1=SIDE, x2=WIDE - 8, y1=f"{y:.1f}", y2=f"{y:.1f}", class_="grid"))
        found.append(tag("text", str(count), x=SIDE - 6, y=f"{y + 4:.1f}", class_="side"))
    return found


def seconds(scale: Scale) -> list[Markup]:
    """The seconds below."""
    length = scale.end - scale.begin
    step, found = max(1, -(-length // MARKS)), []
    for second in range(scale.begin, scale.end + 1, step):
        place = "start" if second == scale.begin else "end" if second == scale.end else "middle"
        found.append(tag("text", clock(second), x=f"{scale.x(second):.1f}", y=HIGH - 7, class_=f"foot {place}"))
    return found


def grouped(changes: list[Change], scale: Scale) -> list[list[Change]]:
    """The commands with a mark of their own: those whose marks would overlap share one."""
    found: list[list[Change]] = []
    for it in changes:
        if found and scale.x(it.second) - scale.x(found[-1][0].second) < APART:
            found[-1].append(it)
        else:
            found.append([it])
    return found


def mark(changes: list[Change], scale: Scale) -> Markup:
    """Commands at one place: an upright line for each second, with a mark above that says how many, and whether one was refused."""
    first, last = changes[0].second, changes[-1].second
    places = sorted({min(max(scale.x(it.second), SIDE), WIDE - 8) for it in changes})
    refused = sum(it.done is False for it in changes)
    said = "; ".join(f"command {it.number}: {it.words}" + (", refused" if it.done is False else "") for it in changes[:6])
    said += f"; and {len(changes) - 6} more" if len(changes) > 6 else ""
    label = (f"Second {first}: " if first == last else f"Seconds {first} to {last}: ") + said
    done = len(changes) - refused
    sign = " ".join(f"{it}{many}" if many > 1 else it for it, many in (("▼", done), ("✕", refused)) if many)
    lines_ = [tag("line", x1=f"{x:.1f}", x2=f"{x:.1f}", y1=TOP - 6, y2=HIGH - FOOT) for x in places]
    return tag("g", tag("title", label), lines_, tag("text", sign, x=f"{sum(places) / len(places):.1f}", y=TOP - 10),
               class_="change refused" if refused else "change", role="img", aria_label=label)


def picture(report: Report) -> Markup:
    """The whole time line."""
    scale = Scale(report.spans)
    marks = [mark(them, scale) for them in grouped([it for it in report.changes if it.done is not None], scale)]
    piles = [pile(it, scale) for it in report.spans if it.all]
    return tag("svg", join(lines(scale)), join(seconds(scale)), join(piles), join(marks), id="time",
               viewBox=f"0 0 {WIDE} {HIGH}", role="group", aria_label="Frames and changes of the configuration by second")
