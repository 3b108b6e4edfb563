"""What a chart shows: lines with gaps, ticks of both axes, and the chart as SVG or as characters."""

import math
import re
from collections import namedtuple
from datetime import datetime, timezone
from xml.sax.saxutils import escape

from monitoring.lines import LAST_SECOND, value_of

Curve = namedtuple("Curve", "name pieces left_out")
Span = namedtuple("Span", "low high")

GAP_STEPS = 3
COLOURS = ("#1f77b4", "#d62728", "#2ca02c", "#9467bd", "#ff7f0e", "#17becf", "#8c564b", "#555555")
DASHES = ("", "6 3", "2 3")
NO_XML = re.compile("[^\t\n -\ud7ff\ue000-\ufffd\U00010000-\U0010ffff]")
MOST = len(COLOURS) * len(DASHES)
LETTERS = "*o+x#@%&=abcdefghijklmnpqrs"

MINUTE, HOUR, DAY = 60, 3_600, 86_400
STEPS = [1, 2, 5, 10, 15, 30, MINUTE, 2 * MINUTE, 5 * MINUTE, 10 * MINUTE, 15 * MINUTE, 30 * MINUTE, HOUR, 2 * HOUR, 3 * HOUR,
         6 * HOUR, 12 * HOUR, DAY, 2 * DAY, 7 * DAY, 14 * DAY, 30 * DAY, 90 * DAY, 365 * DAY, 1_000 * DAY, 3_650 * DAY, 10_000 * DAY]


def step_of(times):
    """The usual distance of two neighbouring times: the one in the middle. None where there are not two times."""
    distances = sorted(later - earlier for earlier, later in zip(times, times[1:]))
    return distances[len(distances) // 2] if distances else None


def curve_of(name, points):
    """The numbers of a series in pieces: a piece ends where no point is for three steps. What is no finite number is left out."""
    numbers = [(time, value_of(word)) for time, word in points]
    finite = [(time, value) for time, value in numbers if math.isfinite(value)]
    step, pieces = step_of([time for time, _ in finite]), []
    for time, value in finite:
        if not pieces or time - pieces[-1][-1][0] > GAP_STEPS * step:
            pieces.append([])
        pieces[-1].append((time, value))
    return Curve(name, pieces, len(numbers) - len(finite))


def spans_of(curves):
    """The times and the values that some curves have, each a little wide where they have one alone."""
    points = [point for curve in curves for piece in curve.pieces for point in piece]
    times, values = [time for time, _ in points], [value for _, value in points]
    low, high = min(times), max(times)
    across = Span(low, high) if low < high else Span(max(low - 1, 0), min(high + 1, LAST_SECOND))
    return across, widened(min(values), max(values))


def widened(low, high):
    """A span of values with some room, to ticks; a flat line lies in its middle."""
    if low == high:
        room = abs(low) / 2 or 1.0
        low, high = max(low - room, -1.7e308), min(high + room, 1.7e308)
    tick = value_tick(low, high)
    if not math.isfinite(high - low) or not math.isfinite(tick):
        return Span(low, high)
    least, most = math.floor(low / tick) * tick, math.ceil(high / tick) * tick
    return Span(least, most) if least < most and math.isfinite(least) and math.isfinite(most) else Span(low, high)


def value_tick(low, high, most=6):
    """A distance of ticks of values: 1, 2 or 5 with zeros, of which at most so many fit."""
    rough = (high / most) - (low / most)
    if not math.isfinite(rough) or rough <= 0:
        return math.inf
    power = 10.0 ** math.floor(math.log10(rough))
    return next((step * power for step in (1, 2, 5) if step * power >= rough), 10 * power)


def value_ticks(span):
    """The ticks of values within a span."""
    tick = value_tick(span.low, span.high)
    if not math.isfinite(tick) or tick < 1e-300:
        return [span.low, span.high]
    first = math.ceil(span.low / tick - 1e-9)
    count = math.floor(span.high / tick + 1e-9) - first + 1
    ticks = [(first + number) * tick for number in range(min(count, 20))]
    return ticks if len(set(map(value_text, ticks))) == len(ticks) > 1 else [span.low, span.high]


def value_text(value):
    """A value as a tick tells it, with a prefix of a thousand where that is shorter."""
    if value and 1e4 <= abs(value) < 1e15:
        power = min(int(math.log10(abs(value)) // 3), 4)
        return f"{value / 1000 ** power:.6g}{' kMGT'[power]}"
    return f"{value:.6g}"


def time_ticks(span, most):
    """The ticks of times within a span: at most so many, at whole minutes, hours or days where they are that far apart."""
    step = next((step for step in STEPS if (span.high - span.low) / step <= most - 1), STEPS[-1])
    first = -(-span.low // step) * step
    return list(range(first, span.high + 1, step)), step


def moment(second, form):
    """A second of UTC as text."""
    return datetime.fromtimestamp(second, timezone.utc).strftime(form)


def time_text(second, step):
    """A time as a tick tells it."""
    return moment(second, "%H:%M:%S" if step < MINUTE else "%H:%M" if step < DAY else "%Y-%m-%d")


def days_text(span):
    """The first and last moment of a chart, in UTC."""
    return f"{moment(span.low, '%Y-%m-%d %H:%M:%S')} to {moment(span.high, '%Y-%m-%d %H:%M:%S')} UTC"


def drawn(curves):
    """The curves that have a point. ValueError where there are none, or too many to tell apart."""
    some = [curve for curve in curves if curve.pieces]
    if not some:
        raise ValueError("no series has a finite number in this range")
    if len(some) > MOST:
        raise ValueError(f"{len(some)} series are too many to tell apart; {MOST} is the most: choose some by --series")
    return some


def shown(content):
    """A text as it stands in SVG; what may not stand there is a question mark."""
    return escape(NO_XML.sub("?", content))


def tag(name, content="", **attributes):
    """An element of SVG; an underscore in an attribute's name is a dash."""
    words = "".join(f' {key.replace("_", "-")}="{escape(str(value), {chr(34): "&quot;"})}"' for key, value in attributes.items())
    return f"<{name}{words}>{content}</{name}>" if content else f"<{name}{words}/>"


def svg_piece(piece, at_x, at_y, colour, dash):
    """A line through the points of a piece; a point alone is a dot."""
    places = [(at_x(time), at_y(value)) for time, value in piece]
    if len(places) == 1:
        return tag("circle", cx=f"{places[0][0]:.1f}", cy=f"{places[0][1]:.1f}", r=2, fill=colour)
    more = {"stroke_dasharray": dash} if dash else {}
    line = " ".join(f"{across:.1f},{down:.1f}" for across, down in places)
    return tag("polyline", points=line, fill="none", stroke=colour, stroke_width=1.5, **more)


def scale(span, low, high):
    """A function from a span to the places from `low` to `high`."""
    return lambda value: low + (value / 2 - span.low / 2) / (span.high / 2 - span.low / 2) * (high - low)


def svg(curves, title, width, height):
    """The chart as SVG: a time axis in UTC, an axis of values, the curves, and below them a legend."""
    curves = drawn(curves)
    across, up = spans_of(curves)
    left, right, top = 70, width - 20, 40
    bottom = height - 50 - 16 * len(curves)
    if bottom - top < 40:
        raise ValueError(f"a height of {height} leaves no room beside the legend of {len(curves)} series: give more by --height")
    at_x, at_y = scale(across, left, right), scale(up, bottom, top)
    ticks, step = time_ticks(across, max(2, (right - left) // 90))
    parts = [tag("rect", width=width, height=height, fill="white"), tag("text", shown(title), x=left, y=24, font_size=15)]
    for second in ticks:
        parts.append(tag("line", x1=f"{at_x(second):.1f}", y1=top, x2=f"{at_x(second):.1f}", y2=bottom, stroke="#e4e4e4"))
        parts.append(tag("text", time_text(second, step), x=f"{at_x(second):.1f}", y=bottom + 16, text_anchor="middle"))
    for value in value_ticks(up):
        parts.append(tag("line", x1=left, y1=f"{at_y(value):.1f}", x2=right, y2=f"{at_y(value):.1f}", stroke="#e4e4e4"))
        parts.append(tag("text", value_text(value), x=left - 6, y=f"{at_y(value) + 4:.1f}", text_anchor="end"))
    parts.append(tag("path", d=f"M{left} {top}V{bottom}H{right}", fill="none", stroke="#333333"))
    parts.append(tag("text", days_text(across), x=right, y=bottom + 34, text_anchor="end", fill="#555555"))
    for number, curve in enumerate(curves):
        colour, dash = COLOURS[number % len(COLOURS)], DASHES[number // len(COLOURS)]
        parts += [svg_piece(piece, at_x, at_y, colour, dash) for piece in curve.pieces]
        down = bottom + 50 + 16 * number
        parts.append(svg_piece([(0, down - 4), (1, down - 4)], lambda end: left + 24 * end, lambda value: value, colour, dash))
        parts.append(tag("text", shown(curve.name), x=left + 32, y=down))
    head = f'<svg xmlns="http://www.w3.org/2000/svg" width="{width}" height="{height}" viewBox="0 0 {width} {height}" font-family="sans-serif" font-size="11">'
    return "\n".join([head, tag("title", shown(title)), *parts, "</svg>"]) + "\n"


def text(curves, title, width, height):
    """The chart of characters: a letter for each series where it has a point in a column's time, and the axes beside it."""
    curves = drawn(curves)
    across, up = spans_of(curves)
    margin = 10
    columns, rows = width - margin - 1, height
    at_column, at_row = scale(across, 0, columns - 1), scale(up, rows - 1, 0)
    cells = [[" "] * columns for _ in range(rows)]
    for letter, curve in zip(LETTERS, curves):
        for piece in curve.pieces:
            for time, value in piece:
                cells[round(at_row(value))][round(at_column(time))] = letter
    labels = {round(at_row(value)): value_text(value) for value in value_ticks(up)}
    lines = [title, ""]
    lines += [f"{labels.get(row, ''):>{margin}}|{''.join(cells[row])}".rstrip() for row in range(rows)]
    lines.append(" " * margin + "+" + "-" * columns)
    lines.append(" " * (margin + 1) + tick_line(across, at_column, columns))
    lines += ["", days_text(across)]
    lines += [f"{letter} {curve.name}" for letter, curve in zip(LETTERS, curves)]
    return "\n".join(line.rstrip() for line in lines) + "\n"


def tick_line(across, at_column, columns):
    """The times below a chart of characters, each beginning in its column; one that does not fit is left out."""
    ticks, step = time_ticks(across, max(2, columns // 14))
    line = ""
    for second in ticks:
        column, told = round(at_column(second)), time_text(second, step)
        if (column > len(line) or not line) and column + len(told) <= columns:
            line = line.ljust(column) + told
    return line
