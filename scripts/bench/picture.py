"""Pictures of measures as small SVG files: lines over an axis, each with its name at its end."""

import math
from html import escape

WIDTH, HEIGHT = 560, 300
LEFT, RIGHT, TOP, BOTTOM = 70, 150, 40, 48
COLOURS = ["#1b6ca8", "#c8553d", "#588157", "#7b5ea7", "#8a8a8a"]
APART = 14  # names stand so far apart


def short(number):
    """A number with two or three digits that count, as a reader wants it."""
    if abs(number) >= 100:
        return "{:,.0f}".format(number)
    return "%.0f" % number if abs(number) >= 10 else "%.1f" % number if abs(number) >= 1 else "%.2g" % number


def mark(number):
    """A number as it stands at an axis."""
    return "{:,.0f}".format(number) if number >= 10 or number == int(number) else "%g" % number


class Scale:
    """An axis: where a value lies between two ends, by its logarithm or from nought on."""

    def __init__(self, values, low, high, is_log):
        self.low, self.high, self.is_log = low, high, is_log
        self.least = min(values) if is_log else 0
        self.most = max(values) * (1.0 if is_log else 1.05)

    def of(self, value):
        least, most, value = (math.log10(it) for it in (self.least, self.most, value)) if self.is_log else (self.least, self.most, value)
        return self.low + (self.high - self.low) * ((value - least) / ((most - least) or 1))


def steps(most):
    """Round values from nought to the most, four to eight of them."""
    step = 10 ** math.floor(math.log10(most or 1))
    step = step / 5 if most / step < 1.6 else step / 2 if most / step < 4 else step
    return [step * k for k in range(int(most / step) + 1)]


def powers(least, most):
    """The powers of ten about these values; both values, where that is but one."""
    found = [10.0**k for k in range(math.ceil(math.log10(least) - 1e-9), math.floor(math.log10(most) + 1e-9) + 1)]
    return found if len(found) > 1 else [least, most]


def spread(places):
    """Places from above, moved down so that none is too near to the one before."""
    found, last = {}, -APART
    for name, place in sorted(places.items(), key=lambda it: it[1]):
        last = found[name] = max(place, last + APART)
    return found


def words(x, y, text, more=""):
    return '<text x="%.1f" y="%.1f" %s>%s</text>' % (x, y, more, escape(text))


def axes(across, up, x, y, marks):
    """Both axes with their marks, and what stands on them."""
    yield '<path d="M%d %dV%dH%d" fill="none" stroke="#444"/>' % (LEFT, TOP, HEIGHT - BOTTOM, WIDTH - RIGHT)
    for value in marks:
        yield '<path d="M%.1f %dv4" stroke="#444"/>' % (x.of(value), HEIGHT - BOTTOM)
        yield words(x.of(value), HEIGHT - BOTTOM + 17, mark(value), 'text-anchor="middle"')
    for value in powers(y.least, y.most) if y.is_log else steps(y.most):
        yield '<path d="M%d %.1fH%d" stroke="#ddd"/>' % (LEFT, y.of(value), WIDTH - RIGHT)
        yield words(LEFT - 6, y.of(value) + 4, mark(value), 'text-anchor="end"')
    yield words((LEFT + WIDTH - RIGHT) / 2, HEIGHT - 10, across, 'text-anchor="middle"')
    yield words(LEFT - 60, TOP - 12, up)


def picture(title, across, up, lines, log_x=True, log_y=False):
    """A picture of lines, each a name with its points, as the text of an SVG file."""
    lines = {name: points for name, points in lines.items() if points}
    x_values = sorted({x for points in lines.values() for x, _ in points})
    x = Scale(x_values, LEFT, WIDTH - RIGHT, log_x)
    y = Scale([max(y, 1e-9) for points in lines.values() for _, y in points], HEIGHT - BOTTOM, TOP, log_y)
    parts = ['<svg xmlns="http://www.w3.org/2000/svg" viewBox="0 0 %d %d" width="%d" height="%d" font-family="sans-serif" font-size="11" role="img">'
             % (WIDTH, HEIGHT, WIDTH, HEIGHT), "<title>%s</title>" % escape(title), '<rect width="100%" height="100%" fill="#fff"/>',
             words(LEFT - 60, 16, title, 'font-size="13" font-weight="bold"'), *axes(across, up, x, y, x_values)]
    ends = spread({name: y.of(points[-1][1]) for name, points in lines.items()})
    for colour, (name, points) in zip(COLOURS, lines.items()):
        path = " ".join("%.1f,%.1f" % (x.of(a), y.of(b)) for a, b in points)
        parts.append('<polyline points="%s" fill="none" stroke="%s" stroke-width="2"/>' % (path, colour))
        parts += ['<circle cx="%.1f" cy="%.1f" r="3" fill="%s"/>' % (x.of(a), y.of(b), colour) for a, b in points]
        parts.append(words(WIDTH - RIGHT + 10, ends[name] + 4, name, 'fill="%s"' % colour))
    return "\n".join([*parts, "</svg>"]) + "\n"
