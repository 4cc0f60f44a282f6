"""Draws shapes and text as SVG, in colours for light and dark. Needs Python 3.8."""

from html import escape

#: The widths of a character, in pixels: of a word, and of a small one.
WORD, SMALL = 7.3, 6.1

FONT = "ui-monospace, SFMono-Regular, Menlo, Consolas, 'DejaVu Sans Mono', monospace"

LIGHT = {
    "ground": "#ffffff", "ink": "#24292f", "muted": "#6e7781", "line": "#a8b1ba", "hair": "#e4e8ec",
    "link": "#1b7c83", "watched": "#d5ece9", "parked": "#c9dcf5", "perhaps": "#faeac8", "marked": "#f0bf66",
    "error": "#cf222e",
}
DARK = {
    "ground": "#0d1117", "ink": "#e6edf3", "muted": "#8b949e", "line": "#59626c", "hair": "#262c34",
    "link": "#5fc3c9", "watched": "#143d3c", "parked": "#27446b", "perhaps": "#4a3a1c", "marked": "#a06d18",
    "error": "#ff7b72",
}

SHAPES = f"""\
text {{ font: 12px {FONT}; paint-order: stroke; stroke-width: 4px; stroke-linejoin: round; white-space: pre }}
text.small {{ font-size: 10px }}
.stroke {{ fill: none; stroke-width: 1.5 }}
.thin {{ stroke-width: 1 }}
.dash {{ stroke-dasharray: 4 3 }}
.hollow {{ stroke-width: 1.5 }}
"""


def colours(of):
    """The rules of one set of colours."""
    rules = [f"text {{ fill: {of['ink']}; stroke: {of['ground']} }}"]
    for name, colour in of.items():
        rules.append(f".{name} {{ fill: {colour} }}")
        rules.append(f".stroke.{name} {{ fill: none; stroke: {colour} }}")
        rules.append(f".hollow.{name} {{ fill: {of['ground']}; stroke: {colour} }}")
    rules.append("text.inside { stroke: none }")
    return "\n".join(rules) + "\n"


def number(value):
    """A length in pixels, in as few characters as it needs."""
    return f"{value:.1f}".rstrip("0").rstrip(".")


def attributes(of):
    named = {key.rstrip("_").replace("_", "-"): value for key, value in of.items() if value != ""}
    shown = {key: number(value) if type(value) in (int, float) else value for key, value in named.items()}
    return "".join(f' {key}="{escape(value)}"' for key, value in shown.items())


class Drawing:
    """A list of elements. Each call adds one, which covers those before it."""

    def __init__(self):
        self.elements = []

    def add(self, name, title="", **of):
        """An element. `title` is shown when the pointer is on it."""
        inside = f"<title>{escape(title, quote=False)}</title>" if title else ""
        end = f">{inside}</{name}>" if inside else "/>"
        self.elements.append(f"<{name}{attributes(of)}{end}")

    def line(self, x1, y1, x2, y2, kind, title=""):
        self.add("path", title, d=f"M{number(x1)} {number(y1)}L{number(x2)} {number(y2)}", class_=f"stroke {kind}")

    def curve(self, x1, y1, x2, y2, kind):
        """From left to right, level at both ends."""
        x = number((x1 + x2) / 2)
        to = f"C{x} {number(y1)} {x} {number(y2)} {number(x2)} {number(y2)}"
        self.add("path", d=f"M{number(x1)} {number(y1)}{to}", class_=f"stroke {kind}")

    def circle(self, x, y, r, kind, title=""):
        self.add("circle", title, cx=x, cy=y, r=r, class_=kind)

    def rect(self, x, y, width, height, kind, title="", rx=2):
        self.add("rect", title, x=x, y=y, width=width, height=height, rx=rx, class_=kind)

    def cross(self, x, y, r, kind, title=""):
        ends = [(x - r, y - r, x + r, y + r), (x - r, y + r, x + r, y - r)]
        d = "".join(f"M{number(a)} {number(b)}L{number(c)} {number(d)}" for a, b, c, d in ends)
        self.add("path", title, d=d, class_=f"stroke {kind}")

    def text(self, x, y, text, kind="", anchor="", title=""):
        """Text whose baseline is at y. It has a rim in the colour of the ground, but for the kind `inside`."""
        inside = f"<title>{escape(title, quote=False)}</title>" if title else ""
        of = attributes({"x": x, "y": y, "class": kind, "text-anchor": anchor})
        self.elements.append(f"<text{of}>{escape(text, quote=False)}{inside}</text>")

    def svg(self, width, height, name):
        """The whole picture, by its size in pixels and what it is called."""
        width, height = round(width), round(height)
        dark = colours(DARK).replace("\n", "\n  ").rstrip()
        lines = [
            f'<svg xmlns="http://www.w3.org/2000/svg" width="{width}" height="{height}"'
            f' viewBox="0 0 {width} {height}" role="img">',
            f"<title>{escape(name, quote=False)}</title>",
            f"<style>\n{SHAPES}{colours(LIGHT)}@media (prefers-color-scheme: dark) {{\n  {dark}\n}}\n</style>",
            f'<rect width="{width}" height="{height}" class="ground"/>',
            *self.elements,
            "</svg>",
        ]
        return "\n".join(lines) + "\n"
