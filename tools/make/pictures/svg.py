"""A picture as SVG, of which a reader's browser chooses the light or the dark colours."""

import html

# Each word is a colour on light and on dark ground.
COLOURS = {
    "ground": ("#ffffff", "#0d1117"),
    "box": ("#f4f6f9", "#1a212b"),
    "line": ("#c3ccd6", "#3d4754"),
    "ink": ("#1f3a5f", "#79b8ff"),
    "text": ("#1b1f24", "#e6edf3"),
    "pale": ("#57606a", "#9aa7b4"),
    "good": ("#1a6b3c", "#56d389"),
    "torn": ("#b3261e", "#ff8a80"),
}
SIDES = ("start", "middle", "end")


def style():
    """The colours as classes: of the inside (f-), of an outline (s-)."""
    def rules(side):
        return " ".join(f".f-{name}{{fill:{both[side]}}} .s-{name}{{stroke:{both[side]}}}" for name, both in COLOURS.items())

    return f"<style>{rules(0)} @media (prefers-color-scheme: dark){{{rules(1)}}}</style>"


class Picture:
    """Shapes from top to bottom of a width and a height in pixels."""

    def __init__(self, title, width, height):
        self.title, self.width, self.height, self.shapes = title, width, height, []

    def text(self, x, y, said, *, size=14, fill="text", bold=False, side="start", code=False):
        """A line of text, from, around or up to a place."""
        weight = ' font-weight="bold"' if bold else ""
        family = ' font-family="DejaVu Sans Mono, monospace"' if code else ""
        where = f'x="{x}" y="{y}" text-anchor="{side}"'
        self.shapes.append(f'<text {where} class="f-{fill}" font-size="{size}"{weight}{family}>{html.escape(said)}</text>')

    def box(self, x, y, width, height, *, fill="box", line="line", radius=4, thick=1, dashed=False):
        """A rectangle."""
        where = f'x="{x}" y="{y}" width="{width}" height="{height}" rx="{radius}"'
        dash = ' stroke-dasharray="4 3"' if dashed else ""
        self.shapes.append(f'<rect {where} class="f-{fill} s-{line}" stroke-width="{thick}"{dash}/>')

    def arrow(self, places, *, line="pale", dashed=False):
        """A line through places, with a head at its end, which it reaches along an axis."""
        dash = ' stroke-dasharray="4 3"' if dashed else ""
        points = " ".join(f"{x},{y}" for x, y in places)
        (was_x, was_y), (x, y) = places[-2:]
        across, down = (x > was_x) - (x < was_x), (y > was_y) - (y < was_y)
        back = [(x - 7 * across + 4 * down, y - 7 * down + 4 * across), (x - 7 * across - 4 * down, y - 7 * down - 4 * across)]
        head = " ".join(f"{left},{top}" for left, top in [(x, y), *back])
        self.shapes.append(f'<polyline points="{points}" fill="none" class="s-{line}" stroke-width="1.5"{dash}/>')
        self.shapes.append(f'<polygon points="{head}" class="f-{line}"/>')

    def written(self):
        """The file's text."""
        head = f'<svg xmlns="http://www.w3.org/2000/svg" viewBox="0 0 {self.width} {self.height}" width="{self.width}"'
        rest = f' height="{self.height}" font-family="DejaVu Sans, Verdana, sans-serif" role="img">'
        ground = f'<rect width="{self.width}" height="{self.height}" class="f-ground"/>'
        return "\n".join([head + rest, f"<title>{html.escape(self.title)}</title>", style(), ground, *self.shapes, "</svg>", ""])
