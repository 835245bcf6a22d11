"""A picture as the tools draw it: SVG from texts, lines and boxes, and PNG by rsvg-convert."""
import html
import shutil
import subprocess

from run_lines import Refused

WIDTH, LEFT, RIGHT = 1180, 104, 36
MOST_PIXELS = 32_000
INK, GREY, FAINT = "#222222", "#666666", "#e4e4e4"
# The colours of Okabe and Ito, which readers who cannot tell red from green can distinguish.
ORANGE, SKY, GREEN, YELLOW, BLUE, VERMILLION, PURPLE = "#E69F00", "#56B4E9", "#009E73", "#F0E442", "#0072B2", "#D55E00", "#CC79A7"
CURVES = [(colour, dash) for dash in ("", "6 3", "2 3") for colour in (BLUE, ORANGE, "#000000", PURPLE, SKY)]
NARROW = {**dict.fromkeys("ijl", 0.28), **dict.fromkeys(" .,:'", 0.33), **dict.fromkeys("frt-\u203a()", 0.42), "s": 0.53, "m": 0.98, "w": 0.82, "\u2212": 0.84}
SIZES = (("s", 10**12), ("ms", 10**9), ("us", 10**6), ("ns", 10**3), ("ps", 1))


def quantity(ps, digits=1):
    """A time of so many ps, in the unit that suits it."""
    unit, size = next((it for it in SIZES if abs(ps) >= it[1]), SIZES[-1])
    said = f"{ps / size:.{digits}f}" if digits else f"{ps / size:g}"
    return f"{said} {unit}".replace("-", "\u2212")


def width_of(what, size):
    """How wide a text is in DejaVu Sans, which is a wide font."""
    return size * sum(NARROW.get(it, 0.64 if it.islower() or it.isdigit() else 0.7) for it in what)


class Picture:
    """The parts of a picture."""

    def __init__(self):
        self.parts, self.clips = [], 0

    def add(self, part):
        self.parts.append(part)

    def text(self, x, y, what, size=11, anchor="start", colour=INK, more=""):
        self.add(f'<text x="{x:.1f}" y="{y:.1f}" font-size="{size}" text-anchor="{anchor}" fill="{colour}" {more}>{html.escape(what)}</text>')

    def line(self, x1, y1, x2, y2, colour, more=""):
        self.add(f'<line x1="{x1:.1f}" y1="{y1:.1f}" x2="{x2:.1f}" y2="{y2:.1f}" stroke="{colour}" {more}/>')

    def box(self, x, y, width, height, colour, more=""):
        self.add(f'<rect x="{x:.1f}" y="{y:.1f}" width="{max(width, 0.8):.1f}" height="{height:.1f}" fill="{colour}" {more}/>')

    def path(self, points, colour, more=""):
        if points:
            self.add(f'<polyline points="{" ".join(f"{x:.1f},{y:.1f}" for x, y in points)}" fill="none" stroke="{colour}" {more}/>')

    def clip(self, top, height):
        """Begins a group of which only what is inside a frame is seen."""
        self.clips += 1
        self.add(f'<clipPath id="clip{self.clips}"><rect x="{LEFT}" y="{top:.1f}" width="{WIDTH - LEFT - RIGHT}" height="{height:.1f}"/></clipPath>')
        self.add(f'<g clip-path="url(#clip{self.clips})">')

    def unclip(self):
        self.add("</g>")

    def svg(self, height):
        head = f'<svg xmlns="http://www.w3.org/2000/svg" width="{WIDTH}" height="{height:.0f}" viewBox="0 0 {WIDTH} {height:.0f}" '
        stripes = ('<defs><pattern id="stripes" width="6" height="6" patternUnits="userSpaceOnUse" patternTransform="rotate(45)">'
                   '<rect width="2" height="6" fill="#fff" fill-opacity="0.22"/></pattern></defs>')
        ground = f'<rect width="{WIDTH}" height="{height:.0f}" fill="#fff"/>'
        return "\n".join([f'{head}font-family="DejaVu Sans, Verdana, sans-serif">', stripes, ground, *self.parts, "</svg>\n"])


def write_png(path, svg, height):
    """Writes a picture of this height to a PNG file."""
    if not shutil.which("rsvg-convert"):
        raise Refused("--png wants the program rsvg-convert, of the Debian package librsvg2-bin, which is not here")
    zoom = min(2.0, MOST_PIXELS / height)
    ran = subprocess.run(["rsvg-convert", "--zoom", f"{zoom:.3f}", "-o", path], input=svg, text=True, stderr=subprocess.PIPE)
    if ran.returncode:
        raise Refused(f"rsvg-convert wrote no {path}: {ran.stderr.strip()}")
