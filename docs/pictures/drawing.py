"""SVG by hand: lines, boxes and text, at 4 units to a millimetre on a page whose printed width is 170 mm."""
from xml.sax.saxutils import escape

WIDTH = 680
INK, GREY, RED, SHADE, PAPER, BLUSH = "#111111", "#3d3d3d", "#b00020", "#dcebdc", "#f6f6f2", "#fbe6e8"
SIZE = 11               # 7.8 points on that page


def contrast(colour, ground):
    """How much two colours stand out from each other, 1 to 21, as the W3C's guidelines for web content reckon it."""
    def light(hexadecimal):
        parts = [int(hexadecimal[at:at + 2], 16) / 255 for at in (1, 3, 5)]
        red, green, blue = [part / 12.92 if part <= 0.03928 else ((part + 0.055) / 1.055) ** 2.4 for part in parts]
        return 0.2126 * red + 0.7152 * green + 0.0722 * blue
    dark, bright = sorted((light(colour), light(ground)))
    return (bright + 0.05) / (dark + 0.05)


# The advance of each character in DejaVu Sans, which is wider than Helvetica and Arial, in hundredths of the size.
ADVANCES = {}
for advance, characters in ((28, "ijl'"), (30, "IJ"), (32, " .,"), (34, ":;/"), (36, "-"), (39, "ft()"), (42, "r"), (53, "sz?"), (56, "cLF"),
                            (60, "kvxyTYP"), (64, "abdeghnopqu0123456789βES"), (70, "ABCKRVXZα"), (79, "DGHNOQU●"), (84, "w+=→"), (100, "mMW")):
    ADVANCES.update((character, advance) for character in characters)


def width_of(text, size=SIZE, bold=False):
    return sum(ADVANCES.get(character, 100) for character in text) / 100 * size * (1.13 if bold else 1)


def wrapped(text, room, size=SIZE):
    """The text in lines that fit into the room."""
    lines = [""]
    for word in text.split():
        longer = (lines[-1] + " " + word).strip()
        if width_of(longer, size) > room:
            lines.append(word)
        else:
            lines[-1] = longer
    return lines


class Picture:
    def __init__(self, height, title, about):
        self.height = height
        self.parts = ["<title>%s</title>" % escape(title), "<desc>%s</desc>" % escape(about),
                      '<rect width="%d" height="%d" fill="white"/>' % (WIDTH, height)]

    def text(self, x, y, text, size=SIZE, anchor="start", bold=False, fill=INK, room=None):
        """A line of text. Where `room` is given and the line does not fit into it, no picture is made."""
        if room is not None and width_of(text, size, bold) > room:
            raise SystemExit("%r is %d units wide, and has %d" % (text, width_of(text, size, bold), room))
        self.parts.append('<text x="%g" y="%g" font-size="%g" text-anchor="%s"%s fill="%s">%s</text>' % (
            x, y, size, anchor, ' font-weight="bold"' if bold else "", fill, escape(text)))

    def box(self, x, y, width, height, fill="white", stroke=INK, corner=0):
        self.parts.append('<rect x="%g" y="%g" width="%g" height="%g" rx="%g" fill="%s" stroke="%s"/>' % (
            x, y, width, height, corner, fill, stroke))

    def dot(self, x, y, radius, fill=INK):
        self.parts.append('<circle cx="%g" cy="%g" r="%g" fill="%s"/>' % (x, y, radius, fill))

    def line(self, *points, stroke=INK, dashed="", arrow=False, wide=1.2):
        """A line through the points. `dashed` is how long a dash is and how far the next, as "5 3"."""
        if arrow:
            (x, y), (tip_x, tip_y) = points[-2:]
            long = ((tip_x - x) ** 2 + (tip_y - y) ** 2) ** 0.5
            u, v = (tip_x - x) / long, (tip_y - y) / long
            base_x, base_y = tip_x - 9 * u, tip_y - 9 * v
            self.parts.append('<path d="M%.1f %.1f L%.1f %.1f L%.1f %.1f Z" fill="%s"/>' % (
                tip_x, tip_y, base_x - 4 * v, base_y + 4 * u, base_x + 4 * v, base_y - 4 * u, stroke))
            points = points[:-1] + ((base_x, base_y),)
        self.parts.append('<path d="M%s" fill="none" stroke="%s" stroke-width="%g"%s/>' % (
            " L".join("%.1f %.1f" % point for point in points), stroke, wide, ' stroke-dasharray="%s"' % dashed if dashed else ""))

    def cross(self, x, y, stroke=RED):
        self.line((x - 5, y - 5), (x + 5, y + 5), stroke=stroke, wide=2)
        self.line((x - 5, y + 5), (x + 5, y - 5), stroke=stroke, wide=2)

    def svg(self):
        return ('<svg xmlns="http://www.w3.org/2000/svg" width="170mm" height="%gmm" viewBox="0 0 %d %d" '
                'font-family="Helvetica, Arial, \'DejaVu Sans\', sans-serif">\n%s\n</svg>\n'
                % (self.height / 4, WIDTH, self.height, "\n".join(self.parts)))


def headed(height, title, about):
    """A picture with a title, and lines below it."""
    picture = Picture(height, title, " ".join(about))
    picture.text(2, 18, title, 15, bold=True)
    for number, line in enumerate(about):
        picture.text(2, 35 + 14 * number, line, fill=GREY, room=WIDTH)
    return picture


def lines(picture, x, middle, some, room, anchor="start", size=10.5, **style):
    """Some lines about a height."""
    y = middle + 4 - 6.5 * (len(some) - 1)
    for line in some:
        picture.text(x, y, line, size, anchor, room=room, **style)
        y += 13
