"""Charts for the pages: lines and dots over two axes, as SVG."""
WIDTH, HEIGHT = 640, 300
LEFT, RIGHT, ABOVE, BELOW = 48, 24, 28, 44
BLUE, RED, GREY, GREEN = "#08519c", "#d7301f", "#777777", "#238b45"


class Chart:
    """Lines and dots over an x axis and a y axis, each a list of the values that are marked on it."""

    def __init__(self, across, up, name_across, name_up):
        self.across, self.up = across, up
        head = f'<svg xmlns="http://www.w3.org/2000/svg" width="{WIDTH}" height="{HEIGHT}" font-family="sans-serif" font-size="12">'
        self.drawn = [head, f'<rect width="{WIDTH}" height="{HEIGHT}" fill="#ffffff"/>']
        for value in across:
            self.drawn.append(f'<path d="M{self.x(value)} {ABOVE}V{HEIGHT - BELOW}" stroke="#e5e5e5"/>')
            self.write(self.x(value), HEIGHT - BELOW + 16, f"{value:,}")
        for value in up:
            self.drawn.append(f'<path d="M{LEFT} {self.y(value)}H{WIDTH - RIGHT}" stroke="#e5e5e5"/>')
            self.write(LEFT - 6, self.y(value) + 4, f"{value:g}", "end")
        self.write(WIDTH / 2, HEIGHT - 8, name_across)
        self.write(LEFT, ABOVE - 12, name_up, "start")

    def x(self, value):
        first, last = self.across[0], self.across[-1]
        return round(LEFT + (value - first) / (last - first) * (WIDTH - LEFT - RIGHT), 1)

    def y(self, value):
        first, last = self.up[0], self.up[-1]
        return round(HEIGHT - BELOW - (value - first) / (last - first) * (HEIGHT - ABOVE - BELOW), 1)

    def write(self, x, y, text, anchor="middle", fill="#000000"):
        self.drawn.append(f'<text x="{x}" y="{y}" text-anchor="{anchor}" fill="{fill}">{text}</text>')

    def line(self, points, colour, dashes="none"):
        path = "M" + "L".join(f"{self.x(x)} {self.y(y)}" for x, y in points)
        self.drawn.append(f'<path d="{path}" fill="none" stroke="{colour}" stroke-width="1.5" stroke-dasharray="{dashes}"/>')

    def dots(self, points, colour):
        self.drawn += [f'<circle cx="{self.x(x)}" cy="{self.y(y)}" r="2.2" fill="{colour}"/>' for x, y in points]

    def name(self, x, y, text, colour):
        self.write(self.x(x), self.y(y), text, "start", colour)

    def text(self):
        return "\n".join(self.drawn + ["</svg>"]) + "\n"
