"""The signs of a map, as parts of an SVG picture: boxes, letters, exits, hatches, standing squares and films."""
from .shades import EXIT, FILM, HATCH, INK, STANDING


def box(x, y, width, height, fill, more="", told=None):
    """A rectangle; what is told is shown where a pointer rests on it."""
    inside = f"><title>{told}</title></rect>" if told else "/>"
    return f'<rect x="{x}" y="{y}" width="{width}" height="{height}" fill="{fill}"{more}{inside}'


def words(x, y, text, more=""):
    """Letters, their left end at x unless more says otherwise."""
    return f'<text x="{x}" y="{y}"{more}>{text}</text>'


def film_dot(x, y):
    """A film of water: a dot that leaves its ground to be seen."""
    return f'<circle cx="{x:g}" cy="{y:g}" r="1.7" fill="{FILM}" stroke="none" pointer-events="none"/>'


def diamond(x, y, steep, more=""):
    """A standing square, filled where it is steep, on a white edge so that it shows on deep water."""
    points = " ".join(f"{x + across:g},{y + down:g}" for across, down in ((0, -6), (6, 0), (0, 6), (-6, 0)))
    fill = STANDING if steep else "#ffffff"
    return (
        f'<polygon points="{points}" fill="{fill}" stroke="#ffffff" stroke-width="4"/>'
        f'<polygon points="{points}" fill="{fill}" stroke="{STANDING}" stroke-width="1.6"{more}/>'
    )


def wave(x, y, more=""):
    """Water that was there: two waves on a white edge, which leave their ground to be seen."""
    path = f"M{x - 7:g} {y - 2:g}q3.5 -5 7 0t7 0M{x - 7:g} {y + 4:g}q3.5 -5 7 0t7 0"
    return f'<path d="{path}" fill="none" stroke="#ffffff" stroke-width="4"/><path d="{path}" fill="none" stroke="{FILM}" stroke-width="1.6"{more}/>'


def doubt_sign(x, y, more=""):
    """A bed or a mark that is likely a slip: a triangle with a stroke and a dot."""
    edge = f"M{x:g} {y - 8:g}l8.5 15h-17z"
    inside = f"M{x:g} {y - 3:g}v5M{x:g} {y + 3.6:g}v1.6"
    return f'<path d="{edge}" fill="#ffffff" stroke="{INK}" stroke-width="1.6"{more}/><path d="{inside}" stroke="{INK}" stroke-width="1.8"/>'


def exit_sign(x, y, quarters=0, more=""):
    """An exit: an arrow on a white edge, east or so many quarter turns from it, clockwise."""
    turned = f' transform="rotate({90 * quarters} {x:g} {y:g})"' if quarters else ""
    return f'<path d="M{x - 8:g} {y - 3:g}h7v-5l9 8l-9 8v-5h-7z" fill="{EXIT}" stroke="#ffffff"{turned}{more}/>'


def hatch_circle(x, y, radius, runs):
    """A hatch: dark where it gives water, white where it is shut."""
    return f'<circle cx="{x:g}" cy="{y:g}" r="{radius}" fill="{HATCH if runs else "#ffffff"}" stroke="{HATCH}" stroke-width="2"/>'


def hatch_box(x, y, wide, runs):
    """Several hatches of one square: as a hatch's circle, but wider."""
    shape = f'x="{x - wide / 2:g}" y="{y - 8.5:g}" width="{wide}" height="17" rx="8.5"'
    return f'<rect {shape} fill="{HATCH if runs else "#ffffff"}" stroke="{HATCH}" stroke-width="2"/>'


def hatch_sign(x, y, number, runs, told):
    """A hatch with its number, and what it tells to a pointer; the numbers of several are too long for a circle."""
    letters = f' text-anchor="middle" font-size="11" font-weight="bold" fill="{"#ffffff" if runs else HATCH}"'
    long = len(str(number))
    shape = hatch_circle(x, y, 8.5, runs) if long <= 2 else hatch_box(x, y, 8 * long + 8, runs)
    drawn = shape + words(f"{x:g}", f"{y + 4:g}", number, letters)
    return f'<g class="{"drawn" if runs else "shut"}"><title>{told}</title>{drawn}</g>'


def north_arrow(x, y):
    """North is up."""
    arrow = f'<path d="M{x} {y + 34}V{y}M{x - 5} {y + 9}L{x} {y}L{x + 5} {y + 9}" fill="none" stroke="{INK}" stroke-width="1.6" class="north"/>'
    return arrow + words(x, y - 5, "N", ' text-anchor="middle" font-weight="bold"')
