"""Elements of a picture, as text."""
from html import escape

# What letters take of the height of a bold font that is rather wide; of others by kind.
WIDTHS = {**dict.fromkeys("W@%&", 1.1), **dict.fromkeys("mM", 1.05), "w": 0.93, " ": 0.36,
          **dict.fromkeys("ijlI.,;:'|!()[]", 0.46)}
CAPITAL, SMALL, DIGIT, OTHER = 0.8, 0.7, 0.7, 1.05
# Bold letters of 13 pixels, and others of 12, which are narrower.
NAME, VALUE = 13, 10.9


def width_of(text, height):
    """The room that a text takes at a height of its letters, on the safe side."""
    def share(letter):
        if not letter.isascii():
            return OTHER
        return CAPITAL if letter.isupper() else DIGIT if letter.isdigit() else SMALL
    return height * sum(WIDTHS.get(letter) or share(letter) for letter in text)


def attributes(named):
    return "".join(f' {name.rstrip("_").replace("_", "-")}="{escape(rounded(value))}"' for name, value in named.items())


def rounded(value):
    return f"{value:.1f}".removesuffix(".0") if isinstance(value, float) else str(value)


def element(name, *inside, **named):
    """An element with what stands inside it, which is markup already."""
    return f"<{name}{attributes(named)}>{''.join(inside)}</{name}>"


def label(x, y, text, **named):
    return element("text", escape(text), x=x, y=y, **named)


def title(text):
    """What is told where the pointer rests."""
    return element("title", escape(text))


def picture(width, height, *inside, **named):
    frame = f"0 0 {rounded(width)} {rounded(height)}"
    return element("svg", *inside, viewBox=frame, width=width, height=height, role="img", **named)


def shortened(text, width, height=VALUE):
    """As much of a text as a width surely has room for."""
    if width_of(text, height) <= width:
        return text
    most = next(most for most in range(len(text), -1, -1) if width_of(text[:most] + "…", height) <= width or most == 0)
    return text[:most].rstrip(" ·,") + "…" if most > 1 else ""


def name_label(x, y, name, width):
    """A name, shortened to a width; the pointer shows it whole."""
    return element("text", title(name), escape(shortened(name, width, NAME)), x=x, y=y, class_="name")
