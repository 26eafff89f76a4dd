"""Pictures that checks make and look at, by Pillow; and nine tiles of nine colours."""

import io

from checks import MODULES, want

want("no picture was made or looked at", f"{MODULES}/PIL:python3-pil", program=False)
from PIL import Image  # noqa: E402

# The side of a tile in pixels, and the colours of nine, row by row from above.
SIDE = 64
COLOURS = [
    (230, 25, 75),
    (60, 180, 75),
    (255, 225, 25),
    (0, 130, 200),
    (245, 130, 48),
    (145, 30, 180),
    (70, 240, 240),
    (240, 50, 230),
    (128, 128, 0),
]


def png_of(image):
    """A picture of Pillow's as the bytes of a PNG."""
    made = io.BytesIO()
    image.save(made, "PNG")
    return made.getvalue()


def picture(wide, high, colour):
    """A PNG of one colour: red, green and blue, and how much it covers, where that is said."""
    return png_of(Image.new("RGB" if len(colour) == 3 else "RGBA", (wide, high), tuple(colour)))


def tile(colour):
    """A tile of one colour."""
    return picture(SIDE, SIDE, colour)


def quarters(wide, high, colours):
    """A PNG of four colours, one a quarter: upper left and right, lower left and right."""
    whole, across, down = Image.new("RGB", (wide, high)), wide // 2, high // 2
    for number, colour in enumerate(colours):
        left, upper = number % 2 * across, number // 2 * down
        whole.paste(colour, (left, upper, left + across, upper + down))
    return png_of(whole)


def pixels_of(data):
    """The pixels of a PNG, as red, green and blue, by row."""
    image = Image.open(io.BytesIO(data)).convert("RGB")
    pixels, wide = list(image.getdata()), image.width
    return [pixels[at : at + wide] for at in range(0, len(pixels), wide)]


def size_of(data):
    """The width and height of a PNG or a JPEG."""
    return Image.open(io.BytesIO(data)).size


def nine_tiles():
    """The records of a pyramid whose nine tiles have the nine colours."""
    lines = [
        "srs,25832,ETRS89 / UTM zone 32N,EPSG,25832,projected metres,",
        f"pyramid,base,Base map,25832,0,0,{3 * SIDE * 1_000_000},{3 * SIDE * 1_000_000},two",
        f"matrix,base,0,3,3,{SIDE},{SIDE},1000000,1000000",
        *(f"tile,base,0,{it % 3},{it // 3},{tile(colour).hex()}" for it, colour in enumerate(COLOURS)),
    ]
    return "\n".join(lines) + "\n"
