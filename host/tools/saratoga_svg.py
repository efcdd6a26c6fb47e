"""How wide text is in a drawing, so that labels have the room that they need; and numbers as they are written there."""

FONT = '"DejaVu Sans", Verdana, Arial, sans-serif'

# Of each printable ASCII character in DejaVu Sans, plain and bold: hundredths of the font's size. Of the font's others, Verdana is
# as wide and Arial narrower.
PLAIN = """32 41 46 84 64 96 78 28 40 40 50 84 32 37 32 34 64 64 64 64 64 64 64 64 64 64 34 34 84 84 84 54
100 69 69 70 78 64 58 78 76 30 30 66 56 87 75 79 61 79 70 64 62 74 69 99 69 62 69 40 34 40 84 50
50 62 64 55 64 62 36 64 64 28 28 58 28 98 64 62 64 64 42 53 40 64 60 82 60 60 53 64 34 64 84"""
BOLD = """35 46 53 84 70 101 88 31 46 46 53 84 38 42 38 37 70 70 70 70 70 70 70 70 70 70 40 40 84 84 84 59
100 78 77 74 84 69 69 83 84 38 38 78 64 100 84 86 74 86 78 73 69 82 78 111 78 73 73 46 37 46 84 50
50 68 72 60 72 68 44 72 72 35 35 67 35 105 72 69 72 72 50 60 48 72 66 93 65 66 59 72 37 72 84"""
WIDTHS = {bold: dict(zip(map(chr, range(32, 127)), map(int, listed.split()))) for bold, listed in ((False, PLAIN), (True, BOLD))}


def wide(text, size, bold=False):
    """How wide a text is, in pixels where the size is in pixels. What isn't ASCII counts as wide as any."""
    return sum(WIDTHS[bold].get(letter, 111) for letter in text) * size / 100


def shortened(text, room, size, bold=False):
    """The text, without its middle where it is wider than the room."""
    if wide(text, size, bold) <= room:
        return text
    kept = len(text) - 1
    while kept > 2 and wide(f"{text[:(kept + 1) // 2]}…{text[len(text) - kept // 2:]}", size, bold) > room:
        kept -= 1
    return f"{text[:(kept + 1) // 2]}…{text[len(text) - kept // 2:]}"


def grouped(number):
    """A number with its digits in threes, exact however large it is."""
    return f"{number:,}"


def plural(count, one, many):
    return f"{grouped(count)} {one if count == 1 else many}"


def ticks(low, high, most):
    """Round numbers from `low` to `high`, at most `most` or so."""
    step = 1
    while (high - low) // step > most:
        for factor in (2, 5, 10):
            if (high - low) // (step * factor) <= most or factor == 10:
                break
        if factor == 10:
            step *= 10
            continue
        step *= factor
        break
    return range(-(-low // step) * step, high + 1, step)
