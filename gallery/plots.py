"""Plots as SVG, of bars alone, in colours that are read on a light page and on a dark one."""
import math

WIDTH, HEIGHT = 760, 340
LEFT, RIGHT, TOP, BOTTOM = 64, 16, 34, 52
INK, BAR = "#7a828e", "#3f8ae0"


def text(x, y, words, anchor="middle", more=""):
    return f'<text x="{x:.1f}" y="{y:.1f}" text-anchor="{anchor}"{more}>{words}</text>'


def line(x1, y1, x2, y2, faint):
    return f'<line x1="{x1:.1f}" y1="{y1:.1f}" x2="{x2:.1f}" y2="{y2:.1f}" stroke="{INK}"' + (' stroke-opacity="0.3"' if faint else "") + "/>"


def marks(most, is_log):
    """Where the upright axis has marks, up to the first one that is no less than the most."""
    if is_log:
        return [10**power for power in range(math.ceil(math.log10(max(most, 10))) + 1)]
    step = 10 ** math.floor(math.log10(most))
    step = next(it for it in (step / 5, step / 2, step, step * 2) if most / it <= 6)
    step = max(1, int(step))
    return [step * at for at in range(-(-most // step) + 1)]


def bars(title, across, upward, counts, is_log=False):
    """A bar for each number from the least to the greatest, as high as its count; the axes say what both are."""
    first, last, most = min(counts), max(counts), max(counts.values())
    ticks = marks(most, is_log)
    share = (lambda it: math.log10(it * 2) / math.log10(ticks[-1] * 2) if it else 0) if is_log else (lambda it: it / ticks[-1])
    wide, high = (WIDTH - LEFT - RIGHT) / (last - first + 1), HEIGHT - TOP - BOTTOM
    place, top = (lambda number: LEFT + (number - first + 0.5) * wide), (lambda it: TOP + high * (1 - share(it)))
    yield f'<svg xmlns="http://www.w3.org/2000/svg" viewBox="0 0 {WIDTH} {HEIGHT}" width="{WIDTH}" height="{HEIGHT}" role="img" font-family="sans-serif" font-size="13" fill="{INK}">'
    yield f"<title>{title}</title>"
    yield text(WIDTH / 2, 20, title, more=' font-size="15"')
    for it in ticks:
        yield line(LEFT, top(it), WIDTH - RIGHT, top(it), True)
        yield text(LEFT - 6, top(it) + 4, f"{it:,}", "end")
    for number in range(first, last + 1):
        if count := counts.get(number, 0):
            yield f'<rect x="{place(number) - wide * 0.42:.1f}" y="{top(count):.1f}" width="{wide * 0.84:.1f}" height="{TOP + high - top(count):.1f}" fill="{BAR}"><title>{number}: {count}</title></rect>'
    yield line(LEFT, TOP + high, WIDTH - RIGHT, TOP + high, False)
    step = next(it for it in (1, 2, 5, 10, 20, 50) if (last - first) / it <= 24)
    for number in range(-(-first // step) * step, last + 1, step):
        yield text(place(number), TOP + high + 17, number)
    yield text(LEFT + (WIDTH - LEFT - RIGHT) / 2, HEIGHT - 10, across)
    yield text(0, 0, upward, more=f' transform="translate(14 {TOP + high / 2:.1f}) rotate(-90)"')
    yield "</svg>"
