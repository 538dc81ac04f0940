"""Plots as SVG, on logarithmic scales: what bench/peers.py draws."""
import math

COLORS = ("#2a6f97", "#e07a3f")


def svg(path, width, height, parts):
    with open(path, "w") as out:
        out.write(f'<svg xmlns="http://www.w3.org/2000/svg" width="{width}" height="{height}" font-family="sans-serif" font-size="12">\n')
        out.write(f'<rect width="{width}" height="{height}" fill="white"/>\n' + "\n".join(parts) + "\n</svg>\n")


def text(x, y, words, anchor="start", color="#333"):
    return f'<text x="{x:.0f}" y="{y:.0f}" text-anchor="{anchor}" fill="{color}">{words}</text>'


def line(x1, y1, x2, y2, color="#ddd"):
    return f'<line x1="{x1:.0f}" y1="{y1:.0f}" x2="{x2:.0f}" y2="{y2:.0f}" stroke="{color}"/>'


def scale(values, low, high):
    """A logarithmic scale from the power of ten below the least value to the one above the greatest, and those powers."""
    first, last = math.floor(math.log10(min(values))), math.ceil(math.log10(max(values)))
    last = max(last, first + 1)
    return (lambda v: low + (math.log10(v) - first) / (last - first) * (high - low)), [10.0 ** p for p in range(first, last + 1)]


def bars(path, unit, names, rows):
    """Two bars a row: a name and two values, of which the second may be None."""
    left, width, step, top = 430, 960, 34, 40
    height = top + step * len(rows) + 30
    x, powers = scale([v for row in rows for v in row[1:] if v and v > 0], left, width - 70)
    parts = [text(left + 110 * i, 20, name, color=COLORS[i]) for i, name in enumerate(names)]
    parts += [line(x(p), top, x(p), height - 25) + text(x(p), height - 8, f"{p:g}", "middle") for p in powers]
    parts.append(text(8, height - 8, unit))
    for i, (name, *values) in enumerate(rows):
        y = top + step * i
        parts.append(text(left - 8, y + 17, name, "end"))
        for j, value in enumerate(values):
            if value and value > 0:
                parts.append(f'<rect x="{left}" y="{y + 4 + 12 * j}" width="{x(value) - left:.0f}" height="10" fill="{COLORS[j]}"/>')
                parts.append(text(x(value) + 5, y + 13 + 12 * j, f"{value:.3g}" if value < 1000 else f"{value:,.0f}"))
    svg(path, width, height, parts)


def curves(path, across, up, series):
    """A curve for each name: its points."""
    left, right, top, bottom = 70, 560, 40, 330
    points = [it for curve in series.values() for it in curve]
    x, columns = scale([it[0] for it in points], left, right)
    y, powers = scale([max(it[1], 0.1) for it in points], bottom, top)
    parts = [line(left, y(p), right, y(p)) + text(left - 8, y(p) + 4, f"{p:g}", "end") for p in powers]
    parts += [line(x(p), top, x(p), bottom) + text(x(p), bottom + 18, f"{p:,.0f}", "middle") for p in columns]
    parts += [text(right, bottom + 38, across, "end"), text(8, 20, up)]
    for color, (name, curve) in zip(COLORS, series.items()):
        places = [(x(n), y(max(v, 0.1))) for n, v in curve]
        parts.append(f'<polyline fill="none" stroke="{color}" stroke-width="2" points="{" ".join(f"{a:.0f},{b:.0f}" for a, b in places)}"/>')
        parts += [f'<circle cx="{a:.0f}" cy="{b:.0f}" r="3" fill="{color}"/>' for a, b in places]
        parts.append(text(places[-1][0] + 8, places[-1][1] + 4, name, color=color))
    svg(path, right + 90, bottom + 50, parts)
