"""The picture of a sweep, as SVG: for each question the answer against the value, one line for each second value, or a map of cells; of draws of
waits how many runs have each answer."""
import collections
import json
import math
import re
import statistics
from html import escape

import questions
from sweep_paths import is_drawn

WIDTH, HEIGHT, LEFT, RIGHT, TOP, BOTTOM = 760, 320, 76, 170, 34, 48
# Lines differ in shape and lightness too, for those who see colours otherwise.
COLOURS = ['#0b4f8a', '#c05a00', '#2b9b8f', '#8a5c9b', '#6b6b6b', '#c9a100']
MOST_LINES = len(COLOURS)
BARS = 30


# What a key's last word says of its unit: the unit that is shown, and how many of the key's make one of it.
UNITS = {'Seconds': ('s', 1), 'Millis': ('s', 1_000), 'Ppm': ('ppm', 1), 'Percent': ('%', 1), 'Beats': ('s', None), 'Beat': ('s', None)}


def axis_of(document, path):
    """The words for what a path changes, with the unit, and how many of the path's units make one of it."""
    *before, key = path.split('/')[1:]
    last, words = re.findall('[A-Z]?[a-z]+', key), key
    unit, per = UNITS.get(last[-1].capitalize() if last else '', ('', 1))
    if unit:
        words = ' '.join(last[:-1])
    elif last:
        words = ' '.join(last)
    words = re.sub(' +', ' ', words).lower()
    if before[:1] == ['events'] and key == 'beat':
        event = document['events'][int(before[1])]
        words = 'time of the ' + event_words(event)
    elif before[:1] == ['events'] and key == 'beats':
        words = 'length of the ' + event_words(document['events'][int(before[1])])
    elif before[:1] in (['controllers'], ['kubelets']):
        words += ' of %s' % ('each of the ' + before[0] if before[1] == '*' else before[1])
    elif before[:1] == ['objects']:
        words += ' of %s' % ' '.join(part for part in before[1:4] if part != '*')
    if per is None:
        per = 1_000 / document['settings'].get('beatMillis', 100)
    return (words.strip() or key) + (' (%s)' % unit if unit else ''), per


def event_words(event):
    return '%s of %s' % (event['type'], event.get('process') or event.get('name') or event['object']['metadata']['name'])


def number(value):
    return isinstance(value, (int, float)) and not isinstance(value, bool)


def plain(value):
    return value if isinstance(value, str) else json.dumps(value)


def steps(low, high, wanted):
    """Round numbers from low to high."""
    if high <= low:
        high = low + 1
    power = 10 ** math.floor(math.log10((high - low) / wanted))
    step = next(power * n for n in (1, 2, 5, 10) if power * n * wanted >= high - low)
    first = math.ceil(low / step - 1e-9)
    return [round(step * i, 10) for i in range(first, math.floor(high / step + 1e-9) + 1)]


def short(value):
    if not number(value):
        return plain(value)
    return '%g' % value if abs(value) < 10_000 else '{:,}'.format(round(value))


class Scale:
    """Values on an axis: by their size, or evenly one beside the other, also where one isn't a number."""

    def __init__(self, values, low, high, even=False):
        self.low, self.high = low, high
        numbers = all(map(number, values))
        self.by_size = numbers and not even
        self.order = sorted(set(values)) if numbers else list(dict.fromkeys(values))
        self.least, self.greatest = (self.order[0], self.order[-1]) if self.by_size else (-.5, len(self.order) - .5)

    def __call__(self, value):
        at = value if self.by_size else self.order.index(value)
        share = .5 if self.greatest == self.least else (at - self.least) / (self.greatest - self.least)
        return self.low + share * (self.high - self.low)

    def size(self):
        """Of one of the values that stand evenly."""
        return abs(self.high - self.low) / len(self.order)

    def ticks(self):
        if self.by_size and len(self.order) > 8:
            return [(self(value), short(value)) for value in steps(self.least, self.greatest, 8) if self.least <= value <= self.greatest]
        return [(self(value), short(value)) for value in self.order[::math.ceil(len(self.order) / 12)]]


def text(x, y, words, anchor='middle', more=''):
    return '<text x="%.1f" y="%.1f" text-anchor="%s"%s>%s</text>' % (x, y, anchor, more, escape(str(words)))


def shape(kind, x, y, colour, radius=3.2):
    """A point: the kinds are disc, square, diamond, ring, triangle and cross."""
    r = radius
    if kind in (0, 3):
        return '<circle cx="%.1f" cy="%.1f" r="%.1f" fill="%s" stroke="%s"/>' % (x, y, r, 'white' if kind else colour, colour)
    paths = {1: 'M-1 -1H1V1H-1Z', 2: 'M0 -1.3L1.3 0L0 1.3L-1.3 0Z', 4: 'M0 -1.2L1.2 1H-1.2Z', 5: 'M-1 -1L1 1M-1 1L1 -1'}
    paint = 'fill="%s"' % colour if kind != 5 else 'fill="none" stroke="%s" stroke-width=".6"' % colour
    return '<path transform="translate(%.1f %.1f) scale(%.1f)" d="%s" %s/>' % (x, y, r, paths[kind], paint)


def frame(top, title, label, xs, ys, of=''):
    """Title, what it is of, axes and the names of ticks. `ys` are pairs of a height and its words."""
    right, foot = WIDTH - RIGHT, top + HEIGHT - BOTTOM
    out = [text(LEFT, top + 16, title, 'start', ' font-weight="bold"'), text((LEFT + right) / 2, foot + 36, label)]
    if of:
        out.append(text(WIDTH - 8, foot + 36, of, 'end', ' fill="#5c6773"'))
    for y, words in ys:
        out.append('<path d="M%d %.1fH%d" stroke="#d9dee4"/>' % (LEFT, y, right))
        out.append(text(LEFT - 7, y + 4, words, 'end'))
    for x, words in xs.ticks():
        out.append('<path d="M%.1f %.1fv5" stroke="#5c6773"/>' % (x, foot))
        out.append(text(x, foot + 18, words))
    out.append('<path d="M%d %.1fH%d" stroke="#5c6773"/>' % (LEFT, foot, right))
    return out


def lines(plan, question, rows, top, across, by, bounds=None):
    """The answer against the value of one path, a line for each value of the other, if there is one. `never` stands at the top. Bounds, at least and
    at most, are lines too."""
    values = [row[question] for row in rows]
    greatest = max([value for value in values if number(value)] + [most for _, most in filter(None, bounds or [])] + [0])
    heights = steps(0, greatest or 1, 5)
    foot, head = top + HEIGHT - BOTTOM, top + TOP
    high = max(heights[-1], greatest)
    y = lambda value: foot - (foot - head - 12) * value / high
    xs = Scale([run[across] for run in plan['runs']], LEFT + 8, WIDTH - RIGHT - 8)
    out = frame(top, questions.title(question), plan['axes'][across], xs, [(y(value), short(value)) for value in heights], plan['of'])
    groups = list(dict.fromkeys(run[by] for run in plan['runs'])) if by is not None else [None]
    out += bound_lines([xs(run[across]) for run in plan['runs']], [run[by] for run in plan['runs']] if by is not None else None, bounds, y)
    for place, group in enumerate(groups):
        points = [(xs(run[across]), row) for run, row in zip(plan['runs'], rows) if by is None or run[by] == group]
        out += one_line(points, question, y, place, foot, head, plan['drawn'][across])
    return out + (legend(plan['axes'][by], groups, head) if by is not None else []) + notes(rows, question, foot)


def bound_lines(xs, groups, bounds, y):
    """Both bounds of the runs of each group, dashed, in the group's colour where groups differ, with their numbers where they are the same all along."""
    if not bounds or not any(bounds):
        return []
    if not groups or len(set(bounds)) == 1:
        groups = [None] * len(xs)
    out, order = [], list(dict.fromkeys(groups))
    for place, group in enumerate(order):
        points = sorted((x, bound) for x, bound, of in zip(xs, bounds, groups) if of == group and bound)
        for side, words in enumerate(('at least', 'at most')):
            path = 'L'.join('%.1f %.1f' % (x, y(bound[side])) for x, bound in points)
            colour = COLOURS[place] if len(order) > 1 else '#16202b'
            out.append('<path d="M%s" fill="none" stroke="%s" stroke-dasharray="5 3"/>' % (path, colour))
            if len(order) == 1 and len({bound for _, bound in points}) == 1:
                label = '%s %s, proved' % (words, short(points[0][1][side]))
                out.append(text(WIDTH - RIGHT - 4, y(points[0][1][side]) + (13, -4)[side], label, 'end'))
    if len(order) > 1 or len({bound for bound in bounds if bound}) > 1:
        out.append(text(WIDTH - 8, y(0) + 20, 'dashed: after a crash, proved', 'end', ' fill="#5c6773"'))
    return out


def legend(path, groups, head):
    x, out = WIDTH - RIGHT + 18, [text(WIDTH - RIGHT + 10, head - 4, path, 'start')]
    for place, group in enumerate(groups):
        out.append(shape(place, x, head + 12 + 18 * place, COLOURS[place]))
        out.append(text(x + 10, head + 16 + 18 * place, short(group), 'start'))
    return out


def one_line(points, question, y, place, foot, head, drawn):
    out, path = [], ''
    for x, row in sorted(points, key=lambda point: point[0]):
        value = row[question]
        if number(value):
            path += '%s%.1f %.1f' % ('L' if path and path[-1] != ' ' else 'M', x, y(value))
            radius = 2.2 if len(points) > 60 else 3.2
            out.append(shape(place, x, y(value), COLOURS[place], radius))
            if row['premise'] == 'no':
                out.append('<circle cx="%.1f" cy="%.1f" r="%.1f" fill="none" stroke="#a33a00"/>' % (x, y(value), radius + 2.4))
            continue
        path += ' '
        if value == 'never':
            out.append(shape(5, x, head, '#a33a00', 4))
        elif row['outcome'] != 'done':
            out.append('<path d="M%.1f %.1fv-7" stroke="#a33a00" stroke-width="2"/>' % (x, foot))
    if not drawn:
        out.insert(0, '<path d="%s" fill="none" stroke="%s" stroke-width="1.2"/>' % (path.strip(), COLOURS[place]))
    return out


def notes(rows, question, foot):
    """What the marks beside the points mean, where there are such."""
    x, out = WIDTH - RIGHT + 10, []
    refused = sum(row['outcome'] != 'done' for row in rows)
    never = sum(row[question] == 'never' for row in rows)
    silent = sum(row[question] is None for row in rows) - refused
    unsafe = sum(row['premise'] == 'no' for row in rows)
    for count, words in ((unsafe, '%d premise=no (ringed)'),
                         (never, '%d times never (crosses)'), (refused, '%d refused (strokes)'), (silent, '%d without an answer')):
        if count > 0:
            out.append(text(x, foot - 4 - 16 * len(out), words % count, 'start', ' fill="#5c6773"'))
    return out


def is_of_draws(plan):
    """Whether a value is draws of waits, which has no place on an axis."""
    return any(map(is_drawn, plan['runs'][0]))


def histogram(plan, question, rows, top, bounds=None):
    """How many runs have each answer, an outline for each of the values that aren't drawn, if they are few."""
    found = [row[question] for row in rows if number(row[question])]
    others = [[value for value in run if not is_drawn(value)] for run in plan['runs']]
    groups = list(dict.fromkeys(other[0] if other else None for other in others))
    is_parted = 1 < len(groups) <= MOST_LINES and not any(drawn for drawn, value in zip(plan['drawn'], plan['runs'][0]) if not is_drawn(value))
    ends = [end for bound in bounds or [] if bound for end in bound]
    marks = steps(min([*found, *ends], default=0), max([*found, *ends], default=1), BARS)
    wide = round(marks[1] - marks[0], 10) if len(marks) > 1 else 1
    bars = [collections.Counter(math.floor(row[question] / wide + 1e-9) for row, other in zip(rows, others) if number(row[question]) and (not is_parted or other[0] == group))
            for group in (groups if is_parted else [None])]
    foot, head = top + HEIGHT - BOTTOM, top + TOP
    heights = steps(0, max([count for each in bars for count in each.values()], default=1), 5)
    y = lambda count: foot - (foot - head - 12) * count / max([heights[-1], *[count for each in bars for count in each.values()]])
    first, last = min(map(min, filter(None, bars)), default=0), max(map(max, filter(None, bars)), default=0)
    xs = Scale([wide * place for place in range(first, last + 2)] + ends, LEFT + 8, WIDTH - RIGHT - 8)
    middle = ', the middle one %s' % short(statistics.median_low(found)) if found else ''
    out = frame(top, 'runs by ' + questions.title(question), '%s, of %d runs%s' % (unit_of(question), len(rows), middle), xs, [(y(count), short(count)) for count in heights], plan['of'])
    for place, each in enumerate(bars):
        out.append(outline(each, first, last, lambda at: xs(wide * at), y, COLOURS[place], not is_parted))
    out += upright_bounds(set(filter(None, bounds or [])), xs, head, foot)
    axis = next((words for words, value in zip(plan['axes'], plan['runs'][0]) if not is_drawn(value)), '')
    return out + (legend(axis, groups, head) if is_parted else []) + notes(rows, question, foot)


def outline(bars, first, last, x, y, colour, is_full):
    """The bars from the first place to the last one, as one line."""
    path = 'M%.1f %.1f' % (x(first), y(0)) + ''.join('V%.1fH%.1f' % (y(bars[place]), x(place + 1)) for place in range(first, last + 1)) + 'V%.1f' % y(0)
    return '<path d="%s" fill="%s" fill-opacity=".25" stroke="%s"/>' % (path, colour if is_full else 'none', colour)


def upright_bounds(bounds, xs, head, foot):
    """Both bounds, where they are the same of all runs."""
    out = []
    for side, words in enumerate(('at least', 'at most')) if len(bounds) == 1 else ():
        end = list(bounds)[0][side]
        out.append('<path d="M%.1f %dV%d" stroke="#16202b" stroke-dasharray="5 3"/>' % (xs(end), head, foot))
        out.append(text(xs(end), head - 3, '%s %s' % (words, short(end)), ('start', 'end')[side]))
    return out


def unit_of(question):
    return 'seconds' if questions.title(question).startswith('seconds') else 'count'


def cells(plan, question, rows, top):
    """The answer as the lightness of a cell, where both values are many; of draws as that of a point."""
    found = [row[question] for row in rows if number(row[question])]
    low, high = (min(found), max(found)) if found else (0, 0)
    drawn, (xs, ys) = plan['drawn'][0], zip(*plan['runs'])
    foot, head, right = top + HEIGHT - BOTTOM, top + TOP, WIDTH - RIGHT
    across, up = Scale(xs, LEFT, right, not drawn), Scale(ys, foot, head, not drawn)
    wide, tall = (9, 9) if drawn else (across.size(), up.size())
    out = frame(top, questions.title(question) + ', against ' + plan['axes'][1], plan['axes'][0], across, up.ticks(), plan['of'])
    for run, row in zip(plan['runs'], rows):
        x, y, value = across(run[0]), up(run[1]), row[question]
        fill = shade(value, low, high) if number(value) else 'none'
        out.append('<rect x="%.1f" y="%.1f" width="%.1f" height="%.1f" fill="%s" stroke="#fff" stroke-width=".4"/>'
                   % (x - wide / 2, y - tall / 2, wide, tall, fill))
        if value == 'never':
            out.append(shape(5, x, y, '#a33a00', min(4, tall / 3)))
        elif row['premise'] == 'no':
            out.append(shape(3, x, y, '#a33a00', min(3, tall / 3)).replace('fill="white"', 'fill="none"'))
    return out + shades(low, high, right + 12, head + 90) + notes(rows, question, foot)


def shades(low, high, x, y):
    out = []
    for i in range(6):
        value = low + (high - low) * i / 5
        out.append('<rect x="%d" y="%d" width="14" height="14" fill="%s"/>' % (x, y - 16 * i, shade(value, low, high)))
        out.append(text(x + 20, y + 11 - 16 * i, '%.4g' % value, 'start'))
    return out


def shade(value, low, high):
    """From nearly white to dark blue."""
    share = (value - low) / (high - low) if high > low else .5
    return '#%02x%02x%02x' % tuple(round(a + (b - a) * share) for a, b in ((226, 11), (236, 60), (245, 110)))


def axes(plan):
    """The path that goes across, and the path that has a line for each value: that with the fewer values. None where cells tell more."""
    if len(plan['paths']) == 1:
        return 0, None
    counts = [len(set(values)) for values in zip(*plan['runs'])]
    by = 1 if counts[1] <= counts[0] else 0
    return (1 - by, by) if counts[by] <= MOST_LINES else None


def shown(value, per):
    return value / per if number(value) and per != 1 else value if number(value) else plain(value)


def picture(plan, asked, rows, bounds=None):
    axes_of = [axis_of(plan['document'], path) for path in plan['paths']]
    of = ', '.join([plan.get('name') or '', *(setting.rpartition('/')[2] for setting in plan.get('set', []))]).strip(', ')
    plan = {**plan, 'axes': [words for words, _ in axes_of], 'of': of,
            'runs': [[shown(value, per) for value, (_, per) in zip(run, axes_of)] for run in plan['runs']]}
    place = axes(plan)
    out = ['<svg xmlns="http://www.w3.org/2000/svg" width="%d" height="%d"' % (WIDTH, HEIGHT * len(asked)),
           ' font-family="DejaVu Sans, Verdana, sans-serif" font-size="12" fill="#16202b">',
           '<rect width="100%" height="100%" fill="#fff"/>']
    for i, question in enumerate(asked):
        some = bounds if question == 'failover' else None
        if is_of_draws(plan):
            out += histogram(plan, question, rows, i * HEIGHT, some)
        else:
            out += lines(plan, question, rows, i * HEIGHT, *place, some) if place else cells(plan, question, rows, i * HEIGHT)
    return '\n'.join(out + ['</svg>', ''])
