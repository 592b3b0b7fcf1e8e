"""What a document was made of: each value with why it is so and how that is known, and the sentences on what to look at."""


class Told:
    HEAD = ('WHAT', 'VALUE', 'WHY', 'KNOWN BY')

    def __init__(self):
        self.rows, self.sentences = [], []

    def row(self, what, value, why, known):
        self.rows.append((what, str(value), why, known))

    def say(self, sentence):
        self.sentences.append(sentence)

    def say_each(self, sentences, most=10):
        self.sentences += sentences[:most]
        if len(sentences) > most:
            self.say('.. and so of %d more' % (len(sentences) - most))

    def table(self):
        rows = [self.HEAD, *self.rows]
        widths = [max(len(row[column]) for row in rows) for column in range(len(self.HEAD) - 1)]
        return [''.join('%-*s   ' % (width, cell) for width, cell in zip(widths, row)) + row[-1] for row in rows]


def counted(count, one, many=None):
    return '%d %s' % (count, one if count == 1 else many or one + 's')


def few(names, most=5):
    """Some names, and how many more there are."""
    names = sorted(names)
    return ', '.join(names[:most]) + (' and %d more' % (len(names) - most) if len(names) > most else '')
