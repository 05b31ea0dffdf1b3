"""Random negotiations."""
from model import rows

GROUPED = 'en es pt zh ar'.split()
USUAL = ('en de fr es pt zh sr no nb nn he iw id in ar ja ru az uz kk ky pa mn tr it nl sv da fi pl cs sk hr bs sh fil tl ca '
         'hi ku tg').split()
REGIONS = ('US GB AU CA NZ IN IE PH DE AT CH FR BE ES MX AR 419 BR PT AO TW HK MO CN SG RS ME BA RU NO SE IR IQ AF PK KZ MA '
           'DZ EG JP TR IL ID 001 150 JM CL CO PE MZ LU MY').split()
SCRIPTS = 'Latn Cyrl Arab Hans Hant Deva Guru Mong Hebr Jpan'.split()
VARIANTS = 'valencia mac macos 1996 1901 windows posix rozaj'.split()
ODD = ['', 'C', 'x', 'en-', 'en--US', 'und', 'und-US', 'english-language', 'en-US-u-ca-gregory', 'de-Latn-1996', 'abcd', '*',
       'root', 'zz', 'qaa', 'i-klingon', 'e1', 'en-US-US', 'en-Latn-abcd', 'de-a', 'xyz-QQ', 'qaa-Latn', 'xyz']


class Tags:
    """Random tags, mostly of a few languages."""

    def __init__(self, chance, likely):
        self.chance, self.likely = chance, likely
        self.languages = sorted({row[0] for row in likely})
        self.few = [chance.choice(GROUPED + USUAL) for _ in range(chance.randint(1, 3))]

    def tag(self):
        chance = self.chance
        if chance.random() < .04:
            return chance.choice(ODD)
        pool, = chance.choices([self.few, GROUPED, USUAL, self.languages], [75, 10, 10, 5])
        language = chance.choice(pool)
        own = [row for row in self.likely if row[0] == language]
        parts = [language]
        if chance.random() < .25:
            parts.append(chance.choice(own)[3].title() if own and chance.random() < .5 else chance.choice(SCRIPTS))
        if chance.random() < .65:
            parts.append(chance.choice(own)[4].upper() if own and chance.random() < .3 else chance.choice(REGIONS))
        parts += [chance.choice(VARIANTS) for share in (.07, .02) if chance.random() < share]
        text = chance.choice('----_').join(parts)
        return chance.choice([text.upper(), text.lower(), text.title()]) if chance.random() < .1 else text


def cases(data, chance, count):
    """So many negotiations: a strategy, what is requested, what is available, and the last resort."""
    likely = rows(data / 'likely.txt')
    for _ in range(count):
        tags = Tags(chance, likely)
        requested = [tags.tag() for _ in range(chance.randint(1, 4))]
        available = [tags.tag() for _ in range(chance.randint(1, 8))]
        default = chance.choice([None, 'en', 'en-US', 'de', chance.choice(available)]) or None
        yield chance.choice(['filtering', 'matching', 'lookup']), requested, available, default
