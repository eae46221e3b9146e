"""The bounds of docs/RULES.md, "Numbers that bound it", each once by name."""

MOST_KINDS = 64
MOST_BOXES = 1024
MOST_LINES = 1024
MOST_UNPLACED = 256

# A length, a measure, a limit and a position: RULES, "Ranges".
LEAST_LENGTH = 0.000001
MOST = 1000000000
MOST_LIMIT = 1000000000000

# The longest load file, and the findings that the check program has room for.
MOST_BYTES = 60000
SLOTS = 1600
# The longest side that a fill per thousand is worked out for.
MOST_SIDE = 10000


def told(number):
    """A number as a reader wants it: 1,000,000,000, or 0.000001."""
    return '{:,}'.format(number) if isinstance(number, int) else '{:f}'.format(number)
