"""Colonel Blotto as a matrix: five soldiers against four on three fields; a field goes to the side
with more soldiers there, and counts 1.

    python3 -m dosolve table python/examples/blotto.py -o blotto.json
"""
import dosolve

FIELDS = 3


def placings(soldiers, fields=FIELDS):
    """Each way to place so many soldiers."""
    if fields == 1:
        return [(soldiers,)]
    return [(first, *rest) for first in range(soldiers, -1, -1)
            for rest in placings(soldiers - first, fields - 1)]


def payoff(one, two):
    """The fields won less those lost."""
    return sum((mine > yours) - (mine < yours) for mine, yours in zip(one, two))


def table(soldiers=(5, 4)):
    """The game as a table."""
    ones, twos = map(placings, soldiers)
    matrix = [[payoff(one, two) for two in twos] for one in ones]
    names = ["-".join(map(str, placing)) for placing in ones]
    return dosolve.Table.from_matrix(matrix, names, ["-".join(map(str, two)) for two in twos])
