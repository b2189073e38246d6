"""Random tables for the scripts beside this one: the field `states` of a position, playable or with a fault."""
import copy

CHANCE = 360360
MOST_TURNS, MOST_MOVES, MOST_DRAWS, MOST_PAYOFF = 31, 32, 13, 4000
NO_NUMBERS = ["1", None, True, 1.5, -0.0, {}, 2**64]
FAULTY_NUMBERS = [-1000001, -4001, -1, 0, 1, 4001, 360360, 1000001, 1048575, 1048576, 2**63 - 1]


def weights(r, count):
    """Weights above 0 of so many draws."""
    if CHANCE % count == 0 and r.random() < 0.4:
        return [CHANCE // count] * count
    cuts = sorted(r.sample(range(1, CHANCE), count - 1))
    return [high - low for low, high in zip([0] + cuts, cuts + [CHANCE])]


def payoffs(r, count):
    kind = r.randrange(10)
    if kind == 0:
        return [r.randint(-5, 5)] * count
    if kind == 1:
        return [r.choice([-MOST_PAYOFF, MOST_PAYOFF, r.randint(-MOST_PAYOFF, MOST_PAYOFF)]) for _ in range(count)]
    return [r.randint(-most, most) for most in [r.choice([1, 3, 20])] for _ in range(count)]


def cell(r, followers, drawn):
    """A cell that leads to some of these states; `drawn` is how often it has a list of draws."""
    if r.random() >= drawn:
        return r.choice(followers)
    count = r.choice([1, 2, 2, 2, 3, 3, 5, MOST_DRAWS])
    return [[r.choice(followers), weight] for weight in weights(r, count)]


def matrix(r, followers, most, drawn):
    rows, cells = r.randint(1, most), r.randint(1, most)
    return [[cell(r, followers, drawn) for _ in range(cells)] for _ in range(rows)]


def one_stage(r, drawn):
    """A root with ends behind it, now and then as wide as can be."""
    count = r.randint(1, 9)
    rows, cells = r.choice([(1, MOST_MOVES), (MOST_MOVES, 1), (r.randint(1, 9), r.randint(1, 9)), (2, 2), (3, 3), (1, 1)])
    if r.random() < 0.03:
        rows = cells = MOST_MOVES
    followers = range(1, count + 1)
    return [[[cell(r, followers, drawn) for _ in range(cells)] for _ in range(rows)]] + payoffs(r, count)


def many_turns(r, drawn):
    """As many turns as can be, or a few less: each state leads to the next one, and to ends."""
    turns = r.choice([MOST_TURNS, MOST_TURNS, r.randint(2, MOST_TURNS)])
    count = r.randint(1, 4)
    ends = range(turns, turns + count)
    inner = []
    for state in range(turns):
        made = matrix(r, ends, 2, drawn)
        made[r.randrange(len(made))][r.randrange(len(made[0]))] = cell(r, [state + 1], drawn)
        inner.append(made)
    return inner + payoffs(r, count)


def mixed(r, drawn, most_states):
    """States of several turns, ends among them, some of which nothing leads to."""
    inner, ends = r.randint(1, most_states), r.randint(1, 5)
    is_end = [False] * inner + [True] * (ends - 1)
    if r.random() < 0.7:
        r.shuffle(is_end)
    # Now and then the root is an end, and all else unreachable.
    is_end = ([is_end.pop(is_end.index(False))] if r.random() < 0.95 else []) + is_end + [True]
    paid = iter(payoffs(r, ends))
    near = r.choice([2, 4, len(is_end)])
    made = []
    for state, end in enumerate(is_end):
        later = range(state + 1, len(is_end))
        made.append(next(paid) if end else matrix(r, r.choice([later[:near], later[:near], later]), r.choice([2, 3, 3, 4]), drawn))
    return made


def paid(r, states):
    """The states with turns that pay: some draws have a third number, so small that every sum stays in range."""
    ends = [state for state in states if isinstance(state, int)]
    most = min(r.choice([0, 1, 3, 50]), (MOST_PAYOFF - max(abs(payoff) for payoff in ends)) // MOST_TURNS)
    share = r.choice([0.2, 0.6, 1])

    def with_reward(one):
        if r.random() >= share:
            return one
        draws = [[one, CHANCE]] if isinstance(one, int) else one
        return [draw + [r.randint(-most, most)] if r.random() < 0.9 else draw for draw in draws]

    return [state if isinstance(state, int) else [[with_reward(one) for one in row] for row in state] for state in states]


def playable(r, most_states=8):
    """The states of a playable table of some shape; in every third turns pay."""
    states = paid_at_ends(r, most_states)
    return paid(r, states) if r.randrange(3) == 0 else states


def paid_at_ends(r, most_states):
    """The states of a playable table that pays at its ends alone."""
    drawn = r.choice([0, 0, 0.2, 0.5, 1])
    kind = r.randrange(12)
    if kind == 0:
        return payoffs(r, r.randint(1, 3))
    if kind < 4:
        return one_stage(r, drawn)
    if kind == 4:
        return many_turns(r, drawn)
    return mixed(r, drawn, most_states)


def chain(turns):
    """One way of so many turns, one move a side."""
    return [[[state + 1]] for state in range(turns)] + [0]


def are_draws(cell):
    return isinstance(cell, list) and cell != [] and all(isinstance(draw, list) and len(draw) in (2, 3) and {type(number) for number in draw} == {int} for draw in cell)


def changed_cell(r, old, count):
    """A cell with a fault, or none: of a table with so many states."""
    if isinstance(old, int) and r.random() < 0.5:
        old = [[old, CHANCE // 2], [old, CHANCE // 2]]
    if are_draws(old) and r.random() < 0.8:
        draws = copy.deepcopy(old)
        place = r.randrange(len(draws))
        kind = r.randrange(8)
        if kind == 0:
            del draws[place]
        elif kind == 1:
            draws.insert(place, list(draws[place]))
        elif kind == 2:
            draws[place] = r.choice([draws[place][:1], draws[place] + [1], draws[place][:2], [], 1, None, draws[place] + ["1"]])
        elif kind == 7:
            draws[place] = draws[place][:2] + [r.choice([1, 4000, -4000, 8000, 1000000, -1000000, *FAULTY_NUMBERS, *NO_NUMBERS])]
        elif kind == 3:
            draws[place][0] = r.choice([0, count, *FAULTY_NUMBERS, *NO_NUMBERS])
        elif kind == 6:
            draws *= r.choice([2, 13, 14, 256])
        else:
            draws[place][1] = r.choice([draws[place][1] + 1, draws[place][1] - 1, 0, *FAULTY_NUMBERS, *NO_NUMBERS])
        return draws
    return r.choice([0, count - 1, count, [], [[]], [[0, CHANCE]], [[count - 1, CHANCE - 1]], *FAULTY_NUMBERS, *NO_NUMBERS])


def changed(r, states):
    """The states with one change, after which a rule, a range or a kind is mostly broken."""
    states = copy.deepcopy(states)
    inner = [place for place, state in enumerate(states) if isinstance(state, list)]
    kind = r.randrange(16)
    place = r.choice(inner) if inner and kind < 11 else r.randrange(len(states)) if states else 0
    rows = states[place] if states else 0
    if not isinstance(rows, list) or not rows or kind >= 11:
        if kind == 15:
            return r.choice([[], chain(31), chain(32), [0] + [[[state + 1]] for state in range(1, 34)] + [0], {}, 1, None])
        value = r.choice([[], [[]], [[], []], [1], [[[[]]]], -MOST_PAYOFF, MOST_PAYOFF, *FAULTY_NUMBERS, *NO_NUMBERS])
        return states[:place] + r.choice([[value], [value], [value], [], states[place:place + 1] * 2]) + states[place + 1:]
    row = r.randrange(len(rows))
    cells = rows[row] if isinstance(rows[row], list) else []
    if kind < 6 and cells:
        at = r.randrange(len(cells))
        cells[at] = changed_cell(r, cells[at], len(states))
    elif kind == 6 and cells:
        del cells[r.randrange(len(cells))]
    elif kind == 7 and cells:
        cells *= r.choice([2, MOST_MOVES + 1, 256])
    elif kind == 8:
        rows *= r.choice([2, MOST_MOVES + 1, 256])
    elif kind == 9:
        rows[row] = r.choice([[], 1, None, [None], list(cells) + [0]])
    else:
        del rows[row]
    return states


def lists(states):
    """Ranks, moves, values, cells and draws of a playable table, and its rewards if turns pay, as the line of its report has them."""
    moves, values, cells, draws, rewards, followers = [], [], [], [], [], []
    pays = False
    for state in states:
        end = isinstance(state, int)
        moves += [0, 0] if end else [len(state), len(state[0])]
        values.append(state if end else len(cells))
        followers.append([])
        for one in [] if end else [one for row in state for one in row]:
            cells.append(one if isinstance(one, int) else -1 - len(draws) // 2)
            drawn = [] if isinstance(one, int) else one
            draws += [number for draw in drawn for number in draw[:2]]
            rewards += [sum(draw[2:]) for draw in drawn]
            pays = pays or any(len(draw) == 3 for draw in drawn)
            followers[-1] += [draw[0] for draw in drawn] or [one]
    ranks = [0] * len(states)
    for state in range(len(states) - 1, -1, -1):
        ranks[state] = max((ranks[after] + 1 for after in followers[state]), default=0)
    return [ranks, moves, values, cells, draws] + [rewards] * pays


def line(states):
    """The line of a report that has these states."""
    return " ".join(["game table"] + [",".join(map(str, numbers)) or "-" for numbers in lists(states)])


def tree_size(states):
    """How many nodes the tree below the root of a playable table has, the root included."""
    sizes = [1] * len(states)
    for state in range(len(states) - 1, -1, -1):
        for one in [] if isinstance(states[state], int) else [one for row in states[state] for one in row]:
            sizes[state] += sizes[one] if isinstance(one, int) else sum(sizes[draw[0]] for draw in one)
    return sizes[0]


def width(states):
    return max((max(len(state), len(state[0])) for state in states if not isinstance(state, int)), default=1)
