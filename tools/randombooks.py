"""Makes random small rule files. The same start and number give the same file."""

import random

from rulefiles import BAR, NO_HIGH, PIN, STRIKE, UNDO
from rulefiles import act, clause, constraint, head, rule, tagged_wish, wish

MOST_MARKS = 8
NEVER = constraint(1, NO_HIGH, [])


def random_literal(rng, count, part_of_nots):
    return rng.randrange(count) + (128 if rng.random() < part_of_nots else 0)


def random_elements(rng, count, part_of_nots):
    """Marks may come twice. Most weights are small, so that bounds matter."""
    weights = [1, 1, 1, 1, 2, 2, 3, 0, 65_535]
    return [
        (random_literal(rng, count, part_of_nots), rng.choice(weights))
        for _ in range(rng.choice([0, 1, 1, 2, 2, 3, 3, 4, 6]))
    ]


def random_constraint(rng, count, part_of_nots):
    elements = random_elements(rng, count, part_of_nots)
    total = sum(weight for _, weight in elements)
    low = rng.choice([0, 1, 1, 2, rng.randint(0, total + 1), rng.randint(0, total + 1)])
    high = rng.choice([NO_HIGH, NO_HIGH, low, low + 1, rng.randint(0, total + 1)])
    if rng.random() < 0.02:
        low = NO_HIGH
    if rng.random() < 0.02:
        high = NO_HIGH - 1
    return constraint(low, high, elements)


def free_head(rng, count):
    """A head that leaves open which of its marks are there."""
    return constraint(0, NO_HIGH, random_elements(rng, count, 0.1))


def single_head(rng, count):
    return constraint(1, NO_HIGH, [(rng.randrange(count), 1)])


def exact_head(rng, count):
    """A head that wants an exact number of its marks. It often gives sheets of one cost."""
    marks = rng.sample(range(count), rng.randint(1, count))
    number = rng.randint(1, len(marks))
    return constraint(number, number, [(mark, 1) for mark in marks])


def random_head(rng, count):
    kind = rng.random()
    if kind < 0.3:
        return free_head(rng, count)
    if kind < 0.6:
        return single_head(rng, count)
    if kind < 0.7:
        return exact_head(rng, count)
    return NEVER if kind < 0.75 else random_constraint(rng, count, 0.15)


def random_rule(rng, count):
    length = rng.choice([0, 0, 1, 1, 1, 2, 2, 3, 4])
    body = [random_constraint(rng, count, 0.4) for _ in range(length)]
    # Most heads of other kinds would leave no sheet where there is no body.
    either = rng.choice([free_head, free_head, free_head, exact_head])
    return rule((random_head if body else either)(rng, count), body)


def free_rule(rng, count):
    """A rule by which some marks may be there or not, whatever else is there."""
    marks = rng.sample(range(count), rng.randint(1, count))
    return rule(constraint(0, NO_HIGH, [(mark, 1) for mark in marks]), [])


def positive_loop(rng, count):
    """Rules by which each of some marks supports the next, and the last the first."""
    marks = rng.sample(range(count), rng.randint(1, min(count, 4)))
    loop = []
    for mark, before in zip(marks, marks[-1:] + marks[:-1]):
        elements = [(before, 1)] + random_elements(rng, count, 0.3)
        low = rng.choice([1, 1, 1, 2])
        one = constraint(rng.choice([0, 1]), NO_HIGH, [(mark, 1)])
        loop.append(rule(one, [constraint(low, NO_HIGH, elements)]))
    return loop


def random_clause(rng, count):
    length = rng.choice([1, 2, 2, 3, 3, 4]) if rng.random() < 0.98 else 0
    return clause([random_literal(rng, count, 0.5) for _ in range(length)])


def random_wish(rng, count):
    weight = rng.choice([rng.randint(-3, 3), rng.randint(-3, 3), rng.randint(-10_000, 10_000)])
    length = rng.choice([1, 1, 2, 3])
    literals = [random_literal(rng, count, 0.3) for _ in range(length)]
    return wish(rng.choice([1, 2, 3, 5, 8, rng.randint(1, 8)]), weight, literals)


def tagged_literals(rng, count):
    """Literals of a wish; one wish in eight has a mark and its "not"."""
    if rng.random() < 0.125:
        mark = rng.randrange(count)
        return [mark, mark + 128]
    return [random_literal(rng, count, 0.3) for _ in range(rng.choice([1, 1, 2, 3]))]


def random_tagged_wishes(rng, count):
    """Their levels, tags and weights are drawn from few, so that many share all three, and
    others have the tag at another level or with another weight."""
    levels = rng.sample(range(1, 9), rng.choice([1, 2]))
    tags = rng.choices([0, 1, 256, 0x1234, 0x3412, 32_768, 65_535], k=rng.choice([1, 2, 3]))
    weights = [rng.randint(-3, 3), rng.randint(1, 4), -rng.randint(1, 4), rng.choice([-10_000, 10_000])]
    weights = rng.sample(weights, rng.choice([1, 2, 3]))
    return [
        tagged_wish(rng.choice(levels), rng.choice(tags), rng.choice(weights), tagged_literals(rng, count))
        for _ in range(rng.choice([0, 2, 4, 8, 12, 20]))
    ]


def random_act(rng, count):
    """One act in ten or so names a mark that is not below the count."""
    code = rng.choice([PIN, BAR, STRIKE, STRIKE, STRIKE, STRIKE, UNDO])
    if code == UNDO:
        return act(UNDO)
    if code == STRIKE:
        beyond = 1 << rng.randrange(count, 64) if rng.random() < 0.1 else 0
        return act(STRIKE, rng.randrange(1 << count) | beyond)
    is_beyond = rng.random() < 0.1
    return act(code, rng.randrange(count, 256) if is_beyond else rng.randrange(count))


def random_rules(rng, count):
    rules = [random_rule(rng, count) for _ in range(rng.randint(0, count + 2))]
    if rng.random() < 0.5:
        rules += positive_loop(rng, count)
    if rng.random() < 0.4:
        rules.append(free_rule(rng, count))
    return rules


def random_file(start, number):
    """The bytes of a rule file with 1 to 8 marks. It is never refused."""
    rng = random.Random(f"{start} {number}")
    count = rng.randint(1, MOST_MARKS)
    clauses = [random_clause(rng, count) for _ in range(rng.choice([0, 0, 0, 1, 2]))]
    wishes = [random_wish(rng, count) for _ in range(rng.choice([0, 0, 1, 3, 5, 8]))]
    wishes += random_tagged_wishes(rng, count)
    # Now and then there are more acts than can stand.
    most = rng.choice([0, 0, 0, 0, 3, 3, 6, 6, 6, 120])
    acts = [random_act(rng, count) for _ in range(rng.randint(0, most))]
    records = random_rules(rng, count) + clauses + wishes + acts
    rng.shuffle(records)
    return head(count, rng.randrange(1 << count)) + b"".join(records)
