"""Rules and queries that several stored runs are made of. A rule is the number of its variables, its head and its goals; a
query the number of its variables and its goals."""
from forms import atom, lst, pair, query, rule, var

# two facts, and a path that is a fact or a fact and a path
PATH = [
    (0, lst(atom(2), atom(5), atom(6)), []),
    (0, lst(atom(2), atom(6), atom(7)), []),
    (2, lst(atom(3), var(0), var(1)), [lst(atom(2), var(0), var(1))]),
    (3, lst(atom(3), var(0), var(1)), [lst(atom(2), var(0), var(2)), lst(atom(3), var(2), var(1))]),
]
PATH_QUERY = (1, [lst(atom(3), atom(5), var(0))])


def chain(length):
    """The paths from the first place of a chain of so many facts."""
    facts = [(0, lst(atom(2), atom(place), atom(place + 1)), []) for place in range(length)]
    return facts + PATH[2:], (1, [lst(atom(3), atom(0), var(0))])


def reverse(length):
    """A list of so many atoms, turned round by putting its first item at the end of the rest turned round."""
    rules = [
        (0, lst(atom(1), atom(0), atom(0)), []),
        (4, lst(atom(1), pair(var(0), var(1)), var(2)), [lst(atom(1), var(1), var(3)), lst(atom(2), var(3), lst(var(0)), var(2))]),
        (1, lst(atom(2), atom(0), var(0), var(0)), []),
        (4, lst(atom(2), pair(var(0), var(1)), var(2), pair(var(0), var(3))), [lst(atom(2), var(1), var(2), var(3))]),
    ]
    return rules, (1, [lst(atom(1), lst(*map(atom, range(1, length + 1))), var(0))])


def book_bytes(rules):
    return b"".join(rule(variables, head, *goals) for variables, head, goals in rules)


def query_bytes(asked):
    variables, goals = asked
    return query(variables, *goals)
