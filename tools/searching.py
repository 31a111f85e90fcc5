"""A small search apart from the engine, with one copy of all bindings for each step, for making test data.

A rule is its number of variables, its head and its goals; a query is its number of variables and its goals."""
import struct

from forms import term_bytes, var

END = b"\x2f"
MOST_STEPS, MOST_CELLS, MOST_TRIES = 512, 2048, 1_000_000


# ── terms ──


def shifted(term, by):
    if term[0] == "var":
        return var(term[1] + by)
    if term[0] == "pair":
        return ("pair", shifted(term[1], by), shifted(term[2], by))
    return term


def present(term, bindings):
    """The term with every binding put in."""
    if term[0] == "var" and term[1] in bindings:
        return present(bindings[term[1]], bindings)
    if term[0] == "pair":
        return ("pair", present(term[1], bindings), present(term[2], bindings))
    return term


def occurs(number, term):
    return term == ("var", number) or (term[0] == "pair" and (occurs(number, term[1]) or occurs(number, term[2])))


def unified(left, right, bindings):
    """The bindings with those that make both terms equal; None where nothing does."""
    left, right = present(left, bindings), present(right, bindings)
    if left == right:
        return bindings
    for one, other in ((left, right), (right, left)):
        if one[0] == "var":
            return None if occurs(one[1], other) else {**bindings, one[1]: other}
    if left[0] != "pair" or right[0] != "pair":
        return None
    bindings = unified(left[1], right[1], bindings)
    return None if bindings is None else unified(left[2], right[2], bindings)


# ── the search ──


class Search:
    def __init__(self, rules, query):
        self.rules, self.query = rules, query
        self.rewind()

    def rewind(self):
        self.condition = "running"
        self.goals, self.due, self.used, self.bindings = self.query[1], 0, self.query[0], {}
        # each step with what stood before it
        self.steps = []
        self.tries = self.answers = 0

    def back(self):
        if not self.steps:
            return False
        number, self.goals, self.used, self.bindings = self.steps.pop()
        self.due = number + 1
        return True

    def next(self, allowance):
        """The word and the tries of a call whose allowance is within its limit."""
        tries = 0
        if self.condition in ("none", "deep", "cells"):
            return self.condition, 0
        word = None
        if self.condition == "answer":
            word = None if self.back() else "none"
        while word is None:
            if not self.goals:
                word = "answer"
            elif self.due == len(self.rules):
                word = None if self.back() else "none"
            elif tries == allowance:
                word = "spent"
            elif len(self.steps) == MOST_STEPS:
                word = "deep"
            elif self.used + self.rules[self.due][0] > MOST_CELLS:
                word = "cells"
            else:
                tries += 1
                self.attempt()
        self.tries += tries
        if word == "answer":
            self.answers += 1
        self.condition = "running" if word == "spent" else word
        return word, tries

    def attempt(self):
        variables, head, body = self.rules[self.due]
        bindings = unified(shifted(head, self.used), self.goals[0], self.bindings)
        if bindings is None:
            self.due += 1
            return
        self.steps.append((self.due, self.goals, self.used, self.bindings))
        self.goals = [shifted(goal, self.used) for goal in body] + self.goals[1:]
        self.used += variables
        self.bindings, self.due = bindings, 0

    def stands(self):
        """Whether an answer can be held."""
        return self.condition == "answer"

    def numbers(self):
        """The rule numbers of the steps."""
        return [step[0] for step in self.steps]

    def written(self, slip):
        """The bytes of the slip, or of its answer alone."""
        numbers = {}

        def put(term):
            term = present(term, self.bindings)
            if term[0] == "var":
                return b"\x04" + struct.pack(">H", numbers.setdefault(term[1], len(numbers)))
            if term[0] == "pair":
                return b"\x03" + put(term[1]) + put(term[2])
            return term_bytes(term)

        def cells(begin, count):
            return bytes([count]) + b"".join(put(var(begin + i)) for i in range(count))

        text = b"\x20" + cells(0, self.query[0])
        if not slip:
            return text
        for number, _, used, _ in self.steps:
            text += b"\x21" + struct.pack(">H", number) + cells(used, self.rules[number][0])
        return text + END
