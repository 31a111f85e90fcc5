"""The byte forms of terms, rules, queries and books, written apart from the engine, for making test data."""
import struct


def atom(number):
    return ("atom", number)


def var(number):
    return ("var", number)


def pair(first, rest):
    return ("pair", first, rest)


def lst(*items, rest=("atom", 0)):
    """The list of the items; its last rest is atom 0 unless another is given."""
    for item in reversed(items):
        rest = pair(item, rest)
    return rest


def term_bytes(term):
    if term[0] == "atom":
        return b"\x01" + struct.pack(">H", term[1])
    if term[0] == "var":
        return bytes([0x02, term[1]])
    return b"\x03" + term_bytes(term[1]) + term_bytes(term[2])


def framed(first, variables, goals, terms):
    body = b"".join(term_bytes(term) for term in terms)
    return bytes([first, variables, goals]) + struct.pack(">H", len(body)) + body


def rule(variables, head, *goals):
    return framed(0x10, variables, len(goals), [head, *goals])


def query(variables, *goals):
    return framed(0x12, variables, len(goals), goals)


def world(number):
    return bytes([0x11, number])


def sized_rule(size):
    """A rule of so many bytes: pairs with an atom or a variable first, and a variable or an atom at the end."""
    left = size - 5
    for variables in range(4):
        for last in (var(0), atom(7)):
            used = 3 * variables + (2 if last[0] == "var" else 3)
            if left >= used and (left - used) % 4 == 0:
                term = last
                for _ in range(variables):
                    term = pair(var(0), term)
                for number in range((left - used) // 4):
                    term = pair(atom(number), term)
                return rule(1, term)
    raise ValueError(size)


def notation(term):
    """The readable notation of a term."""
    if term[0] == "atom":
        return str(term[1])
    if term[0] == "var":
        return f"?{term[1]}"
    text = "(" + notation(term[1])
    rest = term[2]
    while rest[0] == "pair":
        text += " " + notation(rest[1])
        rest = rest[2]
    return text + (")" if rest == ("atom", 0) else f" . {notation(rest)})")
