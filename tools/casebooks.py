"""Books and queries made by chance, in groups, for comparing the engine with another Prolog.

They are written in the readable notation with names: a word is an atom, `?word` a variable, `()` atom 0. Which number an atom
or a variable has, and how many variables a rule declares beyond those that it mentions, is left to chance."""
from forms import atom, lst, pair, query, rule, var, world


def tokens(text):
    for mark in "(),":
        text = text.replace(mark, f" {mark} ")
    return text.split()


def read(words, at):
    """The term that begins at this word, and where it ends."""
    if words[at] != "(":
        return (var(words[at][1:]) if words[at][0] == "?" else atom(words[at])), at + 1
    items, rest, at = [], atom("()"), at + 1
    while words[at] != ")":
        if words[at] == ".":
            rest, at = read(words, at + 1)
        else:
            item, at = read(words, at)
            items.append(item)
    return lst(*items, rest=rest), at + 1


def terms(text):
    """The terms of a text, with or without commas."""
    words, at, found = [word for word in tokens(text) if word != ","], 0, []
    while at < len(words):
        term, at = read(words, at)
        found.append(term)
    return found


def numeral(number, base="z"):
    return f"(s . {numeral(number - 1, base)})" if number else base


def listed(items):
    return "(" + " ".join(items) + ")"


def variables(found, term):
    """The names of the term's variables, put behind those that were found."""
    if term[0] == "var" and term[1] not in found:
        found.append(term[1])
    for part in term[1:] if term[0] == "pair" else ():
        variables(found, part)
    return found


class Case:
    """A book and a query."""

    def __init__(self, rng):
        self.rng = rng
        self.atoms = {"()": 0}
        self.rules = []
        self.worlds = False

    def number(self, name):
        while name not in self.atoms:
            number = self.rng.choice([self.rng.randint(1, 255), self.rng.randint(1, 65535)])
            if number not in self.atoms.values():
                self.atoms[name] = number
        return self.atoms[name]

    def declared(self, parts, extra=None):
        """How many variables are declared for the terms, and the terms with numbers for names."""
        names = []
        for part in parts:
            variables(names, part)
        if extra is None:
            extra = self.rng.choice([0, 0, 0, 1, 2])
        numbers = self.rng.sample(range(len(names) + extra), len(names))
        return len(names) + extra, [self.numbered(part, dict(zip(names, numbers))) for part in parts]

    def numbered(self, term, numbers):
        if term[0] == "atom":
            return atom(self.number(term[1]))
        if term[0] == "var":
            return var(numbers[term[1]])
        return pair(self.numbered(term[1], numbers), self.numbered(term[2], numbers))

    def add(self, head, goals=(), extra=None):
        count, (head, *goals) = self.declared([head, *goals], extra)
        self.rules.append(rule(count, head, *goals))

    def add_all(self, *texts, extra=None):
        """Rules as `head` or `head <- goal, goal`."""
        for text in texts:
            head, _, goals = text.partition("<-")
            self.add(terms(head)[0], terms(goals), extra)
        return self

    def ask(self, goals, extra=None):
        count, goals = self.declared(terms(goals) if isinstance(goals, str) else goals, extra)
        self.query = query(count, *goals)
        return self

    def book(self):
        rows = []
        for row in self.rules:
            while self.worlds and self.rng.random() < 0.4:
                rows.append(world(self.rng.randint(0, 255)))
            rows.append(row)
        while self.worlds and self.rng.random() < 0.4:
            rows.append(world(self.rng.randint(0, 255)))
        return b"".join(rows)


# ── terms by chance ──


def some_term(rng, depth, names, unknowns):
    """A term over these atoms and variables; it has pairs in it as long as the depth allows."""
    roll = rng.random()
    if unknowns and roll < 0.35:
        return var(rng.choice(unknowns))
    if depth == 0 or roll < 0.7:
        return atom(rng.choice(names))
    parts = [some_term(rng, depth - 1, names, unknowns) for _ in range(rng.randint(1, 2))]
    if rng.random() < 0.5:
        return pair(parts[0], parts[-1])
    return lst(*parts, rest=atom("()"))


def some_goal(rng, predicates, depth, names, unknowns):
    name = rng.choice(sorted(predicates))
    return lst(atom(name), *(some_term(rng, depth, names, unknowns) for _ in range(predicates[name])), rest=atom("()"))


def opened(rng, term, unknowns, chance):
    """The term with variables for some of its parts."""
    if rng.random() < chance:
        return var(rng.choice(unknowns))
    if term[0] == "pair":
        return pair(opened(rng, term[1], unknowns, chance), opened(rng, term[2], unknowns, chance))
    return term if term[0] == "atom" else var(rng.choice(unknowns))


def asked(rng, head, unknowns):
    """A goal that may meet the head: the same name, and arguments with variables for some parts."""
    return pair(head[1], opened(rng, head[2], unknowns, 0.2)) if head[0] == "pair" else head


def some_case(rng, facts, rules, goals, depth, pool, predicates):
    """Facts and rules by chance. Goals of a rule mostly name a predicate that comes before the head's."""
    case, names = Case(rng), ["a", "b", "c", "()"]
    heads = [some_goal(rng, predicates, depth, names, pool) for _ in range(facts)]
    bodies = [[] for _ in heads]
    for _ in range(rules):
        head = some_goal(rng, predicates, depth, names, pool)
        before = {name: predicates[name] for name in predicates if name < head[1][1]} or predicates
        heads.append(head)
        goals_over = [before if rng.random() < 0.9 else predicates for _ in range(rng.randint(1, 3))]
        bodies.append([some_goal(rng, over, 1, names, pool) for over in goals_over])
    order = list(range(len(heads)))
    rng.shuffle(order)
    for index in order:
        case.add(heads[index], bodies[index])
    return case.ask([asked(rng, rng.choice(heads), ["u", "v", "w"]) for _ in range(goals)])


# ── groups ──

PROGRAMS = {
    "append": ["(append () ?x ?x)", "(append (?h . ?t) ?y (?h . ?z)) <- (append ?t ?y ?z)"],
    "member": ["(member ?x (?x . ?t))", "(member ?x (?h . ?t)) <- (member ?x ?t)"],
    "reverse": ["(reverse () ())", "(reverse (?h . ?t) ?r) <- (reverse ?t ?s), (append ?s (?h) ?r)"],
    "turn": ["(turn ?x ?y) <- (onto ?x () ?y)", "(onto () ?a ?a)", "(onto (?h . ?t) ?a ?r) <- (onto ?t (?h . ?a) ?r)"],
    "take": ["(take ?x (?x . ?t) ?t)", "(take ?x (?h . ?t) (?h . ?r)) <- (take ?x ?t ?r)"],
    "order": ["(order () ())", "(order ?x (?h . ?t)) <- (take ?h ?x ?r), (order ?r ?t)"],
    "last": ["(last ?x ?l) <- (append ?f (?x) ?l)"],
    "length": ["(length () z)", "(length (?h . ?t) (s . ?n)) <- (length ?t ?n)"],
    "zip": ["(zip () () ())", "(zip (?x . ?xs) (?y . ?ys) ((?x . ?y) . ?r)) <- (zip ?xs ?ys ?r)"],
    "part": ["(part () ())", "(part (?h . ?t) (?h . ?r)) <- (part ?t ?r)", "(part (?h . ?t) ?r) <- (part ?t ?r)"],
    "plus": ["(plus z ?x ?x)", "(plus (s . ?x) ?y (s . ?z)) <- (plus ?x ?y ?z)"],
    "times": ["(times z ?x z)", "(times (s . ?x) ?y ?z) <- (times ?x ?y ?w), (plus ?w ?y ?z)"],
    "less": ["(less z (s . ?x))", "(less (s . ?x) (s . ?y)) <- (less ?x ?y)"],
    "even": ["(even z)", "(even (s . ?x)) <- (odd ?x)", "(odd (s . ?x)) <- (even ?x)"],
    "half": ["(half z z)", "(half (s . z) z)", "(half (s . (s . ?x)) (s . ?y)) <- (half ?x ?y)"],
    "path": ["(path ?x ?y) <- (edge ?x ?y)", "(path ?x ?y) <- (edge ?x ?z), (path ?z ?y)"],
    "type": [
        "(look ?x ((?x . ?t) . ?e) ?t)",
        "(look ?x (?p . ?e) ?t) <- (look ?x ?e ?t)",
        "(type ?e (v ?x) ?t) <- (look ?x ?e ?t)",
        "(type ?e (do ?f ?a) ?t) <- (type ?e ?f (to ?s ?t)), (type ?e ?a ?s)",
        "(type ?e (by ?x ?b) (to ?s ?t)) <- (type ((?x . ?s) . ?e) ?b ?t)",
    ],
}


def with_programs(rng, *names):
    """A case with these programs in any order; each keeps the order of its own rules, or has it turned round."""
    case = Case(rng)
    for name in rng.sample(names, len(names)):
        rules = PROGRAMS[name]
        # a program whose rules are turned round still ends: its calls go down a closed term
        case.add_all(*(reversed(rules) if rng.random() < 0.2 else rules))
    return case


def facts(rng):
    predicates = {"p": rng.randint(1, 3), "q": rng.randint(0, 2), "r": 2}
    return some_case(rng, rng.randint(1, 10), 0, 1, 2, rng.choice([[], [], ["x", "y"]]), predicates)


def paths(rng, rounds=False):
    """Paths over a graph; it has no circle unless `rounds` allows one."""
    nodes = "abcdefg"[: rng.randint(3, 7)]
    case = Case(rng)
    edges = {(one, two) for one, two in (sorted(rng.sample(nodes, 2)) for _ in range(rng.randint(2, 9)))}
    edges = sorted(edges)
    if rounds:
        edges += [(two, one) for one, two in rng.sample(edges, 1)]
    rng.shuffle(edges)
    rules = [f"(edge {one} {two})" for one, two in edges]
    steps = PROGRAMS["path"] if rng.random() < 0.6 else PROGRAMS["path"][::-1]
    case.add_all(*(rules + steps if rng.random() < 0.5 else steps + rules))
    start, end = rng.choice(nodes), rng.choice(nodes)
    ends = [f"{start} ?x", f"{start} ?x", f"?x {end}", f"{start} {end}", "?x ?y", "?x ?x"]
    return case.ask(f"(path {rng.choice(ends)})")


def counters(rng):
    low, high = numeral(rng.randint(0, 4)), numeral(rng.randint(0, 7))
    small = numeral(rng.randint(0, 3))
    names, goals = rng.choice(
        [
            (["plus"], f"(plus ?x ?y {high})"),
            (["plus"], f"(plus {low} {high} ?z)"),
            (["plus"], f"(plus {low} ?y {high})"),
            (["plus"], f"(plus ?x {low} {high}), (plus ?x ?y {high})"),
            (["plus", "times"], f"(times {small} {low} ?z)"),
            (["less"], f"(less ?x {high})"),
            (["less"], f"(less {low} {high})"),
            (["even"], f"(even {high})"),
            (["less", "even"], f"(less ?x {high}), (even ?x)"),
            (["half"], f"(half {high} ?x)"),
            (["plus", "half"], f"(half {high} ?x), (plus ?x ?x ?y)"),
            (["plus", "less"], f"(plus ?x ?y {high}), (less ?x ?y)"),
        ]
    )
    return with_programs(rng, *names).ask(goals)


def recursion(rng):
    return rng.choice([paths, counters])(rng)


def lists(rng):
    def items(most, names="abc"):
        return [rng.choice(names) for _ in range(rng.randint(0, most))]

    open_items = listed([rng.choice(["a", "b", "?u", "?w"]) for _ in range(rng.randint(0, 5))])
    long, short, pairs = listed(items(6)), listed(items(3)), listed([f"({one} . {rng.choice('abc')})" for one in items(5)])
    names, goals = rng.choice(
        [
            (["append"], f"(append ?x ?y {long})"),
            (["append"], f"(append {long} {short} ?x)"),
            (["append"], f"(append ?x {short} {long})"),
            (["append"], f"(append {short} ?x {long})"),
            (["append"], f"(append ?x (a . ?y) {long})"),
            (["append"], f"(append ?x ?x {long})"),
            (["append"], f"(append {open_items} ?y (a . ?r))"),
            (["append"], f"(append {open_items} ?y {long})"),
            (["append", "last"], f"(last ?x {long})"),
            (["member"], f"(member ?x {long})"),
            (["member"], f"(member a {long})"),
            (["member"], f"(member a {open_items})"),
            (["member"], f"(member (a . ?x) {pairs})"),
            (["member"], f"(member ?x {long}), (member ?x {short})"),
            (["append", "reverse"], f"(reverse {long} ?x)"),
            (["append", "reverse"], f"(reverse {open_items} ?x)"),
            (["append", "reverse"], f"(reverse {short} ?x), (append ?x ?y {long})"),
            (["turn"], f"(turn {open_items} ?x)"),
            (["turn"], f"(turn {long} {long})"),
            (["take"], f"(take ?x {long} ?r)"),
            (["take"], f"(take a ?x {long})"),
            (["take", "order"], f"(order {listed(items(3, 'abcd'))} ?x)"),
            (["length"], f"(length {long} ?n)"),
            (["length"], f"(length ?x {numeral(len(items(5)))})"),
            (["length", "append"], f"(length ?x {numeral(2)}), (append ?x ?y {long})"),
            (["zip"], f"(zip {long} ?y {pairs})"),
            (["zip"], f"(zip ?x ?y {pairs})"),
            (["part"], f"(part {listed(items(4))} ?x)"),
        ]
    )
    return with_programs(rng, *names).ask(goals)


def shared(rng):
    if rng.random() < 0.6:
        pool = rng.choice([["x"], ["x", "y"]])
        return some_case(rng, rng.randint(2, 5), rng.randint(0, 3), rng.randint(1, 2), 2, pool, {"p": 2, "q": 3, "r": 2})
    case = Case(rng).add_all(
        *rng.sample(["(same ?x ?x)", "(same (?x . ?y) (?x . ?y))", "(same a ?x)", "(same ?x b)"], rng.randint(1, 3)),
        *rng.sample(["(swap (?x . ?y) (?y . ?x))", "(swap (?x ?x) ?x)", "(swap ?x (?x ?x))"], rng.randint(1, 3)),
        *rng.sample(
            ["(chain ?x ?z) <- (same ?x ?y), (same ?y ?z)", "(chain ?x ?y) <- (swap ?x ?z), (swap ?z ?y)"], rng.randint(1, 2)
        ),
    )
    return case.ask(
        rng.choice(
            [
                "(same ?x ?y), (swap ?y ?x)",
                "(same ?x ?y), (same ?y ?z)",
                "(same (?x ?y) (?y ?z))",
                "(swap (?x . ?y) (?x . ?y))",
                "(swap ?x ?y), (same ?x (?z . ?z))",
                "(chain ?x (a . ?x))",
                "(chain (?x . a) (b . ?y))",
                "(chain ?x ?y), (same ?x (a . b))",
                "(same ?x (?y . ?z)), (swap ?x ?x)",
            ]
        )
    )


def unknowns(rng):
    case, names = Case(rng), ["a", "b", "()"]
    predicates = {"p": 2, "q": 2, "r": 1}
    heads = [some_goal(rng, predicates, 2, names, ["x", "y", "z"]) for _ in range(rng.randint(1, 4))]
    for head in heads:
        case.add(head, extra=rng.randint(0, 3))
    if rng.random() < 0.7:
        case.add_all("(left ?x ?y) <- (p ?x ?z), (q ?w ?y)", extra=rng.randint(0, 2))
        case.add_all("(left ?x ?x) <- (r ?z)", extra=rng.randint(0, 2))
        goals = rng.choice(["(left ?u ?v)", "(left ?u ?v), (r ?u)", "(left (?u . ?v) ?w)", "(left ?u ?v), (left ?v ?w)"])
        return case.ask(goals, extra=rng.randint(0, 3))
    goals = [opened(rng, rng.choice(heads)[2], ["u", "v", "w", "t"], 0.5) for _ in range(rng.randint(1, 2))]
    names = [rng.choice(heads)[1] for _ in goals]
    return case.ask([pair(name, goal) for name, goal in zip(names, goals)], extra=rng.randint(0, 3))


def conjunctions(rng):
    people = "abcdef"[: rng.randint(3, 6)]
    case, rows = Case(rng), []
    for _ in range(rng.randint(3, 8)):
        rows.append("(parent {} {})".format(*rng.sample(people, 2)))
    for _ in range(rng.randint(1, 4)):
        rows.append(f"(likes {rng.choice(people)} {rng.choice(list(people) + ['?x'])})")
    rows += [
        "(grand ?x ?z) <- (parent ?x ?y), (parent ?y ?z)",
        "(sibling ?x ?y) <- (parent ?p ?x), (parent ?p ?y)",
        "(friend ?x ?y) <- (likes ?x ?y), (likes ?y ?x)",
        "(aunt ?x ?y) <- (parent ?z ?y), (sibling ?x ?z), (likes ?x ?y)",
    ]
    rng.shuffle(rows)
    one = rng.choice(people)
    goals = ["(parent ?x ?y)", "(likes ?y ?z)", "(grand ?x ?z)", "(sibling ?y ?z)", "(friend ?x ?y)"]
    goals += [f"(parent {one} ?y)", f"(aunt ?x {one})", f"(likes ?x {one})"]
    return case.add_all(*rows).ask(", ".join(rng.sample(goals, rng.randint(1, 3))))


def worlds(rng):
    case = rng.choice([facts, recursion, lists, shared, conjunctions])(rng)
    case.worlds = True
    return case


def calls(rng):
    """Goals that are variables, bound or not when their turn comes."""
    case = Case(rng)
    rows = [f"(p {rng.choice('abc')} {rng.choice('abc')})" for _ in range(rng.randint(1, 3))]
    rows += [f"(q {rng.choice('abc')})" for _ in range(rng.randint(1, 3))]
    if rng.random() < 0.35:
        # nothing calls in turn, so that a goal may be anything
        more = ["(r ?x ?x)", "(two ?x) <- (q ?x), (q ?x)", "(with ?x ?y) <- (p ?x ?y)", "yes", "(r ?x . ?y)"]
        rows += rng.sample(more, rng.randint(0, 3))
        rng.shuffle(rows)
        goals = ["?g", "?g, ?h", "?g, ?g", "(p ?x ?y), ?g", "?g, (q ?x)", "?g, (p . ?g)", "(q ?x), (?x . ?y)", "(?f a)"]
        return case.add_all(*rows).ask(rng.choice([*goals, "(?f ?x ?x)"]))
    rows += ["(call ?x) <- ?x", "(and ?x ?y) <- ?x, ?y", "(or ?x ?y) <- ?x", "(or ?x ?y) <- ?y"]
    rows += ["(named m (q a))", "(named n (p ?x ?y))", "(named m (q ?x))", "(named k (r))"][: rng.randint(1, 4)]
    rows += ["(run ?n ?g) <- (named ?n ?g), ?g", "(each () ())", "(each (?g . ?r) (?g . ?s)) <- ?g, (each ?r ?s)"]
    rng.shuffle(rows)
    simple = ["(q a)", "(q ?x)", "(p ?x ?y)", "(p ?y ?x)", "(p a ?y)", "(r ?x)"]

    def goal(depth):
        if depth == 0 or rng.random() < 0.3:
            return rng.choice(simple)
        form = rng.choice(["(call {})", "(and {} {})", "(or {} {})"])
        return form.format(*(goal(depth - 1) for _ in range(form.count("{}"))))

    wide = ["(run ?n ?g)", "(run m ?g)", "(run n (p ?x ?x))", "(each ((q ?x) (p ?x ?y)) ?l)"]
    wide += ["(named ?n ?g), (call ?g)", "(named ?n ?g), ?g"]
    return case.add_all(*rows).ask(rng.choice([goal(3), goal(2), f"(call {goal(2)})", rng.choice(wide), rng.choice(wide)]))


def some_function(rng, size, names):
    """A term for the program `type`: a name that is bound, a function, or a function put to use."""
    roll = rng.random()
    if names and (size == 0 or roll < 0.3):
        return f"(v {rng.choice(names)})"
    if roll < 0.65 or not names:
        name = "xyz"[len(names)] if len(names) < 3 else "w"
        return f"(by {name} {some_function(rng, max(0, size - 1), [*names, name])})"
    return f"(do {some_function(rng, size - 1, names)} {some_function(rng, size - 1, names)})"


def occurs(rng):
    """Cases that the occurs check may decide; whether it does is for the other Prolog to say."""
    roll = rng.random()
    if roll < 0.3:
        # which of some terms is this one, or can be made so?
        pool = ["y", "z"]
        row = lst(*(some_term(rng, 2, ["a", "b"], pool) for _ in range(rng.randint(3, 6))), rest=atom("()"))
        wanted = lst(atom("same"), var("p"), pair(atom("s"), some_term(rng, 1, ["a"], pool)), rest=atom("()"))
        case = with_programs(rng, "member").add_all("(same ?x ?x)")
        return case.ask([lst(atom("member"), var("p"), row, rest=atom("()")), wanted])
    if roll < 0.45:
        return with_programs(rng, "type").ask(f"(type () {some_function(rng, 4, [])} ?t)")
    if roll < 0.7:
        return some_case(rng, rng.randint(1, 4), rng.randint(0, 2), rng.randint(1, 2), 2, ["x", "y"], {"p": 2, "q": 3})
    case = Case(rng).add_all(
        *rng.sample(["(same ?x ?x)", "(next ?x (s . ?x))", "(open (?a . ?t) ?t)", "(gap ?x ?x)", "(two ?x (?x ?x))"], 4),
        "(odd ?x ?y) <- (same ?x (f ?y))",
        "(round ?x ?z) <- (next ?x ?y), (same ?y ?z)",
        "(hole ?x) <- (open ?x ?t), (gap ?x ?t)",
        "(hole (a . ?t)) <- (same ?t a)",
        "(same ?x ?y) <- (two ?x ?y)",
    )
    goals = ["(same ?x (s . ?x))", "(odd ?x ?x)", "(odd ?x ?y)", "(round ?x ?x)", "(round ?x ?y)", "(hole ?x)"]
    goals += ["(same ?y (a . ?x))", "(open (a . ?x) ?x)", "(gap ?x (a . ?x))", "(two ?y ?x)"]
    goals += ["(same (?x . ?y) (?y . (a . ?x)))", "(next ?x ?y)"]
    return case.ask(", ".join(rng.sample(goals, rng.randint(1, 3))))


def mixed(rng):
    predicates = {"p": rng.randint(1, 2), "q": rng.randint(1, 3), "r": rng.randint(0, 2), "s": 2}
    pool = ["x", "y", "z"][: rng.randint(1, 3)]
    return some_case(rng, rng.randint(2, 6), rng.randint(2, 6), rng.randint(1, 3), 2, pool, predicates)


def stops(rng):
    """Searches that go too deep or need too many cells, some after answers."""
    roll = rng.random()
    if roll < 0.25:
        return paths(rng, rounds=True).ask(rng.choice(["(path a z)", "(path z ?x)", "(path ?x z)", "(path b a)"]))
    extra = rng.choice([0, 0, 3, 9, 40, 60])
    case = Case(rng)
    rows = ["(loop ?x) <- (loop (s . ?x))"] if roll < 0.6 else ["(loop (s . ?x)) <- (loop ?x)"]
    more = ["(loop a)", "(loop (s . b))", "(loop c) <- (loop (s . (s . c)))", "(other ?x)", "(other b) <- (loop b)"]
    rows += rng.sample(more, rng.randint(0, 4))
    if roll < 0.8:
        rng.shuffle(rows)
    for row in rows:
        case.add_all(row, extra=rng.randint(extra // 2, extra))
    goals = ["(loop ?x)", "(loop b)", "(loop (s . b))", "(other ?x), (loop ?x)", "(other b)", "(loop ?x), (other ?x)"]
    return case.ask(rng.choice(goals), extra=rng.randint(0, extra))


# ── limits ──


def times(number, goal):
    return ", ".join([goal] * number)


def steps(rng, last):
    """A tree of rules whose branch has 511 steps and then those that the last goal takes."""
    case = Case(rng)
    # 1, 3, 16, 241 and 257 steps
    case.add_all("end", "three <- end, end", f"sixteen <- {times(15, 'end')}", extra=0)
    case.add_all(f"side <- {times(15, 'sixteen')}", f"other <- {times(16, 'sixteen')}", extra=0)
    case.add_all(f"top <- side, other, {times(4, 'three')}, {last}", extra=0)
    return case.ask("top", extra=0)


def deepest(rng):
    return steps(rng, "end")


def too_deep(rng):
    return steps(rng, "three")


def cells(rng, number):
    """So many steps and one, each with 64 variables."""
    case = Case(rng)
    case.add_all("(count (s . ?x)) <- (count ?x)", extra=63)
    case.add_all("(count z)", extra=64)
    return case.ask(f"(count {numeral(number)})", extra=0)


def fullest(rng):
    return cells(rng, 31)


def too_full(rng):
    return cells(rng, 32)


def many_unknowns(rng):
    return cells(rng, rng.randint(5, 8))


def many_rules(rng):
    case = Case(rng).add_all(*(f"({rng.choice('pqr')} . n{rng.randint(1, 60)})" for _ in range(rng.randint(280, 400))))
    one = rng.randint(1, 60)
    return case.ask(f"(p . n{one}), (?y . n{one})")


def most_rules(rng):
    case, atoms = Case(rng), [f"n{number}" for number in range(1000)]
    case.add_all(*(rng.choice(atoms) for _ in range(1024)), extra=0)
    return case.ask(rng.choice(atoms), extra=1)


def most_bytes(rng):
    """Rules and query take 16,384 bytes: a rule has 5, an atom 3, a variable 2 and a pair 1, and the query is (n . ?x)."""
    case, firsts = Case(rng), [f"n{number}" for number in range(40)]

    def row(length, end):
        return f"({' '.join([rng.choice(firsts), *(rng.choice('abcd') for _ in range(length - 1))])} . {end})"

    rows = [row(127, rng.choice("abcd")) for _ in range(29)] + [row(116, "?r"), row(116, "?r"), row(115, "?r")]
    rng.shuffle(rows)
    return case.add_all(*rows, extra=0).ask(f"({rows[0].split(' ')[0][1:]} . ?x)", extra=0)


# a group has a way to make a case, or several in turn
SINGLE = [facts, recursion, lists, shared, unknowns, conjunctions, worlds, calls, occurs, mixed, stops]
GROUPS = {group.__name__: [group] for group in SINGLE}
GROUPS["limits"] = [deepest, too_deep, fullest, too_full, many_unknowns, many_rules, most_rules, most_bytes]
