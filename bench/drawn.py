"""Random diagrams: small ones, nearly all of which the grammar and the limits allow, and large ones, which all do."""

from math import prod

# The agents of a diagram, as many as it has; a decision or a utility without one belongs to the last name here.
AGENTS = ["A", "B", "C", "agent"]

# What numbers of a table are mostly, and sometimes.
WEIGHTS = [["0", "1", "1", "1", "2", "3"], ["0.25", "0.5", ".75", "1e-1", "7", "12", "1000003"]]
VALUES = [["0", "1", "2", "-1", "5", "10"], ["0.5", "-2.25", "3e2", "-1e-3", "100", "123456789"]]


def numbers(chance, kinds, count):
    usual, strange = kinds
    return [chance.choice(strange if chance.random() < 0.1 else usual) for _ in range(count)]


def owners(chance, is_utility):
    """The attribute that names whose the node is."""
    if chance.random() < 0.1:
        return ""
    if is_utility and chance.random() < 0.2:
        shared = chance.sample(AGENTS[:3], chance.choice([2, 3]))
        return " agents = (" + " ".join(f'"{agent}"' for agent in shared) + ");"
    return f' agent = "{chance.choice(AGENTS[:chance.choice([1, 2, 3])])}";'


def row(chance, states):
    """The weights of a row, which are not all nought but rarely."""
    weights = numbers(chance, WEIGHTS, states)
    if chance.random() > 0.01:
        weights[chance.randrange(states)] = "1"
    return weights


def drawn(chance):
    """The text of a random diagram of two to ten nodes, whose blocks stand in any order."""
    blocks, potentials, states = [], [], {}
    alone = chance.random() < 0.4
    for number in range(chance.randrange(2, 11)):
        name = f"{chance.choice('XYZ')}{number}"
        kind = chance.choice(["node", "node", "decision", "decision", "decision", "utility", "utility"])
        parents = chance.sample(sorted(states), min(len(states), chance.choice([0, 1, 1, 2, 2, 3])))
        rows = prod(states[parent] for parent in parents)
        owner = "" if kind == "node" else ' agent = "A";' if alone else owners(chance, kind == "utility")
        behind = "".join(f" {parent}" for parent in parents)
        head = f"{name} |{behind}" if parents else name
        data = ""
        if kind != "utility":
            states[name] = chance.choice([1, 2, 2, 2, 2, 3])
            owner += " states = (" + " ".join(f'"{state}"' for state in range(states[name])) + ");"
        if kind == "node":
            data = " ".join(weight for _ in range(rows) for weight in row(chance, states[name]))
        if kind == "utility":
            data = " ".join(numbers(chance, VALUES, rows))
        blocks.append(f"{kind} {name} {{{owner} }}\n")
        potentials.append(f"potential ({head}) {{" + (f" data = ({data});" if data else "") + " }\n")
    texts = [*zip(blocks, potentials)]
    chance.shuffle(texts)
    return "".join([block for block, _ in texts] + [potential for _, potential in texts]).encode()


def even_row(chance, states):
    """Weights that add up to four."""
    weights = [0] * states
    for _ in range(4):
        weights[chance.randrange(states)] += 1
    return weights


def large(chance):
    """The text of a random diagram of 30 to 150 nodes in their order and a few utilities, of one to three owners."""
    count, agents = chance.choice([30, 60, 100, 150]), chance.choice([1, 1, 2, 3])
    most, reach = chance.choice([2, 3, 5]), chance.choice([5, 10, 150])
    decisions = chance.choice([0.1, 0.3, 0.5])
    blocks, potentials, states = [], [], []

    def add(kind, name, parents, table):
        owner = f' agent = "{AGENTS[chance.randrange(agents)]}";' if kind != "node" else ""
        labels = "".join(f' "{state}"' for state in range(states[-1])) if kind != "utility" else ""
        blocks.append(f"{kind} {name} {{{owner}" + (f" states = ({labels[1:]});" if labels else "") + " }\n")
        head = f"{name} |" + "".join(f" N{parent}" for parent in parents) if parents else name
        data = " ".join(str(number) for number in table)
        potentials.append(f"potential ({head}) {{" + (f" data = ({data});" if data else "") + " }\n")

    for node in range(count):
        nearest = range(max(0, node - reach), node)
        parents = sorted(chance.sample(nearest, min(len(nearest), chance.randint(0, most))))
        rows = prod(states[parent] for parent in parents)
        states.append(chance.choice([2, 2, 3]))
        if chance.random() < decisions:
            add("decision", f"N{node}", parents, [])
        else:
            add("node", f"N{node}", parents, [weight for _ in range(rows) for weight in even_row(chance, states[-1])])
    for utility in range(chance.choice([5, 20, 50])):
        parents = sorted(chance.sample(range(count), chance.randint(1, 3)))
        rows = prod(states[parent] for parent in parents)
        add("utility", f"U{utility}", parents, [chance.randint(-9, 9) for _ in range(rows)])
    return "".join(blocks + potentials).encode()
