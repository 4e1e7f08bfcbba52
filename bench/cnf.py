"""Writes a family of clauses in DIMACS: `cnf.py free|forcing|chain|binary|units|random|threes|pigeons SIZE [SEED]`."""
import random
import sys


def sign(atom):
    return atom if random.random() < 0.5 else -atom


def free(size):
    """So many atoms, in pairs that are not both true: each is a decision that forces nothing."""
    return size, [[-atom, -atom - 1] for atom in range(1, size, 2)]


def forcing(size):
    """So many decisions, each of which forces ten atoms."""
    return 11 * size, [
        [11 * at + 1, 11 * at + 1 + force] for at in range(size) for force in range(1, 11)
    ]


def chain(size):
    """So many atoms, each of which forces the next one where it is false."""
    return size, [[atom, -atom - 1] for atom in range(1, size)]


def binary(size):
    """So many random clauses of two literals over 5/4 as many atoms."""
    atoms = size // 4 * 5
    return atoms, [[sign(atom) for atom in random.sample(range(1, atoms + 1), 2)] for _ in range(size)]


def units(size):
    """So many clauses of one literal, and behind them 1,000 pairs of atoms whose decision is wrong."""
    wrong = [
        [size + 2 * at + 1, sign * (size + 2 * at + 2)] for at in range(1000) for sign in (1, -1)
    ]
    return size + 2000, [[atom] for atom in range(1, size + 1)] + wrong


def random3(size, each=46):
    """Random clauses of three literals over so many atoms, 4.6 for each atom."""
    return size, [
        [sign(atom) for atom in random.sample(range(1, size + 1), 3)] for _ in range(size * each // 10)
    ]


def threes(size):
    """Random clauses of three literals over so many atoms, 4.2 for each atom: about half of them have values."""
    return random3(size, 42)


def pigeons(size):
    """One pigeon more than there are holes."""
    def at(pigeon, hole):
        return pigeon * size + hole + 1

    sits = [[at(pigeon, hole) for hole in range(size)] for pigeon in range(size + 1)]
    alone = [
        [-at(pigeon, hole), -at(other, hole)]
        for hole in range(size)
        for pigeon in range(size + 1)
        for other in range(pigeon)
    ]
    return (size + 1) * size, sits + alone


def main():
    family, size, *seed = sys.argv[1:]
    size = int(size)
    random.seed(int(seed[0]) if seed else 7)
    families = {
        "free": free,
        "forcing": forcing,
        "chain": chain,
        "binary": binary,
        "units": units,
        "random": random3,
        "threes": threes,
        "pigeons": pigeons,
    }
    atoms, clauses = families[family](size)
    print("p cnf", atoms, len(clauses))
    for clause in clauses:
        print(*clause, 0)


main()
