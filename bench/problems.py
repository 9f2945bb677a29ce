#!/usr/bin/env python3
"""Problems of packages in five versions, as the puzzles that a search is given and as the clauses that a SAT solver is given.

usage: problems.py KIND STEMS SEED NAME [COUNT CHANCE]    writes NAME.puzzle and NAME.cnf

KIND is sat (a solution is planted), pinned (the same, and two packages far from the root that can't stand together) or hard (the
same, and forty packages that exclude one another's versions by chance, near where half of such problems have no solution; COUNT and CHANCE stand for forty and .2).
Each package but the roots may be absent, which is preferred; then the versions follow, the newest first. A version requires one or two
packages at some version or a later one, incorporates one and excludes one at a version.

A puzzle is a line with the limit, a line with the number of candidates of each stem, and for each rule a line with two pairs as
`stem.candidate`, that of the dependency's own candidate first. The clauses have a variable for each candidate: one is chosen for each stem, and a
dependency is one clause, that its own candidate isn't chosen or one that it takes is.
"""
import random, sys

VERSIONS = 5
ROOTS = 10


def main():
    kind, stems, seed, name = sys.argv[1], int(sys.argv[2]), int(sys.argv[3]), sys.argv[4]
    chance = random.Random(seed)
    core = HARD if kind == "hard" else 0
    total = stems
    # by stem: whether it may be absent; candidates are versions, None is absence
    roots = set(range(ROOTS))
    hard = set(range(stems - core, stems))
    candidates = []
    for s in range(stems):
        versions = list(range(VERSIONS, 0, -1))
        candidates.append(versions if s in roots or s in hard else [None] + versions)
    planted = [chance.randint(1, VERSIONS) for s in range(stems)]
    installed = [s in roots or s in hard for s in range(stems)]
    tests = []  # (stem, candidate, other, candidates that it takes)

    def test(s, v, o, takes):
        own = candidates[s].index(v)
        good = [i for i, c in enumerate(candidates[o]) if takes(c)]
        if len(good) < len(candidates[o]):
            tests.append((s, own, o, good))

    plain = stems - core
    for s in range(plain):
        parents = 2
        for v in range(VERSIONS, 0, -1):
            # requires: packages behind it
            for _ in range(chance.randint(1, 2)):
                if s + 1 >= plain:
                    break
                o = chance.randint(s + 1, min(plain - 1, s * 2 + 20))
                at = chance.randint(1, VERSIONS)
                if v == planted[s] and installed[s]:
                    installed[o] = True
                    at = chance.randint(1, planted[o])
                test(s, v, o, lambda c: c is not None and c >= at)
            o = chance.randrange(plain)
            if o != s:
                at = chance.randint(1, VERSIONS)
                if v == planted[s]:
                    at = planted[o]
                test(s, v, o, lambda c: c is None or c == at)
            o = chance.randrange(plain)
            if o != s:
                at = chance.randint(1, VERSIONS)
                if v == planted[s] and at == planted[o]:
                    at = at % VERSIONS + 1
                test(s, v, o, lambda c: c != at)
    if kind == "pinned":
        far = [s for s in range(plain // 2, plain) if installed[s]]
        one = chance.choice(far)
        for root in (0, 1):
            for v in range(VERSIONS, 0, -1):
                if root == 0:
                    test(root, v, one, lambda c: c == 1)
                else:
                    test(root, v, one, lambda c: c is not None and c >= 2)
    core_stems = sorted(hard)
    for i, s in enumerate(core_stems):
        for o in core_stems[i + 1:]:
            if chance.random() < DENSITY:
                for v in range(1, VERSIONS + 1):
                    bad = {w for w in range(1, VERSIONS + 1) if chance.random() < TIGHT}
                    if bad:
                        test(s, v, o, lambda c: c not in bad)
    with open(name + ".puzzle", "w") as out:
        out.write("1000000\n%s\n" % " ".join(str(len(c)) for c in candidates))
        for s, own, o, good in tests:
            for i in range(len(candidates[o])):
                if i not in good:
                    a, b = (s, own), (o, i)
                    out.write("%d.%d %d.%d\n" % (a + b))
    first, count = [], 1
    for c in candidates:
        first.append(count)
        count += len(c)
    clauses = []
    for s, c in enumerate(candidates):
        clauses.append([first[s] + i for i in range(len(c))])
        for i in range(len(c)):
            for j in range(i):
                clauses.append([-first[s] - i, -first[s] - j])
    for s, own, o, good in tests:
        clauses.append([-first[s] - own] + [first[o] + i for i in good])
    with open(name + ".cnf", "w") as out:
        out.write("p cnf %d %d\n" % (count - 1, len(clauses)))
        for clause in clauses:
            out.write(" ".join(map(str, clause)) + " 0\n")


HARD = int(sys.argv[5]) if len(sys.argv) > 5 else 40
DENSITY, TIGHT = 0.35, float(sys.argv[6]) if len(sys.argv) > 6 else 0.2
main()
