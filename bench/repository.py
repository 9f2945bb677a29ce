#!/usr/bin/env python3
"""A repository of packages in five versions with a planted selection, for requests of the program.

usage: repository.py STEMS SEED FOLDER [pinned]    then: install p00000 p00001 .. p00009

Pinned: two of the ten want one far package at versions that exclude each other, so there is no selection.

As `problems.py sat`, but an exclusion takes what is later than its version too, as `depend type=exclude` means it.
"""
import json, os, random, sys

VERSIONS = 5
ROOTS = 10


def write(path, content):
    os.makedirs(os.path.dirname(path), exist_ok=True)
    with open(path, "w") as file:
        file.write(content)


def main():
    stems, seed, folder = int(sys.argv[1]), int(sys.argv[2]), sys.argv[3]
    pinned = sys.argv[4:] == ["pinned"]
    chance = random.Random(seed)
    names = ["p%05d" % s for s in range(stems)]
    planted = [chance.randint(1, VERSIONS) for s in range(stems)]
    installed = [s < ROOTS for s in range(stems)]
    write(folder + "/pkg5.repository", "[repository]\nversion = 4\n")
    catalog = {name: [{"version": str(v)} for v in range(1, VERSIONS + 1)] for name in names}
    write(folder + "/publisher/test/catalog/catalog.base.C", json.dumps({"test": catalog}))
    for s in range(stems):
        for v in range(1, VERSIONS + 1):
            lines = []

            def depend(kind, o, at):
                lines.append("depend fmri=%s@%d type=%s\n" % (names[o], at, kind))

            for _ in range(chance.randint(1, 2)):
                if s + 1 < stems:
                    o = chance.randint(s + 1, min(stems - 1, s * 2 + 20))
                    at = chance.randint(1, VERSIONS)
                    if v == planted[s] and installed[s]:
                        installed[o] = True
                        at = chance.randint(1, planted[o])
                    depend("require", o, at)
            o = chance.randrange(stems)
            if o != s:
                depend("incorporate", o, planted[o] if v == planted[s] else chance.randint(1, VERSIONS))
            o = chance.randrange(stems)
            if o != s and not (v == planted[s] and planted[o] == VERSIONS):
                depend("exclude", o, chance.randint(planted[o] + 1 if v == planted[s] else 1, VERSIONS))
            if pinned and s == 0:
                depend("require", stems * 3 // 4, 1)
                depend("incorporate", stems * 3 // 4, 1)
            if pinned and s == 1:
                depend("require", stems * 3 // 4, 2)
            write("%s/publisher/test/pkg/%s/%d" % (folder, names[s], v), "".join(lines) or "set name=a value=b\n")


main()
