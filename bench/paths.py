#!/usr/bin/env python3
"""A repository of packages that deliver many paths, for the measurement of a request's plan.

usage: paths.py PACKAGES PATHS FOLDER       then: install '*'

Each package delivers PATHS paths: a directory of its own, a directory for every 10 of its other paths, and in it 8 files and a symbolic link. All
files have one content, so that the repository is small.
"""
import hashlib, json, os, sys

CONTENT = b"content\n"


def write(path, content):
    os.makedirs(os.path.dirname(path), exist_ok=True)
    with open(path, "wb") as file:
        file.write(content)


def lines(n, paths, name):
    owned = "group=bin mode=%s owner=root path=%s"
    top = "opt/p%05d" % n
    yield "dir " + owned % ("0755", top)
    for k in range(paths - 1):
        place, turn = "%s/d%05d" % (top, k // 10), k % 10
        if turn == 0:
            yield "dir " + owned % ("0755", place)
        elif turn == 9:
            yield "link path=%s/link target=file1" % place
        else:
            yield "file %s " % name + owned % ("0644", "%s/file%d" % (place, turn))


def main():
    packages, paths, folder = int(sys.argv[1]), int(sys.argv[2]), sys.argv[3]
    name = hashlib.sha1(CONTENT).hexdigest()
    stems = ["p%05d" % n for n in range(packages)]
    write(folder + "/pkg5.repository", b"[repository]\nversion = 4\n")
    catalog = {stem: [{"version": "1"}] for stem in stems}
    write(folder + "/publisher/test/catalog/catalog.base.C", json.dumps({"test": catalog}).encode())
    write("%s/publisher/test/file/%s/%s" % (folder, name[:2], name), CONTENT)
    for n, stem in enumerate(stems):
        write("%s/publisher/test/pkg/%s/1" % (folder, stem), "".join(line + "\n" for line in lines(n, paths, name)).encode())


main()
