#!/usr/bin/env python3
"""The records of an image of a given size, as a host has them, for the measurement of what loads them.

usage: records.py FORMAT PACKAGES FOLDER [index] [hashes]

Each package has a manifest of 50 lines, some 6,000 bytes: 6 set, 8 depend, 12 dir, 20 file and 4 link. FORMAT is 1 or 2. With the
word index the image keeps the search index too, and with the word hashes each file has two content hashes more (SHA-512/256), as
newer repositories give them. The number of bytes of all records is printed.
"""
import hashlib, os, string, sys

PLAIN = set(string.ascii_letters + string.digits + "_.-")
KINDS = ["library", "system/header", "developer/build", "driver/network", "text/font"]
VERSION = "5.11-2024.0.0.%d:20240307T101112Z"


def quoted(text):
    return "".join(c if c in PLAIN else "".join("%%%02X" % b for b in c.encode()) for c in text)


def digest(*words):
    return hashlib.sha1(" ".join(map(str, words)).encode()).hexdigest()


def stem(n):
    return "%s/name%05d" % (KINDS[n % len(KINDS)], n)


def content_hashes(*words):
    """The content hashes of a file, as attributes."""
    long = hashlib.sha256(" ".join(map(str, words)).encode()).hexdigest()
    values = ["file:sha512t_256:" + long, "gzip:sha512t_256:" + long[::-1]]
    return "".join(" pkg.content-hash=" + value for value in values)


def actions(n, packages):
    """The lines of a manifest, and the rows of an index: token, index, kind, value."""
    at = "usr/share/name%05d" % n
    sets = [
        ("pkg.fmri", "pkg://test/%s@%s" % (stem(n), VERSION % (n % 9))),
        ("pkg.summary", "What the package name%05d is about" % n),
        ("pkg.description", "The package name%05d has some words on what it does, and for whom it is." % n),
        ("info.classification", "org.opensolaris.category.2008:System/Libraries"),
        ("info.upstream-url", "https://example.org/name%05d/" % n),
        ("variant.arch", "i386"),
    ]
    for name, value in sets:
        shown = '"%s"' % value if " " in value else value
        yield "set name=%s value=%s" % (name, shown), [(name, "name", "set", name), (value, "value", "set", value)]
    for k in range(8):
        o = (n * 7 + k * 131 + 1) % packages
        fmri = "pkg:/%s@5.11-2024.0.0.0" % stem(o)
        yield "depend fmri=%s type=require" % fmri, [(fmri, "fmri", "depend", fmri)]
    for k in range(12):
        path = "%s/part%d" % (at, k) if k else at
        yield "dir group=sys mode=0755 owner=root path=%s" % path, rows("dir", path)
    for k in range(20):
        path = "%s/part%d/file%03d.h" % (at, k % 12, k)
        name = digest("payload", n, k)
        more = content_hashes(n, k) if "hashes" in sys.argv[4:] else ""
        line = "file %s chash=%s group=bin mode=0444 owner=root path=%s%s pkg.csize=%d pkg.size=%d"
        yield line % (name, digest("packed", n, k), path, more, 700 + k * 31, 1900 + k * 97), rows("file", path) + [(name, "payload", "file", name)]
    for k in range(4):
        path = "%s/part%d/name.%d" % (at, k, k)
        yield "link path=%s target=file%03d.h" % (path, k), rows("link", path)


def rows(kind, path):
    return [(path, "path", kind, path), (path.rsplit("/", 1)[1], "path", kind, path)]


def main():
    image, packages, folder = sys.argv[1], int(sys.argv[2]), sys.argv[3]
    total = 0

    def write(path, text):
        nonlocal total
        path = os.path.join(folder, "var/pkg", path)
        os.makedirs(os.path.dirname(path), exist_ok=True)
        with open(path, "w") as file:
            file.write(text)
        total += len(text)

    os.makedirs(os.path.join(folder, "var/pkg", "manifests" if image == "1" else "packages"), exist_ok=True)
    origin = "" if image == "1" else "origin test sticky\n"
    write("image", "image %s\npublisher test\n%svariant arch i386\nfacet doc.man true\n" % (image, origin))
    stems = sorted((stem(n), n) for n in range(packages))
    if image == "1":
        write("installed", "".join("%s@%s\n" % (s, VERSION % (n % 9)) for s, n in stems))
    index = set()
    for s, n in stems:
        lines = []
        for line, found in actions(n, packages):
            lines.append(line + "\n")
            index.update(row + (s,) for row in found if "index" in sys.argv[4:])
        if image == "1":
            write("manifests/" + quoted(s), "".join(lines))
        else:
            write("packages/" + quoted(s), "package 2\nversion %s\n%s" % (VERSION % (n % 9), "".join(lines)))
    write("avoid", "".join(s + "\n" for s, n in stems[::100]))
    write("freeze", "".join("%s@%s\n" % (s, VERSION % (n % 9)) for s, n in stems[::50]))
    write("mediators", "".join("name%02d %d -\n" % (k, k + 1) for k in range(20)))
    write("history", "".join("20240307T101112Z install name%05d\n" % k for k in range(min(packages, 1000))))
    if "index" in sys.argv[4:]:
        written = ("%s %s %s %s %s\n" % (quoted(t), i, k, quoted(v), s) for t, i, k, v, s in sorted(index))
        write("index", "index 1\n" + "".join(written))
    print(total)


main()
