# Many packages with shared contents, published one after the other, some runs of it killed before a call and given again: publishing.py PROGRAM FOLDER N.
# Where what is killed is the program that syncs, the answer is a fault. What stands in the repository then is read here by the rules of docs/FORMATS.md alone. tests/publish plays it. It needs python3, and strace to kill before a call;
# without it a run is killed after a while.
import hashlib, json, os, random, re, shutil, subprocess, sys, time

program, room, count = sys.argv[1], sys.argv[2], int(sys.argv[3])
repository, proto = os.path.join(room, "repository"), os.path.join(room, "proto")
strace = shutil.which("strace")
chance = random.Random(7)
passed, failed = 0, 0


def check(what, holds):
    global passed, failed
    if holds:
        passed += 1
    else:
        failed += 1
        print("FAILED: %s" % what)


# ---- a reader of a repository
def logical_lines(text):
    """The lines of a manifest, with those that go on joined, without comments."""
    lines, open_line = [], ""
    for line in text.split("\n"):
        if line.endswith("\\"):
            open_line += line[:-1]
            continue
        lines.append(open_line + line)
        open_line = ""
    return [line for line in lines + [open_line] if line.strip(" \t") and not line.lstrip(" \t").startswith("#")]


def words_of(line):
    """The words of a line, where a value in quotes may have blanks."""
    words, rest = [], line.strip(" \t")
    while rest:
        it = re.match(r"""(?:[^\s"'=]+=)(?:"(?:\\.|[^"\\])*"|'(?:\\.|[^'\\])*')|[^ \t]+""", rest)
        words.append(it.group(0))
        rest = rest[it.end():].lstrip(" \t")
    return words


def attribute(word):
    key, _, value = word.partition("=")
    if value[:1] in "\"'" and value:
        value = re.sub(r"\\([\\%s])" % value[0], r"\1", value[1:-1])
    return key, value


def action(line):
    name, *rest = words_of(line)
    payload = rest.pop(0) if rest and "=" not in rest[0] else None
    return name, payload, [attribute(word) for word in rest]


def quoted(text):
    return "".join(chr(b) if chr(b).isalnum() and b < 128 or chr(b) in "_.-" else "%%%02X" % b for b in text.encode())


def order(version):
    it = re.fullmatch(r"([0-9.]+)(?:,([0-9.]+))?(?:-([0-9.]+))?(?::(\d{8}T\d{6}Z))?", version)
    numbers = lambda text: [] if text is None else [[int(n) for n in text.split(".")]]
    return numbers(it.group(1)), numbers(it.group(3)), [] if it.group(4) is None else [it.group(4)], numbers(it.group(2))


def read(publisher):
    """The packages of the publisher: for each stem and version its actions. What isn't as it should be is told."""
    at = os.path.join(repository, "publisher", publisher)
    with open(os.path.join(repository, "pkg5.repository")) as text:
        check("the mark", any(re.sub(r"[ \t]", "", line) == "version=4" for line in text.read().split("\n")))
    with open(os.path.join(at, "catalog", "catalog.base.C"), "rb") as text:
        bytes_of = text.read()
    pairs = json.loads(bytes_of.decode("utf-8"), object_pairs_hook=list)
    check("the catalog has one key", [key for key, _ in pairs] == [publisher])
    stems = pairs[0][1]
    check("its stems stand by bytes, each once", [key for key, _ in stems] == sorted({key for key, _ in stems}, key=str.encode))
    found = {}
    for stem, entries in stems:
        check("a version and nothing else in the entries of %s" % stem, all([key for key, _ in entry] == ["version"] for entry in entries))
        versions = [entry[0][1] for entry in entries]
        check("the versions of %s ascend" % stem, all(order(a) < order(b) for a, b in zip(versions, versions[1:])) and len(versions) > 0)
        for version in versions:
            with open(os.path.join(at, "pkg", quoted(stem), quoted(version)), "rb") as text:
                found[stem, version] = [action(line) for line in logical_lines(text.read().decode("utf-8"))]
    same = json.dumps({publisher: dict((stem, [dict(entry) for entry in entries]) for stem, entries in stems)}, separators=(",", ":"))
    check("the catalog has no blanks", same.encode() == bytes_of)
    return found


def intact(publisher, name):
    path = os.path.join(repository, "publisher", publisher, "file", name[:2], name)
    if not os.path.isfile(path):
        return False
    with open(path, "rb") as text:
        return hashlib.sha1(text.read()).hexdigest() == name


# ---- the packages
contents = ["content %d\n" % n * (1 + n % 50) for n in range(40)]


def write(path, text):
    os.makedirs(os.path.dirname(path), exist_ok=True)
    with open(path, "w") as out:
        out.write(text)


def package(number):
    """The stem, the version and the files of a package, and its manifest in the folder of what is published."""
    stem, version = "lib/p%d" % (number % 120), "1.%d" % (number // 120)
    files = {"usr/lib/p%d/f%d" % (number % 120, n): contents[(number * 7 + n * 3 + number // 120) % len(contents)] for n in range(1 + number % 4)}
    lines = ["dir path=usr owner=root group=bin mode=0755", "dir path=usr/lib owner=root group=bin mode=0755",
             "dir path=usr/lib/p%d owner=root group=bin mode=0755" % (number % 120)]
    for n, (path, text) in enumerate(files.items()):
        write(os.path.join(proto, "%d" % number, path), text)
        word = "%d/%s" % (number, path)
        lines.append("file %s path=%s owner=root group=bin mode=0644" % (word, path))
    write(os.path.join(proto, "m%d" % number), "\n".join(lines) + "\n")
    return stem, version, files


def run(words, wrap=()):
    it = subprocess.run([*wrap, program, *words], stdin=subprocess.DEVNULL, stdout=subprocess.PIPE, stderr=subprocess.PIPE, text=True, timeout=120)
    return it.returncode, it.stdout, it.stderr


def send(*words, wrap=()):
    return run(["send", "-s", repository, "-d", proto, *words], wrap)


# ---- what may change something, each with how often it is called in one publication
changing = ("openat", "write", "mkdir", "mkdirat", "unlink", "unlinkat", "rename", "link", "linkat", "chmod", "fchmod", "fchmodat", "symlink", "rmdir", "vfork", "clone", "clone3", "exit_group")


def counted(words):
    log = os.path.join(room, "log")
    status, out, err = send(*words, wrap=(strace, "-f", "-qq", "-o", log, "-e", "trace=all"))
    counts = {}
    with open(log, errors="replace") as text:
        for line in text:
            it = re.match(r"\d+ +(\w+)\(", line)
            if it and it.group(1) in changing:
                counts[it.group(1)] = counts.get(it.group(1), 0) + 1
    return status, out, counts


def kill_within(words, counts):
    """Gives the words, and kills the run before one of its calls, or after a while."""
    if strace and counts:
        calls = [(name, n) for name in counts for n in range(1, counts[name] + 1)]
        name, n = calls[chance.randrange(len(calls))]
        status, out, err = send(*words, wrap=(strace, "-f", "-qq", "-o", "/dev/null", "-e", "trace=%s" % name, "-e", "inject=%s:signal=KILL:when=%d" % (name, n)))
        return status, out, "%s %d" % (name, n)
    it = subprocess.Popen([program, "send", "-s", repository, "-d", proto, *words], stdin=subprocess.DEVNULL, stdout=subprocess.PIPE, stderr=subprocess.PIPE, text=True)
    time.sleep(chance.random() * 0.05)
    it.kill()
    out, err = it.communicate()
    return it.returncode, out, "after a while"


os.makedirs(repository)
os.makedirs(proto)
check("create", send("create", "test")[:2] == (0, "created test\n"))
counts, published, kills, stopped = {}, {}, 0, 0
for number in range(count):
    stem, version, files = package(number)
    name = "pkg://test/%s@%s,5.11-1:20240102T030405Z" % (stem, version)
    words = ("publish", name, "m%d" % number)
    listed = (0, "published %s\n" % name)
    if strace and number == 0:
        status, out, counts = counted(words)
        check("the first package: %d %s" % (status, out), (status, out) == listed)
    elif number % 3:
        status, out, _ = send(*words)
        check("package %d: %d %s" % (number, status, out), (status, out) == listed)
    else:
        # Up to three stops, each behind the one before, and then it is given to its end.
        for _ in range(chance.randrange(1, 4)):
            kills += 1
            status, out, where = kill_within(words, counts)
            if status in (-9, 137):
                stopped += 1
            elif (status, out) not in (listed, (1, "exists\n"), (1, "folder fault: unchanged\n"), (1, "folder fault: unfinished\n")):
                check("package %d, to be killed before %s: %d %s" % (number, where, status, out), False)
        status, out, err = send(*words)
        check("package %d behind a stop: %d %s %s" % (number, status, out, err), (status, out) in (listed, (1, "exists\n")))
    published[stem, "%s,5.11-1:20240102T030405Z" % version] = (name, files)
check("runs were killed: %d of %d" % (stopped, kills), stopped > 0)

found = read("test")
check("what is listed is what was published", set(found) == set(published))
for key, (name, files) in published.items():
    actions = found.get(key, [])
    check("%s tells its name first" % name, actions[:1] == [("set", None, [("name", "pkg.fmri"), ("value", name)])])
    here = {dict(attributes)["path"]: payload for kind, payload, attributes in actions if kind == "file"}
    check("%s has its files by their SHA-1" % name, here == {path: hashlib.sha1(text.encode()).hexdigest() for path, text in files.items()})
    check("%s has its contents" % name, all(intact("test", payload) for payload in here.values()))
left = [name for name in os.listdir(os.path.join(repository, "var", "pkg"))]
check("nothing is left of the updater's own: %s" % left, left == [])
print("%d publications, %d runs killed, %d packages read" % (count, stopped, len(found)))
print("%d passed, %d failed" % (passed, failed))
sys.exit(1 if failed else 0)
