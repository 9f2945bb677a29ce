# What tests/kills and tests/failing-calls share: a small repository, some requests with the images before and behind them, the tree of an image as it
# is seen, and the program's system calls by strace. It needs python3, strace and cp; TMPDIR=/dev/shm makes it fast.
import atexit, ctypes, hashlib, json, os, re, shutil, signal, stat, subprocess, sys, tempfile, threading

sys.dont_write_bytecode = True


def quit_with(words):
    print(words, file=sys.stderr)
    sys.exit(2)


def arguments(script):
    """The program, and the options: how many calls of a request are tried, how many runs go at once, the seed, and names of requests."""
    words, found = sys.argv[1:], {"most": None, "jobs": max(1, (os.cpu_count() or 2) // 2), "seed": 1, "only": None}
    usage = "usage: %s PROGRAM [--most N] [--jobs N] [--seed N] [--only REQUEST,..]" % script
    if not words or not os.access(words[0], os.X_OK) or os.path.isdir(words[0]):
        quit_with(usage)
    program = os.path.abspath(words[0])
    words = words[1:]
    while words:
        key = words[0][2:]
        if len(words) < 2 or words[0][:2] != "--" or key not in found or (key != "only" and not words[1].isdigit()):
            quit_with(usage)
        found[key] = words[1].split(",") if key == "only" else int(words[1])
        words = words[2:]
    if not shutil.which("strace"):
        quit_with("%s: strace is missing" % script)
    if os.geteuid() != 0:
        print("not root: modes of the trees may hinder some runs")
    for name in ("PKG_IMAGE", "PKG_REPOSITORY", "PKG_UNPROVED", "DESTDIR"):
        os.environ.pop(name, None)
    os.environ["LC_ALL"] = "C"
    os.umask(0o022)
    return program, found


# ---- a repository
class Repository:
    def __init__(self, folder):
        self.folder, self.catalog = folder, {}
        self.publisher = os.path.join(folder, "publisher", "test")
        for name in ("catalog", "file", "pkg"):
            os.makedirs(os.path.join(self.publisher, name))
        with open(os.path.join(folder, "pkg5.repository"), "w") as out:
            out.write("[repository]\nversion = 4\n")

    def payload(self, text):
        data = text.encode()
        name = hashlib.sha1(data).hexdigest()
        folder = os.path.join(self.publisher, "file", name[:2])
        os.makedirs(folder, exist_ok=True)
        with open(os.path.join(folder, name), "wb") as out:
            out.write(data)
        return name

    def package(self, stem, version, lines):
        folder = os.path.join(self.publisher, "pkg", stem.replace("/", "%2F"))
        os.makedirs(folder, exist_ok=True)
        with open(os.path.join(folder, version), "w") as out:
            out.write("".join(line + "\n" for line in lines))
        self.catalog.setdefault(stem, []).append({"version": version})
        with open(os.path.join(self.publisher, "catalog", "catalog.base.C"), "w") as out:
            json.dump({"test": self.catalog}, out)

    def file(self, path, text, mode="0644", more=""):
        return "file %s path=%s mode=%s owner=root group=bin%s" % (self.payload(text), path, mode, " " + more if more else "")


def directory(path, mode="0755"):
    return "dir path=%s mode=%s owner=root group=bin" % (path, mode)


def new_repository(folder, large):
    it = Repository(folder)
    it.package("app", "1.0", [
        directory("opt/app"), directory("opt/app/bin", "0750"), directory("opt/app/data", "0700"), directory("opt/app/turns"),
        it.file("opt/app/bin/run", "run one\n", "0755"), it.file("opt/app/bin/set", "set id\n", "4755"), it.file("opt/app/empty", ""),
        it.file("opt/app/long", "a long content\n" * 700),
        it.file("opt/app/true", "true one\n", "0644", "preserve=true"), it.file("opt/app/old", "old one\n", "0644", "preserve=renameold"),
        it.file("opt/app/new", "new one\n", "0640", "preserve=renamenew"), it.file("opt/app/only", "only\n", "0644", "preserve=install-only"),
        it.file("opt/app/abandon", "abandon\n", "0644", "preserve=abandon"), it.file("opt/app/turns/file", "in a folder\n"),
        it.file("opt/app/goes", "goes\n", "0600"), it.file("opt/app/becomes", "a file\n"),
        it.file("opt/app/doc", "doc\n", "0644", "facet.doc=true"), it.file("opt/app/page", "page\n", "0444", "facet.doc.man=true"),
        it.file("opt/app/i386", "i386\n", "0755", "variant.arch=i386"), it.file("opt/app/sparc", "sparc\n", "0755", "variant.arch=sparc"),
        "link path=opt/app/latest target=bin/run", "link path=opt/app/nowhere target=../../../nothing/at/all",
        "hardlink path=opt/app/again target=bin/run", "hardlink path=opt/app/bin/third target=run",
        "link path=usr/bin/tool target=tool1 mediator=tool mediator-version=1",
        "link path=usr/bin/tool target=tool2 mediator=tool mediator-version=2",
        "hardlink path=usr/bin/which target=../../opt/app/goes mediator=tool mediator-version=1",
        "user username=app group=app uid=70", "group groupname=app gid=70",
        "license %s license=GPL" % it.payload("license one\n"), "driver name=disk perms=\"* 0666 root sys\"",
        "legacy pkg=SUNWapp name=app version=1.0", "set name=pkg.summary value=\"an application\""])
    it.package("app", "2.0", [
        directory("opt/app"), directory("opt/app/bin"), directory("opt/app/becomes", "0711"), it.file("opt/app/becomes/below", "below\n"),
        it.file("opt/app/bin/run", "run two\n", "0755"), it.file("opt/app/bin/set", "set id\n", "0755"), it.file("opt/app/empty", "no more\n"),
        it.file("opt/app/long", "another long content\n" * 900),
        it.file("opt/app/true", "true two\n", "0644", "preserve=true"), it.file("opt/app/old", "old two\n", "0644", "preserve=renameold"),
        it.file("opt/app/new", "new two\n", "0600", "preserve=renamenew"), it.file("opt/app/abandon", "abandon two\n", "0644", "preserve=abandon"),
        "link path=opt/app/turns target=bin", "link path=opt/app/latest target=bin/set", "hardlink path=opt/app/again target=bin/set",
        "hardlink path=opt/app/bin/third target=run", "user username=app group=app uid=71", "group groupname=app gid=70",
        "license %s license=GPL" % it.payload("license two\n"), "driver name=disk perms=\"* 0600 root sys\""])
    it.package("lib/small", "1.0", [directory("usr/lib/small"), it.file("usr/lib/small/one", "small\n"), "depend fmri=lib/base type=require"])
    it.package("lib/base", "1.0", [it.file("usr/lib/base", "base\n")])
    it.package("served", "1.0", [it.file("etc/served", "served\n", "0644", "restart_fmri=svc:/served:default disable_fmri=svc:/served:old")])
    it.package("served", "2.0", [it.file("etc/served", "served two\n", "0644", "restart_fmri=svc:/served:default suspend_fmri=svc:/served:x")])
    it.package("large", "1.0", [directory("large")] + [it.file("large/%04d" % n, "one of many\n") for n in range(large)])
    it.package("large", "2.0", [directory("large")] + [it.file("large/%04d" % n, "two of many\n") for n in range(0, large, 2)])
    return it


# ---- the image as it is seen
own = ("stage", "journal", "gate")
moment = re.compile(rb"^\d{8}T\d{6}Z ", re.M)
place = re.compile(r"^(var/pkg/lost\+found/)\d{8}T\d{6}Z(\.\d+)?")


def is_own(path):
    name = path[8:].split("/")[0] if path.startswith("var/pkg/") else ""
    return name in own or name.startswith("done.")


def tree(image):
    """What is seen: for each path its kind, mode, and bytes or target, and for a file the names that share its node. Moments are taken out."""
    found, nodes = {}, {}

    def walk(folder, before):
        for name in sorted(os.listdir(folder)):
            path, full = before + name, os.path.join(folder, name)
            if is_own(path):
                continue
            it, shown = os.lstat(full), place.sub(r"\1T", path)
            mode = stat.S_IMODE(it.st_mode)
            if stat.S_ISDIR(it.st_mode):
                found[shown] = ("directory", mode)
                walk(full, path + "/")
            elif stat.S_ISREG(it.st_mode):
                with open(full, "rb") as text:
                    data = text.read()
                if path == "var/pkg/history":
                    data = moment.sub(b"T ", data)
                found[shown] = ("file", mode, data)
                nodes.setdefault(it.st_ino, []).append(shown)
            elif stat.S_ISLNK(it.st_mode):
                found[shown] = ("link", os.readlink(full))
            else:
                found[shown] = ("other", it.st_mode)

    walk(image, "")
    for names in nodes.values():
        for name in names:
            found[name] += (tuple(sorted(names)),)
    found[""] = ("directory", stat.S_IMODE(os.lstat(image).st_mode))
    return found


def differences(one, two):
    def short(it):
        return "nothing" if it is None else str(tuple(x if not isinstance(x, bytes) or len(x) < 60 else x[:60] + b".." for x in it))
    return ["%s: %s, wanted %s" % (path, short(one.get(path)), short(two.get(path))) for path in sorted(set(one) | set(two))
            if one.get(path) != two.get(path)]


def leftovers(image):
    folder = os.path.join(image, "var/pkg")
    return [name for name in (os.listdir(folder) if os.path.isdir(folder) else []) if is_own("var/pkg/" + name)]


def gate_stands(image):
    return os.path.lexists(os.path.join(image, "var/pkg/gate"))


def pending(image):
    return "open" if gate_stands(image) else "left" if leftovers(image) else "none"


def closed(calls, image):
    """Whether the gate was taken away by these calls."""
    return any(it.name in ("unlink", "unlinkat") and it.path == os.path.join(image, "var/pkg/gate") and it.text.endswith(" = 0") for it in calls)


def copy(image, to):
    if os.path.lexists(to):
        shutil.rmtree(to)
    subprocess.run(["cp", "-a", image, to], check=True)


# ---- the program and its calls
changing = ("openat", "open", "creat", "mkdir", "mkdirat", "write", "pwrite64", "writev", "copy_file_range", "sendfile", "truncate", "ftruncate",
            "symlink", "symlinkat", "link", "linkat", "unlink", "unlinkat", "rmdir", "rename", "renameat", "renameat2", "chmod", "fchmod", "fchmodat",
            "fsync", "fdatasync", "sync", "syncfs", "fallocate", "mknod", "mknodat", "utimensat", "fchownat", "fchown", "chown", "lchown")
spawning = ("clone3", "clone", "vfork", "fork", "wait4", "waitid")
looking = ("statx", "stat", "lstat", "newfstatat", "fstat", "getdents64", "read", "pread64", "readv", "readlink", "readlinkat", "lseek", "access",
           "faccessat", "faccessat2", "flock", "fcntl", "close", "fstatfs", "statfs")
traced = changing + spawning + looking + ("exit_group",)
line = re.compile(r"^(\w+)\((.*)$")
opened = re.compile(r"^(?:AT_FDCWD|-?\d+)<((?:[^<>\\]|\\.)*)>")
quoted = re.compile(r'"((?:[^"\\]|\\.)*)"')
by_fd = ("write", "pwrite64", "writev", "ftruncate", "fchmod", "fsync", "fdatasync", "syncfs", "fallocate", "fstat", "getdents64", "read", "pread64",
         "readv", "lseek", "flock", "fcntl", "close", "fstatfs", "fchown", "exit_group") + spawning


numbers_of_calls = {"write": 1, "open": 2, "pwrite64": 18, "writev": 20, "sendfile": 40, "fsync": 74, "fdatasync": 75, "truncate": 76,
                    "ftruncate": 77, "rename": 82,
                    "mkdir": 83, "rmdir": 84, "link": 86, "unlink": 87, "symlink": 88, "chmod": 90, "fchmod": 91, "openat": 257,
                    "mkdirat": 258, "unlinkat": 263, "renameat": 264, "linkat": 265, "symlinkat": 266, "fchmodat": 268, "renameat2": 316,
                    "copy_file_range": 326}
libc = ctypes.CDLL(None, use_errno=True)
libc.ptrace.argtypes, libc.ptrace.restype = [ctypes.c_long, ctypes.c_long, ctypes.c_void_p, ctypes.c_long], ctypes.c_long


class Call:
    """A system call: its name, which one of that name, its path, whether it may change something, how many bytes it wrote, and its line."""
    def __init__(self, name, number, path, text):
        self.name, self.number, self.path, self.text = name, number, path, text
        self.failed = " = -1 " in text
        result = re.search(r"\) += (\d+)", text)
        self.bytes = int(result.group(1)) if result and name in ("write", "pwrite64", "writev") else 0
        self.creates = name in ("openat", "open") and ("O_CREAT" in text or "O_TRUNC" in text)

    def __str__(self):
        return "%s %d %s" % (self.name, self.number, self.path)


def read_calls(log):
    calls, counts = [], {}
    with open(log, errors="replace") as lines:
        for text in lines:
            it = line.match(text)
            if not it:
                continue
            name, words = it.group(1), it.group(2)
            if name == "execve":
                continue
            counts[name] = counts.get(name, 0) + 1
            path, base = "", opened.match(words)
            if name not in by_fd:
                names = quoted.findall(words)
                if names:
                    which = 1 if name in ("symlink", "symlinkat", "link", "linkat", "rename", "renameat", "renameat2") and len(names) > 1 else 0
                    path = os.path.join(base.group(1) if base else os.getcwd(), names[which])
            elif base:
                path = base.group(1)
            calls.append(Call(name, counts[name], os.path.normpath(path) if path else "", text.rstrip()))
    return calls


def ends(words):
    return words[-1] if words else ""


class Run:
    """What a run of the program answered."""
    def __init__(self, status, out, err, calls=None):
        self.status, self.out, self.err, self.calls = status, out, err, calls
        self.last = ends(out.splitlines())


class Trials:
    def __init__(self, program, options):
        self.program, self.options = program, options
        self.room = tempfile.mkdtemp()
        atexit.register(shutil.rmtree, self.room, ignore_errors=True)
        for it in (signal.SIGTERM, signal.SIGINT, signal.SIGHUP):
            signal.signal(it, self.stop)
        self.passed = self.failed = 0
        self.lock = threading.Lock()

    def stop(self, number, frame):
        # What is under way isn't waited for.
        shutil.rmtree(self.room, ignore_errors=True)
        os._exit(1)

    def run(self, words, image, trace=None, inject=None, seconds=3600, before=()):
        command = [self.program, "-R", image, "-s", self.repository] + words
        if trace:
            command = ["strace", "-qq", "-y", "-s", "0", "-o", trace, "-e", "trace=" + ",".join("?" + it for it in traced)] + \
                      (["-e", "inject=" + inject] if inject else []) + command
        it = subprocess.run(list(before) + command, stdout=subprocess.PIPE, stderr=subprocess.PIPE, stdin=subprocess.DEVNULL, timeout=seconds)
        return Run(it.returncode, it.stdout.decode(errors="replace"), it.stderr.decode(errors="replace"), read_calls(trace) if trace else None)

    def run_answered(self, words, image, call, error, folder):
        """A run in which the call is done, and yet answered with the error: by ptrace, since strace leaves out a call that it answers."""
        out, err = (os.path.join(folder, name) for name in ("out", "err"))
        command = [self.program, "-R", image, "-s", self.repository] + words
        child = os.fork()
        if child == 0:
            try:
                null = os.open("/dev/null", os.O_RDONLY)
                for name, fd in ((out, 1), (err, 2)):
                    os.dup2(os.open(name, os.O_WRONLY | os.O_CREAT | os.O_TRUNC, 0o600), fd)
                os.dup2(null, 0)
                libc.ptrace(0, 0, None, 0)
                os.execv(command[0], command)
            finally:
                os._exit(127)
        wanted, seen, inside, hit = numbers_of_calls[call.name], 0, False, 0
        os.waitpid(child, 0)
        # Its stops at calls are told from signals, and it ends with this one.
        libc.ptrace(0x4200, child, None, 1 | 0x100000)
        deliver = 0
        while True:
            libc.ptrace(24, child, None, deliver)
            _, state = os.waitpid(child, 0)
            if not os.WIFSTOPPED(state):
                break
            deliver = os.WSTOPSIG(state)
            if deliver == signal.SIGTRAP | 0x80:
                deliver, inside = 0, not inside
                if inside:
                    entered = libc.ptrace(3, child, 15 * 8, 0)
                    seen += entered == wanted
                elif entered == wanted and seen == call.number and not hit:
                    hit = 1 if libc.ptrace(3, child, 10 * 8, 0) >= 0 else -1
                    libc.ptrace(6, child, 10 * 8, -error)
            elif deliver == signal.SIGTRAP:
                deliver = 0
        with open(out, errors="replace") as one, open(err, errors="replace") as two:
            it = Run(os.waitstatus_to_exitcode(state), one.read(), two.read())
        it.hit = hit
        return it

    def report(self, words, image):
        it = self.run(words.split(), image)
        return it.status, it.out

    def below(self, call, folder):
        return call.path == folder or call.path.startswith(folder + "/")

    def note(self, problems, how):
        with self.lock:
            if problems:
                self.failed += 1
                print("FAILED: %s\n  %s" % (how, "\n  ".join(problems[:12])), flush=True)
            else:
                self.passed += 1

    def end(self):
        print("%d passed, %d failed" % (self.passed, self.failed))
        sys.exit(0 if self.failed == 0 else 1)

    # ---- fix
    def fix_to_its_end(self, request, image, due, log):
        """Runs fix on what is left of the request, and tells its calls, what is wrong behind it, and which image is due then."""
        was, problems = pending(image), []
        answer = self.run(["fix"], image, trace=log)
        seen = tree(image)
        if was == "none":
            wanted = request.idle[due]
            if request.repairs:
                due = "new"
        else:
            wanted = (0, "recovered: new image\n" if was == "open" else "recovered: leftovers cleared\n")
        if (answer.status, answer.out) != wanted:
            problems.append("fix answers %d %s %s, wanted %s" % (answer.status, answer.out, answer.err, wanted))
        if leftovers(image):
            problems.append("left over: %s" % leftovers(image))
        if not (request.is_before(seen) if due == "old" else seen == request.new):
            is_other = seen == request.new if due == "old" else request.is_before(seen)
            problems.append("the image isn't the %s one%s" % (due, ", but the other one" if is_other else "; neither is it the other one"))
            problems += differences(seen, request.old if due == "old" else request.new)
        return answer.calls, problems, due

    def looks_as(self, request, image, due):
        """What is wrong with the reports of verify and list, the image being the one that is due."""
        problems = []
        for words, wanted in zip(("verify", "list"), request.reports[due]):
            found = self.report(words, image)
            if found != wanted:
                problems.append("%s says %s, wanted %s" % (words, found, wanted))
        return problems

    def place(self, request):
        """Names the paths of a request's calls without the place where the image stood, and tells which folder they are of."""
        for call in request.calls:
            call.kept, call.from_repository = self.below(call, request.after), self.below(call, self.repository)
            call.path = call.path.replace(request.after, "IMAGE", 1).replace(self.repository, "REPOSITORY", 1)

    # ---- the requests
    def must(self, image, *words):
        it = self.run(list(words), image)
        if it.status != 0:
            quit_with("an image can't be made: %s: %d %s %s" % (" ".join(words), it.status, it.out, it.err))

    def prepare(self):
        """One request after the other: its name and words, the image before and the one that is meant, and what is told of both."""
        room, large = self.room, int(os.environ.get("PKG_TEST_FILES") or 1005)
        self.repository = os.path.join(room, "repository")
        new_repository(self.repository, large)
        actuator = os.path.join(room, "actuator")
        with open(actuator, "w") as out:
            out.write("#!/bin/sh\nexit 0\n")
        os.chmod(actuator, 0o755)
        variant = ["--variant", "variant.arch=i386"]

        def write(image, path, text, mode=0o644):
            full = os.path.join(image, path)
            os.makedirs(os.path.dirname(full), exist_ok=True)
            if os.path.lexists(full):
                os.unlink(full)
            with open(full, "w") as out:
                out.write(text)
            os.chmod(full, mode)

        made = {}

        def image(*requests):
            def make(it):
                if requests not in made:
                    if requests:
                        image(*requests[:-1])(it)
                        self.must(it, *requests[-1].split())
                    else:
                        self.must(it, "image-create", "-p", "test", *variant)
                    made[requests] = os.path.join(room, "made.%d" % len(made))
                    copy(it, made[requests])
                else:
                    os.rmdir(it)
                    copy(made[requests], it)
            return make

        def edited(it):
            image("install app@1.0")(it)
            for name in ("true", "old", "new", "only", "abandon"):
                write(it, "opt/app/" + name, name + " edited\n", 0o640 if name == "new" else 0o644)
            write(it, "opt/app/turns/mine", "mine in a folder that goes\n")

        def foreign(it):
            image("install app@1.0", "install lib/small")(it)
            for path in ("opt/app/data/mine", "opt/app/data/deep/er/mine", "opt/app/bin/mine"):
                write(it, path, "mine\n", 0o640)
            for path in ("opt/app/true", "opt/app/old"):
                write(it, path, "edited\n")
            os.symlink("nowhere", os.path.join(it, "opt/app/data/link"))
            os.link(os.path.join(it, "opt/app/data/mine"), os.path.join(it, "opt/app/data/twin"))
            os.mkdir(os.path.join(it, "opt/app/data/empty"), 0o711)

        def standing(it):
            image()(it)
            for path in ("bin/run", "true", "old", "new", "only", "goes/below/it", "latest/x"):
                write(it, "opt/app/" + path, "stood here\n", 0o600)
            os.symlink("../..", os.path.join(it, "usr"))
            write(it, "etc/passwd", "root:x:0:0::/root:/bin/sh\n")
            write(it, "etc/group", "root::0:\n")

        def damaged(it):
            image("install app@1.0")(it)
            write(it, "opt/app/bin/run", "spoiled\n", 0o600)
            os.unlink(os.path.join(it, "opt/app/empty"))
            os.unlink(os.path.join(it, "opt/app/latest"))
            os.mkdir(os.path.join(it, "opt/app/latest"))
            write(it, "opt/app/latest/mine", "mine\n")
            os.unlink(os.path.join(it, "opt/app/nowhere"))
            os.symlink("elsewhere", os.path.join(it, "opt/app/nowhere"))
            os.chmod(os.path.join(it, "opt/app/data"), 0o755)
            shutil.rmtree(os.path.join(it, "opt/app/turns"))

        def first_format(it):
            image("install app@1.0", "install lib/small")(it)
            folder = os.path.join(it, "var/pkg")
            os.mkdir(os.path.join(folder, "manifests"), 0o755)
            installed = []
            for name in sorted(os.listdir(os.path.join(folder, "packages")), key=lambda name: name.replace("%2F", "/")):
                with open(os.path.join(folder, "packages", name)) as text:
                    _, version, manifest = text.read().split("\n", 2)
                installed.append("%s@%s\n" % (name.replace("%2F", "/"), version.split(" ")[1]))
                write(folder, "manifests/" + name, manifest)
            write(folder, "installed", "".join(installed))
            shutil.rmtree(os.path.join(folder, "packages"))
            with open(os.path.join(folder, "image")) as text:
                lines = [it for it in text.read().splitlines() if not it.startswith("origin ")]
            write(folder, "image", "".join(it + "\n" for it in ["image 1"] + lines[1:]))

        def with_actuator(it):
            self.must(it, "image-create", "-p", "test", "--actuator", actuator)
            self.must(it, "install", "served@1.0")

        def files(it):
            for path in ("etc/passwd", "var/log/mine", "var/pkg.mine"):
                write(it, path, "mine\n", 0o600)

        table = [
            ("create", "image-create -p test", lambda it: None),
            ("create-over", "image-create -p test --variant variant.arch=sparc --facet facet.doc=false", files),
            ("install", "install app@1.0", image()),
            ("install-over", "install app@1.0", standing),
            ("install-two", "install lib/small", image("rebuild-index")),
            ("update", "update --accept app", edited),
            ("update-actuated", "update served", with_actuator),
            ("uninstall", "uninstall app", foreign),
            ("swap", "install --reject app lib/small", image("install app@1.0")),
            ("facet", "change-facet facet.doc*=false", image("install app@1.0")),
            ("variant", "change-variant variant.arch=sparc", image("install app@1.0", "rebuild-index")),
            ("mediator", "set-mediator -V 1 tool", image("install app@1.0")),
            ("freeze", "freeze app@1.0", image("install app@1.0")),
            ("avoid", "avoid lib/small", image()),
            ("publisher", "set-publisher --search-first other", image("install lib/small")),
            ("index", "rebuild-index", image("install app@1.0", "install lib/small")),
            ("format", "update-format", first_format),
            ("repair", "fix", damaged),
            ("large", "install large@1.0", image()),
            ("large-update", "update large", image("install large@1.0")),
        ]
        for name, words, make in table:
            if self.options["only"] and name not in self.options["only"]:
                continue
            it = Request()
            it.name, it.words = name, words.split()
            it.creates, it.repairs, it.large = name.startswith("create"), name == "repair", name.startswith("large")
            it.before = os.path.join(room, name + ".before")
            os.mkdir(it.before)
            make(it.before)
            it.after = os.path.join(room, name + ".after")
            copy(it.before, it.after)
            it.old = tree(it.before)
            answer = self.run(it.words, it.after, trace=os.path.join(room, name + ".log"))
            if answer.status != 0 or answer.last != "done" or leftovers(it.after):
                quit_with("%s: no run to its end: %d %s %s" % (name, answer.status, answer.out, answer.err))
            it.calls, it.new, it.answer = answer.calls, tree(it.after), answer
            if it.old == it.new:
                quit_with("%s changes nothing" % name)
            it.reports = {due: [self.report(words, where) for words in ("verify", "list")] for due, where in (("old", it.before), ("new", it.after))}
            it.idle = {}
            for due, where in (("old", it.before), ("new", it.after)):
                copy(where, it.before + ".idle")
                it.idle[due] = self.report("fix", it.before + ".idle")
                shutil.rmtree(it.before + ".idle")
            it.actuators = 3 if name == "update-actuated" else 0
            self.place(it)
            it.stopped = False
            yield it

    def stopped(self, request, name, at, is_open):
        """The same request, stopped before a call, behind the gate or not: what is tried is the fix that follows."""
        it = Request()
        it.__dict__.update(request.__dict__)
        it.name, it.words, it.stopped, it.creates, it.repairs = request.name + "." + name, ["fix"], True, False, False
        it.before, it.after = request.before + "." + name, request.after + "." + name
        copy(request.before, it.before)
        self.run(request.words, it.before, trace=it.before + ".log", inject="%s:signal=KILL:when=%d" % (at.name, at.number))
        it.old = tree(it.before)
        copy(it.before, it.after)
        it.answer = self.run(["fix"], it.after, trace=it.after + ".log")
        it.calls = it.answer.calls
        if not is_open:
            it.new, it.reports, it.idle = request.old, {"new": request.reports["old"]}, {"new": request.idle["old"]}
        if it.answer.out != "recovered: %s\n" % ("new image" if is_open else "leftovers cleared") or tree(it.after) != it.new:
            self.note(["the stopped request isn't brought to its end: %s" % it.answer.out], it.name)
        self.place(it)
        return it

    def prepare_stopped(self):
        """The requests, and behind some of them two halves, stopped at the gate and behind it."""
        for it in self.prepare():
            yield it
            if it.name in ("install", "update", "uninstall", "format"):
                gate = [call for call in it.calls if call.path == "IMAGE/var/pkg/gate" and not call.failed and (call.creates or call.name in ("unlink", "unlinkat"))]
                laid = [call for call in it.calls if call.kept and call.name in changing and not call.failed and (call.name != "openat" or call.creates)]
                between = laid[laid.index(gate[0]) + 2:laid.index(gate[-1]) + 1]
                yield self.stopped(it, "half", between[len(between) // 2], True)
                yield self.stopped(it, "staged", gate[0], False)


class Request:
    def is_before(self, seen):
        """A create that is stopped may leave var and var/pkg."""
        if seen == self.old:
            return True
        if not self.creates:
            return False
        left = dict(seen)
        for path in ("var/pkg", "var"):
            if path not in self.old and left.get(path) == ("directory", 0o755):
                del left[path]
        return left == self.old


def spread(calls, most, important, random):
    """At most so many of the calls, by chance, of which up to a third are taken of the important ones; in their order."""
    if most is None or len(calls) <= most:
        return list(calls)
    first = [it for it in calls if important(it)]
    first = random.sample(first, min(len(first), (most + 2) // 3))
    rest = [it for it in calls if it not in first]
    chosen = set(first + random.sample(rest, most - len(first)))
    return [it for it in calls if it in chosen]
