# A disk whose writes and flushes are kept: a file of a file system of its own (FUSE), under a loop device. tests/power-cuts makes of the record what a
# power cut would leave. It needs root, /dev/fuse and losetup.
import ctypes, errno, os, signal, struct, subprocess, time

libc = ctypes.CDLL(None, use_errno=True)
MOST = 1 << 20
WRITE, FLUSH = 0, 1
record_head = struct.Struct("<BQI")


def call(*words):
    subprocess.run(words, check=True, stdout=subprocess.DEVNULL, stderr=subprocess.PIPE)


def until_it_is_so(ask):
    """A name space of mounts that somebody else made meanwhile may hold a mount, and with it a loop device, for a while."""
    end = time.monotonic() + 120
    while not ask():
        if time.monotonic() > end:
            raise RuntimeError("a mount isn't given back")
        time.sleep(0.05)


def unmounted(folder):
    return not os.path.ismount(folder) or subprocess.run(["umount", folder], stderr=subprocess.DEVNULL).returncode == 0


def is_free(disk):
    return not subprocess.run(["losetup", "-j", disk], check=True, stdout=subprocess.PIPE).stdout


def mount_fuse(folder):
    device = os.open("/dev/fuse", os.O_RDWR)
    options = "fd=%d,rootmode=40000,user_id=0,group_id=0,allow_other" % device
    if libc.mount(b"logged", folder.encode(), b"fuse", 6, options.encode()) != 0:
        raise OSError(ctypes.get_errno(), "mount of fuse at " + folder)
    return device


class Server:
    """Answers for a folder with one file, `disk`, which is kept in a file of the host; each write and flush of it is recorded before it is answered."""
    def __init__(self, device, disk, log):
        self.device, self.disk, self.log = device, os.open(disk, os.O_RDWR), os.open(log, os.O_WRONLY | os.O_CREAT | os.O_APPEND, 0o600)
        self.size = os.fstat(self.disk).st_size

    def serve(self):
        while True:
            try:
                request = os.read(self.device, MOST + 65536)
            except OSError as error:
                if error.errno == errno.ENODEV:
                    return
                if error.errno in (errno.EINTR, errno.ENOENT, errno.EAGAIN):
                    continue
                raise
            _, opcode, unique, node = struct.unpack_from("<IIQQ", request)
            if opcode in (2, 36, 42):
                continue
            try:
                error, answer = 0, self.answer(opcode, node, request[40:])
            except OSError as failed:
                error, answer = -failed.errno, b""
            try:
                os.write(self.device, struct.pack("<IiQ", 16 + len(answer), error, unique) + answer)
            except OSError as failed:
                if failed.errno not in (errno.ENOENT, errno.EINTR):
                    raise

    def attributes(self, node):
        mode, size, links = (0o40755, 0, 2) if node == 1 else (0o100600, self.size, 1)
        return struct.pack("<6Q10I", node, size, (size + 511) // 512, 0, 0, 0, 0, 0, 0, mode, links, 0, 0, 0, 4096, 0)

    def answer(self, opcode, node, body):
        if opcode == 26:  # INIT: as many pages a request as MOST takes
            return struct.pack("<IIIIHHIIHHI7I", 7, 31, 65536, (1 << 5) | (1 << 22), 16, 12, MOST, 1, MOST // 4096, 0, 0, *[0] * 7)
        if opcode == 1:  # LOOKUP
            if body.rstrip(b"\0") != b"disk":
                raise OSError(errno.ENOENT, "")
            return struct.pack("<4QII", 2, 0, 3600, 3600, 0, 0) + self.attributes(2)
        if opcode in (3, 4):  # GETATTR, SETATTR
            return struct.pack("<QII", 3600, 0, 0) + self.attributes(node)
        if opcode in (14, 27):  # OPEN, OPENDIR: nothing of it is cached
            return struct.pack("<QII", 0, 1, 0)
        if opcode == 15:  # READ
            _, place, size = struct.unpack_from("<QQI", body)
            return os.pread(self.disk, size, place)
        if opcode == 16:  # WRITE
            _, place, size = struct.unpack_from("<QQI", body)
            data = body[40:40 + size]
            os.write(self.log, record_head.pack(WRITE, place, size) + data)
            os.pwrite(self.disk, data, place)
            return struct.pack("<II", size, 0)
        if opcode == 20:  # FSYNC
            os.write(self.log, record_head.pack(FLUSH, 0, 0))
            return b""
        if opcode == 17:  # STATFS
            return struct.pack("<5Q4I6I", 1 << 20, 1 << 19, 1 << 19, 16, 8, 4096, 255, 4096, 0, *[0] * 6)
        if opcode in (18, 25, 28, 29, 34, 38):  # RELEASE, FLUSH, READDIR, RELEASEDIR, ACCESS, DESTROY
            return b""
        raise OSError(errno.EOPNOTSUPP if opcode == 43 else errno.ENOSYS, "")


class Mounted:
    """A disk's file that is mounted, by a loop device; its writes are recorded where a log is given."""
    def __init__(self, kind, disk, folder, log=None):
        self.folder, self.disk, self.fuse, self.child, self.loop = folder, disk, None, None, None
        os.makedirs(folder, exist_ok=True)
        try:
            if log:
                self.fuse = folder + ".fuse"
                os.makedirs(self.fuse, exist_ok=True)
                device = mount_fuse(self.fuse)
                self.child = os.fork()
                if self.child == 0:
                    signal.signal(signal.SIGINT, signal.SIG_IGN)
                    try:
                        Server(device, disk, log).serve()
                        os._exit(0)
                    finally:
                        os._exit(1)
                os.close(device)
                self.disk = self.fuse + "/disk"
            made = subprocess.run(["losetup", "--find", "--show", self.disk], check=True, stdout=subprocess.PIPE)
            self.loop = made.stdout.decode().strip()
            call("mount", "-t", kind, "-o", {"xfs": "nouuid", "ext4": "noatime", "btrfs": "noatime"}.get(kind, "noatime"), self.loop, folder)
        except BaseException:
            self.end()
            raise

    def end(self):
        until_it_is_so(lambda: unmounted(self.folder))
        if self.loop:
            subprocess.run(["losetup", "-d", self.loop], stderr=subprocess.DEVNULL)
            until_it_is_so(lambda: is_free(self.disk))
        if self.fuse:
            until_it_is_so(lambda: unmounted(self.fuse))
        if self.child:
            os.waitpid(self.child, 0)
            self.child = None

    def __enter__(self):
        return self

    def __exit__(self, *why):
        self.end()


def read_log(log):
    """The events in their order: a write is its place and bytes, a flush None."""
    events = []
    with open(log, "rb") as it:
        while head := it.read(record_head.size):
            kind, place, size = record_head.unpack(head)
            events.append(None if kind == FLUSH else (place, it.read(size)))
    return events


def cut(disk, events, chance, sector):
    """Writes to the disk's file what a cut leaves of the writes since the last flush: each is there, lost, or torn in sectors of so many bytes."""
    how = chance.choice(("all", "none", "some", "torn"))
    with open(disk, "r+b") as it:
        for number, (place, data) in enumerate(events):
            if how == "none" or how in ("some", "torn") and chance.random() < 0.5:
                continue
            if how == "torn":
                for start in range(0, len(data), sector):
                    if chance.random() < 0.7:
                        it.seek(place + start)
                        it.write(data[start:start + sector])
            else:
                it.seek(place)
                it.write(data)
    return how
