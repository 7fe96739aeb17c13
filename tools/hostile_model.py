"""What any stream of bytes must be answered: cuts it into frames, and says of each whether a reply is due, and of what form."""
import struct
from typing import NamedTuple

LOOKUP, FORGET, GETATTR, SETATTR, READLINK, SYMLINK, MKDIR, UNLINK, RMDIR, RENAME, LINK, OPEN, READ, WRITE, STATFS = 1, 2, 3, 4, 5, 6, 9, 10, 11, 12, 13, 14, 15, 16, 17
RELEASE, FSYNC, FLUSH, INIT, OPENDIR, READDIR, RELEASEDIR, FSYNCDIR, CREATE, INTERRUPT = 18, 20, 25, 26, 27, 28, 29, 30, 35, 36
DESTROY, BATCH_FORGET, READDIRPLUS, RENAME2 = 38, 42, 44, 45
EPERM, ENOENT, EIO, EBADF, EAGAIN, EEXIST, ENOTDIR, EINVAL, ENFILE, ENAMETOOLONG, ENOSYS, EPROTO, ESTALE = 1, 2, 5, 9, 11, 17, 20, 22, 23, 36, 38, 71, 116
ERRORS = {1, 2, 5, 9, 11, 12, 13, 16, 17, 20, 21, 22, 23, 27, 28, 36, 38, 39, 71, 75, 116}
SHORTEST, LONGEST, ROOT = 40, 69632, 1
SILENT = {FORGET, BATCH_FORGET, INTERRUPT}
# bodies of one length, and bodies that end with names: what stands before them, and how many
FIXED = {GETATTR: 16, SETATTR: 88, OPEN: 8, READ: 40, STATFS: 0, RELEASE: 24, FSYNC: 16, FLUSH: 24, OPENDIR: 8, READDIR: 40,
         RELEASEDIR: 24, FSYNCDIR: 16, DESTROY: 0, READDIRPLUS: 40}
NAMED = {LOOKUP: (0, 1), MKDIR: (8, 1), UNLINK: (0, 1), RMDIR: (0, 1), RENAME: (8, 2), LINK: (8, 1), CREATE: (16, 1), RENAME2: (16, 2)}
# what is answered by an entry, which the client then knows once more
ENTRIES = (LOOKUP, SYMLINK, MKDIR, LINK, CREATE)
# bodies of replies that tell of success, where they have one length
ANSWERED = {LOOKUP: 128, GETATTR: 104, SETATTR: 104, SYMLINK: 128, MKDIR: 128, UNLINK: 0, RMDIR: 0, RENAME: 0, LINK: 128, RENAME2: 0, OPEN: 16, WRITE: 8, STATFS: 80,
            RELEASE: 0, FSYNC: 0, FLUSH: 0, INIT: 64, OPENDIR: 16, RELEASEDIR: 0, FSYNCDIR: 0, CREATE: 144, DESTROY: 0}
# what is served where links are shown, and the modes and the kinds of names that come where they are not
OF_LINKS = {READLINK, SYMLINK, LINK}
PLAIN_MODES, PLAIN_KINDS = {0o40755, 0o100644}, {4, 8}
ALL_MODES, ALL_KINDS = {0o40755, 0o100644, 0o120777, 0o10644, 0o140644, 0o20644, 0o60644}, {1, 2, 4, 6, 8, 10, 12}
# what else is refused than by the bytes alone; a LINK of a folder is EPERM, as the system has it
ONLY_ERRORS = {STATFS: set(), FLUSH: {EBADF}, RELEASEDIR: {EBADF}, FSYNCDIR: {EBADF},
               LINK: {EPERM, ENOENT, EAGAIN, EEXIST, ENOTDIR, ENFILE, ENAMETOOLONG, ESTALE}}


class Shown(NamedTuple):
    """Whether links are shown, and whether names may have any bytes."""
    links: bool = False
    bytes: bool = False


def is_text(name):
    try:
        name.decode()
    except UnicodeDecodeError:
        return False
    return True


def fault_of_name(name, shown):
    """The error of a name by itself, or 0."""
    if not name:
        return EINVAL
    if len(name) > 255:
        return ENAMETOOLONG
    if not shown.bytes and not is_text(name):
        return EINVAL
    return EINVAL if name in (b".", b"..") or b"/" in name else 0


def names_of(opcode, body):
    """The names of a body, or None where it has not as many as it must."""
    skip, count = NAMED[opcode]
    if len(body) < skip or not body.endswith(b"\0") or body[skip:].count(b"\0") != count:
        return None
    return body[skip:-1].split(b"\0")


def fault_of_names(opcode, body, shown):
    names = names_of(opcode, body)
    if names is None:
        return EINVAL
    for name in names:
        if fault_of_name(name, shown):
            return fault_of_name(name, shown)
    if any(name.startswith(b".fuse_hidden") for name in names):
        return ENOENT if opcode == LOOKUP else EPERM
    if opcode == LINK and struct.unpack_from("<Q", body)[0] == ROOT:
        return EPERM
    if opcode == RENAME2 and struct.unpack_from("<I", body, 8)[0] > 2:
        return EINVAL
    return EINVAL if opcode == CREATE and body[0] & 3 == 3 else 0


def fault_of_symlink(body, shown):
    """The error of a SYMLINK: a name, and the link's text, each with its zero byte."""
    if not body.endswith(b"\0") or body.count(b"\0") != 2:
        return EINVAL
    name, text = body[:-1].split(b"\0")
    if fault_of_name(name, shown):
        return fault_of_name(name, shown)
    if name.startswith(b".fuse_hidden"):
        return EPERM
    return ENOENT if not text else ENAMETOOLONG if len(text) > 4095 else 0


def fault_of(opcode, body, shown):
    """The error that the bytes of a request have by themselves, or 0; an INIT's and a silent one's are told elsewhere."""
    if opcode in OF_LINKS and not shown.links:
        return ENOSYS
    if opcode in (SYMLINK, READLINK):
        return fault_of_symlink(body, shown) if opcode == SYMLINK else 0
    if opcode in NAMED:
        return fault_of_names(opcode, body, shown)
    if opcode == WRITE:
        size = struct.unpack_from("<I", body, 16)[0] if len(body) >= 40 else -1
        return 0 if size == len(body) - 40 and size <= 65536 else EINVAL
    if opcode not in FIXED:
        return ENOSYS
    if len(body) != FIXED[opcode]:
        return EINVAL
    if opcode in (READ, READDIR, READDIRPLUS) and struct.unpack_from("<I", body, 16)[0] > 131072:
        return EINVAL
    if opcode == OPEN and body[0] & 3 == 3:
        return EINVAL
    return EPERM if opcode == SETATTR and struct.unpack_from("<I", body)[0] & ~0x248 else 0


class Due:
    """A reply that is due: the error that it must have, or None where the server decides."""

    def __init__(self, opcode, unique, node, error, body, shown):
        self.opcode, self.unique, self.node, self.error, self.body, self.shown = opcode, unique, node, error, body, shown

    def wrong(self, error, body):
        """What is wrong about a reply, or None."""
        if self.error is not None and error != self.error:
            return f"error {error} in place of {self.error}"
        if error:
            allowed = ERRORS if self.error is not None else ONLY_ERRORS.get(self.opcode, ERRORS)
            return "a body behind an error" if body else None if error in allowed else f"error {error}, which it never has"
        if self.opcode in ANSWERED:
            return self.wrong_fixed(body)
        return self.wrong_bytes(body)

    def wrong_fixed(self, body):
        if len(body) != ANSWERED[self.opcode]:
            return f"a body of {len(body)} bytes"
        if self.opcode == WRITE and (struct.unpack("<I", body[:4])[0] > len(self.body) - 40 or any(body[4:])):
            return "more written than was sent"
        if self.opcode in ENTRIES and struct.unpack_from("<Q", body)[0] < 2:
            return "an entry without a node"
        at = 40 if self.opcode in ENTRIES else 16 if self.opcode in (GETATTR, SETATTR) else None
        mode = struct.unpack_from("<I", body, at + 60)[0] if at else None
        if self.opcode == LINK and mode == 0o40755:
            return "a folder with a further name"
        return f"a mode of {mode:o}" if mode is not None and mode not in (ALL_MODES if self.shown.links else PLAIN_MODES) else None

    def wrong_bytes(self, body):
        if self.opcode == READLINK:
            return None if 0 < len(body) < 4096 else f"a link's text of {len(body)} bytes"
        size, = struct.unpack_from("<I", self.body, 16)
        if len(body) > size:
            return "more bytes than were asked for"
        return None if self.opcode == READ else wrong_page(body, 128 if self.opcode == READDIRPLUS else 0, self.shown)


def wrong_page(body, skip, shown):
    """What is wrong about a page of a folder, or None; that many bytes stand before each of its entries."""
    at, kinds = 0, ALL_KINDS if shown.links else PLAIN_KINDS
    while at < len(body):
        if at + skip + 24 > len(body):
            return "a page that ends in an entry"
        length, kind = struct.unpack_from("<II", body, at + skip + 16)
        name = body[at + skip + 24:at + skip + 24 + length]
        at += (skip + 24 + length + 7) // 8 * 8
        if at > len(body) or kind not in kinds:
            return "an entry of a page that is cut, or of a kind that is none"
        if name not in (b".", b"..") and (fault_of_name(name, shown) or name.startswith(b".fuse_hidden")):
            return f"the name {name!r} in a page"
    return None


class Model:
    """What a stream was and what is due for it, where this is shown. `ended` is None, "destroyed", or the length that no frame has."""

    def __init__(self, shown=Shown()):
        self.shown = shown
        self.rest, self.due, self.agreed, self.ended, self.frames = b"", [], False, None, 0

    def feed(self, piece):
        heard, at = self.rest + piece, 0
        while self.ended is None and len(heard) - at >= 4:
            length, = struct.unpack_from("<I", heard, at)
            if not SHORTEST <= length <= LONGEST:
                self.ended = length
            elif len(heard) - at < length:
                break
            else:
                self.take(*struct.unpack_from("<IQQ", heard, at + 4), heard[at + 40:at + length])
                at += length
        self.rest = heard[at:]

    def take(self, opcode, unique, node, body):
        self.frames += 1
        if opcode in SILENT:
            return
        if opcode == INIT:
            self.due.append(Due(opcode, unique, node, self.offer(body), body, self.shown))
            return
        error = fault_of(opcode, body, self.shown) if self.agreed else EIO
        if opcode == DESTROY and not error:
            self.ended = "destroyed"
        self.due.append(Due(opcode, unique, node, 0 if opcode in (DESTROY, STATFS) and not error else error or None, body, self.shown))

    def offer(self, body):
        """The error of an INIT."""
        if self.agreed:
            return EIO
        if len(body) < 16:
            return EINVAL
        major, minor = struct.unpack_from("<II", body)
        self.agreed = major == 7 and minor >= 23
        return 0 if self.agreed or major > 7 else EPROTO

    def status(self):
        """The exit status that the server must have, and its standard error."""
        if isinstance(self.ended, int):
            return 3, f"mirrord: frame length {self.ended} is not between 40 and 69632\n".encode()
        return 0, b""
