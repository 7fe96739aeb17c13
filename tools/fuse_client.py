"""A client of the protocol that mirrord serves, FUSE 7.31, for tests and bridges; it needs Python 3 and nothing else.

It is no mount, and nothing to build a fast client on: one request is under way at a time, nothing is kept, and of a reply it checks the number and no more. What it builds
and reads is whole frames, so a bridge can look at each and pass it on. `examples/client`, `examples/fetch`, `examples/read-only` and `examples/log` start from it. It has three layers:

Frames     `lookup(unique, parent, name)` and its like build the bytes of one request. They send nothing.
Bodies     `entry_of(body)` and its like read the body of one reply.
`Client`   sends a request, waits for its reply and hands out what it says, and raises OSError where the reply is an error:

    with Client.connect("/tmp/mirrord.sock") as client:
        client.init()
        folder = client.mkdir(ROOT, "m")
        for entry in client.entries(folder.node):
            print(entry.name, entry.node)
        client.destroy()

A node is a number that the server gave for a name. It counts how often it gave each out, and `forget` gives that back. ROOT is always
there. A handle is a number of an open file or folder. Names are text or bytes; a server that takes texts alone (`--names text`) refuses
those that are no UTF-8. What is made belongs to the `caller` of a client, where the server is user 0 and has attributes of the host.
"""
import errno
import os
import socket
import struct
import time
from typing import NamedTuple

LOOKUP, FORGET, GETATTR, SETATTR, READLINK, SYMLINK, MKDIR, UNLINK, RMDIR, RENAME, LINK = 1, 2, 3, 4, 5, 6, 9, 10, 11, 12, 13
OPEN, READ, WRITE, STATFS, RELEASE, FSYNC, FLUSH, INIT = 14, 15, 16, 17, 18, 20, 25, 26
OPENDIR, READDIR, RELEASEDIR, FSYNCDIR, CREATE, INTERRUPT, DESTROY = 27, 28, 29, 30, 35, 36, 38
BATCH_FORGET, READDIRPLUS, RENAME2 = 42, 44, 45
NAMES = {value: name for name, value in list(globals().items()) if name.isupper() and isinstance(value, int)}

ROOT = 1
MAJOR, MINOR = 7, 31
LEAST_FRAME, MOST_FRAME = 40, 69632
MOST_WRITTEN, MOST_READ = 65536, 131072
PAGE = 4096
PIPE, CHARACTER, FOLDER, BLOCK, FILE, SYMBOLIC, SOCKET = 1, 2, 4, 6, 8, 10, 12  # kinds of names in a page
SET_MODE, SET_UID, SET_GID, SET_SIZE, SET_ATIME, SET_MTIME = (1 << bit for bit in range(6))
SET_HANDLE, SET_ATIME_NOW, SET_MTIME_NOW = 1 << 6, 1 << 7, 1 << 8
NOW = "now"
NO_REPLACE, EXCHANGE = 1, 2

HEADER = struct.Struct("<IIQQIIII")
REPLY = struct.Struct("<IiQ")
READ_IN = struct.Struct("<QQIIQII")
RELEASE_IN = struct.Struct("<QIIQ")
FSYNC_IN = struct.Struct("<QII")
SETATTR_IN = struct.Struct("<IIQQQQQQIIIIIIII")
ENTRY_OUT = struct.Struct("<QQQQII")
ATTR = struct.Struct("<QQQQQQIIIIIIIIII")
DIRENT = struct.Struct("<QQII")
ENTRY_LEN = ENTRY_OUT.size + ATTR.size


# --- What replies say ---

class Attr(NamedTuple):
    """What is known of a file or a folder, or with `--kinds all` of a link or whatever else; times in nanoseconds since 1970. With `--attributes fixed` the times are 0, the number `ino` is the node's,
    and `mode`, `uid` and `gid` are the server's settings."""
    ino: int
    size: int
    blocks: int
    mode: int
    nlink: int
    uid: int
    gid: int
    blksize: int
    atime: int
    mtime: int
    ctime: int
    rdev: int = 0


class Entry(NamedTuple):
    """A node that the server gave out: its number, how often that number was given to a new node before, and its attributes."""
    node: int
    generation: int
    attr: Attr


class Dirent(NamedTuple):
    """A name of a page, the index of the next one, and its kind, as FOLDER or FILE. Of READDIRPLUS also its node, or 0 and None where none was given."""
    name: str
    following: int
    kind: int
    node: int = 0
    attr: Attr = None


class Agreed(NamedTuple):
    """What INIT was answered. Where `major` is 7 and all but `minor` is 0, the server awaits another INIT."""
    major: int
    minor: int
    max_readahead: int
    flags: int
    max_background: int
    congestion_threshold: int
    max_write: int
    time_gran: int
    max_pages: int


class Statfs(NamedTuple):
    """What STATFS is answered. The server fills in the sizes and the length of a name alone."""
    blocks: int
    bfree: int
    bavail: int
    files: int
    ffree: int
    bsize: int
    namelen: int
    frsize: int


# --- Frames ---

def request(opcode, unique, node=0, body=b""):
    return HEADER.pack(HEADER.size + len(body), opcode, unique, node, 0, 0, 0, 0) + body


def by(frame, uid, gid):
    """The same request of this user and this group."""
    return frame[:24] + struct.pack("<II", uid, gid) + frame[32:]


def name_bytes(name):
    """A name as frames have it, with its zero byte. Text that was made of bytes that are no UTF-8 becomes those again."""
    return (name if isinstance(name, bytes) else name.encode("utf-8", "surrogateescape")) + b"\0"


def init(unique=1, major=MAJOR, minor=MINOR, max_readahead=131072, flags=0):
    return request(INIT, unique, body=struct.pack("<IIII", major, minor, max_readahead, flags))


def destroy(unique):
    return request(DESTROY, unique)


def interrupt(unique, asked):
    return request(INTERRUPT, unique, body=struct.pack("<Q", asked))


def lookup(unique, parent, name):
    return request(LOOKUP, unique, parent, name_bytes(name))


def forget(unique, node, lookups):
    return request(FORGET, unique, node, struct.pack("<Q", lookups))


def batch_forget(unique, pairs):
    """Gives back lookups of several nodes: pairs of a node and a number."""
    packed = [struct.pack("<QQ", node, lookups) for node, lookups in pairs]
    return request(BATCH_FORGET, unique, body=struct.pack("<II", len(packed), 0) + b"".join(packed))


def getattr_of(unique, node):
    return request(GETATTR, unique, node, bytes(16))


def setattr_size(unique, node, size, handle=None):
    """Gives a file another length; by a handle of it, where one is given."""
    valid = SET_SIZE if handle is None else SET_SIZE | SET_HANDLE
    return setattr_of(unique, node, valid, handle or 0, size)


def setattr_of(unique, node, valid, handle=0, size=0, mode=0, uid=0, gid=0, atime=0, mtime=0):
    """A SETATTR of the fields that `valid` says. With `--attributes fixed` all but the size are refused."""
    (accessed, accessed_part), (modified, modified_part) = (divmod(time, 10**9) for time in (atime, mtime))
    seconds = [accessed % 2**64, modified % 2**64, 0]
    return request(SETATTR, unique, node, SETATTR_IN.pack(valid, 0, handle, size, 0, *seconds, accessed_part, modified_part, 0, mode, 0, uid, gid, 0))


def setattr_parts(unique, node, handle=None, **parts):
    """A SETATTR of what is given: `mode`, `uid`, `gid`, `size`, and `atime` and `mtime` in nanoseconds since 1970 or NOW, the server's present."""
    asked = {name: value for name, value in parts.items() if value is not None}
    bits = {"mode": SET_MODE, "uid": SET_UID, "gid": SET_GID, "size": SET_SIZE, "atime": SET_ATIME, "mtime": SET_MTIME}
    valid = sum(bits[name] for name in asked) | (0 if handle is None else SET_HANDLE)
    for name, bit in (("atime", SET_ATIME_NOW), ("mtime", SET_MTIME_NOW)):
        if asked.get(name) == NOW:
            valid, asked[name] = valid | bit, 0
    return setattr_of(unique, node, valid, handle or 0, **asked)


def mkdir(unique, parent, name, mode=0, umask=0):
    """With `--attributes host` the folder gets the bits of the mode that are not in the umask; else the server's own mask decides."""
    return request(MKDIR, unique, parent, struct.pack("<II", mode, umask) + name_bytes(name))


def symlink(unique, parent, name, text):
    """A symbolic link with this text, which the server never follows."""
    return request(SYMLINK, unique, parent, name_bytes(name) + name_bytes(text))


def link(unique, node, parent, name):
    """A further name of the file that this node is; nothing may stand there."""
    return request(LINK, unique, parent, struct.pack("<Q", node) + name_bytes(name))


def readlink(unique, node):
    return request(READLINK, unique, node)


def unlink(unique, parent, name):
    return request(UNLINK, unique, parent, name_bytes(name))


def rmdir(unique, parent, name):
    return request(RMDIR, unique, parent, name_bytes(name))


def rename(unique, parent, name, new_parent, new_name):
    return request(RENAME, unique, parent, struct.pack("<Q", new_parent) + name_bytes(name) + name_bytes(new_name))


def rename2(unique, parent, name, new_parent, new_name, flags):
    """As RENAME with flags 0; with NO_REPLACE or EXCHANGE what they say."""
    return request(RENAME2, unique, parent, struct.pack("<QII", new_parent, flags, 0) + name_bytes(name) + name_bytes(new_name))


def statfs(unique, node):
    return request(STATFS, unique, node)


def open_file(unique, node, flags):
    return request(OPEN, unique, node, struct.pack("<II", flags, 0))


def create(unique, parent, name, flags, mode=0, umask=0):
    """The mode and the umask count as those of a MKDIR."""
    return request(CREATE, unique, parent, struct.pack("<IIII", flags, mode, umask, 0) + name_bytes(name))


def read(unique, node, handle, offset, size):
    return request(READ, unique, node, READ_IN.pack(handle, offset, size, 0, 0, 0, 0))


def write(unique, node, handle, offset, data):
    return request(WRITE, unique, node, READ_IN.pack(handle, offset, len(data), 0, 0, 0, 0) + data)


def fsync(unique, node, handle):
    return request(FSYNC, unique, node, FSYNC_IN.pack(handle, 0, 0))


def flush(unique, node, handle):
    return request(FLUSH, unique, node, RELEASE_IN.pack(handle, 0, 0, 0))


def release(unique, node, handle):
    return request(RELEASE, unique, node, RELEASE_IN.pack(handle, 0, 0, 0))


def opendir(unique, node):
    return request(OPENDIR, unique, node, bytes(8))


def readdir(unique, node, handle, offset, size):
    return request(READDIR, unique, node, READ_IN.pack(handle, offset, size, 0, 0, 0, 0))


def readdirplus(unique, node, handle, offset, size):
    return request(READDIRPLUS, unique, node, READ_IN.pack(handle, offset, size, 0, 0, 0, 0))


def releasedir(unique, node, handle):
    return request(RELEASEDIR, unique, node, RELEASE_IN.pack(handle, 0, 0, 0))


def fsyncdir(unique, node, handle):
    return request(FSYNCDIR, unique, node, FSYNC_IN.pack(handle, 0, 0))


# --- Replies ---

def read_whole(read, count):
    """So many bytes, or fewer where the server has ended."""
    pieces = []
    while count:
        piece = read(count)
        if not piece:
            break
        pieces.append(piece)
        count -= len(piece)
    return b"".join(pieces)


def read_reply(read):
    """The unique number, the error (0 or negative) and the body of the next reply; None where there is none, or a part of one."""
    head = read_whole(read, REPLY.size)
    if len(head) < REPLY.size:
        return None
    length, error, unique = REPLY.unpack(head)
    body = read_whole(read, length - REPLY.size)
    return (unique, error, body) if len(body) == length - REPLY.size else None


def node_of(body):
    """The node of an entry."""
    return struct.unpack_from("<Q", body)[0]


def handle_of(body):
    """The handle of an open file or folder."""
    return struct.unpack_from("<Q", body)[0]


def created_of(body):
    """The node of a file that was made, and its handle."""
    return node_of(body), struct.unpack_from("<Q", body, ENTRY_LEN)[0]


def written_of(body):
    """How many bytes were written."""
    return struct.unpack_from("<I", body)[0]


def attr_at(body, at):
    ino, size, blocks, *told, mode, nlink, uid, gid, rdev, blksize, _ = ATTR.unpack_from(body, at)
    # Seconds may be before 1970: in two's complement.
    times = [((seconds + 2**63) % 2**64 - 2**63) * 10**9 + nanos for seconds, nanos in zip(told[:3], told[3:])]
    return Attr(ino, size, blocks, mode, nlink, uid, gid, blksize, *times, rdev)


def attr_of(body):
    """The attributes that GETATTR and SETATTR are answered."""
    return attr_at(body, 16)


def entry_of(body, at=0):
    """The entry that LOOKUP, MKDIR, SYMLINK, LINK and CREATE are answered."""
    node, generation = struct.unpack_from("<QQ", body, at)
    return Entry(node, generation, attr_at(body, at + ENTRY_OUT.size))


def agreed_of(body):
    return Agreed(*struct.unpack_from("<IIIIHHIIH", body))


def statfs_of(body):
    return Statfs(*struct.unpack_from("<QQQQQIII", body))


def heads_of(body, lead=0):
    """Where each name of a page begins, with the index of the next one, its kind and the name. An entry leads it in a READDIRPLUS."""
    at = 0
    while at < len(body):
        _, following, length, kind = DIRENT.unpack_from(body, at + lead)
        start = at + lead + DIRENT.size
        yield at, following, kind, body[start:start + length].decode("utf-8", "surrogateescape")
        at = (start + length + 7) // 8 * 8


def dirents_of(body):
    """A page of READDIR."""
    return [Dirent(name, following, kind) for _, following, kind, name in heads_of(body)]


def dirents_plus_of(body):
    """A page of READDIRPLUS."""
    found = []
    for at, following, kind, name in heads_of(body, ENTRY_LEN):
        entry = entry_of(body, at)
        found.append(Dirent(name, following, kind, entry.node, entry.attr if entry.node else None))
    return found


def names_of(body):
    """The names of a page of READDIR, each with the index of the next one."""
    return [(name, following) for _, following, _, name in heads_of(body)]


def entries_of(body):
    """The names of a page of READDIRPLUS, each with the index of the next one and its node, which is 0 where none was given."""
    return [(name, following, struct.unpack_from("<Q", body, at)[0]) for at, following, _, name in heads_of(body, ENTRY_LEN)]


# --- Sessions ---

class Client:
    """One session with a server. Its methods bear the requests' names, and raise OSError where the reply is an error."""

    def __init__(self, receive, send, leave=lambda: None):
        """Takes the calls that read at most so many bytes, write bytes, and close; `connect` and `over` know them."""
        self.recv, self.sendall, self.close = receive, send, leave
        self.unique = 0
        self.caller = 0, 0  # the user and the group that `ask` says are asking

    @classmethod
    def connect(cls, path, seconds=5):
        """A client of the server that listens on that socket, or does so within that time."""
        last = time.monotonic() + seconds
        while True:
            link = socket.socket(socket.AF_UNIX, socket.SOCK_STREAM)
            try:
                link.connect(path)
                client = cls(link.recv, link.sendall, link.close)
                client.connection = link
                return client
            except (FileNotFoundError, ConnectionRefusedError):
                link.close()
                if time.monotonic() > last:
                    raise
                time.sleep(0.005)
            except OSError:
                link.close()
                raise

    @classmethod
    def over(cls, reader, writer):
        """A client that reads and writes two streams, such as those of a process that runs `mirrord pipe`."""
        def send(data):
            writer.write(data)
            writer.flush()
        return cls(reader.read, send, writer.close)

    def __enter__(self):
        return self

    def __exit__(self, *_):
        self.close()

    # What the methods below are made of.

    def number(self):
        self.unique += 1
        return self.unique

    def exchange(self, frame):
        """Sends a frame of any bytes, and reads a reply: its unique number, its error and its body; None where the server has ended."""
        self.sendall(frame)
        return read_reply(self.recv)

    def ask(self, frame, about=None):
        """Sends a request that this client numbered, and hands out the body of its reply."""
        _, opcode, wanted = struct.unpack_from("<IIQ", frame)
        reply = self.exchange(by(frame, *self.caller))
        if reply is None:
            raise ConnectionResetError(errno.ECONNRESET, "the server ended before it answered " + NAMES[opcode])
        unique, error, body = reply
        if unique != wanted:
            raise ConnectionError(errno.EPROTO, f"a reply to request {unique} where {wanted} is due")
        if error:
            raise OSError(-error, NAMES[opcode] + ": " + os.strerror(-error), *([] if about is None else [about]))
        return body

    # The session.

    def init(self, major=MAJOR, minor=MINOR, max_readahead=131072, flags=0):
        return agreed_of(self.ask(init(self.number(), major, minor, max_readahead, flags)))

    def destroy(self):
        self.ask(destroy(self.number()))

    def interrupt(self, asked):
        """Has no reply, and the server passes it over."""
        self.sendall(interrupt(self.number(), asked))

    # Nodes.

    def lookup(self, parent, name):
        return entry_of(self.ask(lookup(self.number(), parent, name), name))

    def forget(self, node, lookups=1):
        """Has no reply."""
        self.sendall(forget(self.number(), node, lookups))

    def batch_forget(self, pairs):
        """Takes pairs of a node and a number of lookups; has no reply."""
        self.sendall(batch_forget(self.number(), pairs))

    def getattr(self, node):
        return attr_of(self.ask(getattr_of(self.number(), node)))

    def setattr_size(self, node, size, handle=None):
        return attr_of(self.ask(setattr_size(self.number(), node, size, handle)))

    def setattr(self, node, handle=None, **parts):
        """Sets `mode`, `uid`, `gid`, `size`, `atime` and `mtime`, those of them that are given; times in nanoseconds since 1970, or NOW."""
        return attr_of(self.ask(setattr_parts(self.number(), node, handle, **parts)))

    def mkdir(self, parent, name, mode=0, umask=0):
        return entry_of(self.ask(mkdir(self.number(), parent, name, mode, umask), name))

    def symlink(self, parent, name, text):
        """Where the server shows links: makes a symbolic link with this text."""
        return entry_of(self.ask(symlink(self.number(), parent, name, text), name))

    def link(self, node, parent, name):
        """Where the server shows links: gives a file, or what else is no folder, a further name. Each name has a node of its own, and with `--attributes host` both tell one `ino`."""
        return entry_of(self.ask(link(self.number(), node, parent, name), name))

    def readlink(self, node):
        """The text of a symbolic link, as bytes."""
        return self.ask(readlink(self.number(), node))

    def unlink(self, parent, name):
        self.ask(unlink(self.number(), parent, name), name)

    def rmdir(self, parent, name):
        self.ask(rmdir(self.number(), parent, name), name)

    def rename(self, parent, name, new_parent, new_name):
        self.ask(rename(self.number(), parent, name, new_parent, new_name), name)

    def rename_new(self, parent, name, new_parent, new_name):
        """As `rename`, but EEXIST where something stands at the new name."""
        self.ask(rename2(self.number(), parent, name, new_parent, new_name, NO_REPLACE), name)

    def exchange_names(self, parent, name, new_parent, new_name):
        """A server of a real folder refuses this with EINVAL."""
        self.ask(rename2(self.number(), parent, name, new_parent, new_name, EXCHANGE), name)

    def statfs(self, node=ROOT):
        return statfs_of(self.ask(statfs(self.number(), node)))

    # Files.

    def create(self, parent, name, flags=os.O_RDWR, mode=0, umask=0):
        """Makes a file and opens it: its entry, and its handle."""
        body = self.ask(create(self.number(), parent, name, flags, mode, umask), name)
        return entry_of(body), created_of(body)[1]

    def open(self, node, flags=os.O_RDONLY):
        """The handle of a file, with the access that the flags ask for."""
        return handle_of(self.ask(open_file(self.number(), node, flags)))

    def read(self, node, handle, offset, size):
        return self.ask(read(self.number(), node, handle, offset, size))

    def write(self, node, handle, offset, data):
        """How many bytes were written; a request takes 65,536 at most."""
        return written_of(self.ask(write(self.number(), node, handle, offset, data)))

    def flush(self, node, handle):
        self.ask(flush(self.number(), node, handle))

    def fsync(self, node, handle):
        self.ask(fsync(self.number(), node, handle))

    def release(self, node, handle):
        self.ask(release(self.number(), node, handle))

    # Folders.

    def opendir(self, node):
        return handle_of(self.ask(opendir(self.number(), node)))

    def readdir(self, node, handle, offset=0, size=PAGE):
        """A page of names from an index on."""
        return dirents_of(self.ask(readdir(self.number(), node, handle, offset, size)))

    def readdirplus(self, node, handle, offset=0, size=PAGE):
        """A page of names with their nodes. Each node but 0 was given out once more."""
        return dirents_plus_of(self.ask(readdirplus(self.number(), node, handle, offset, size)))

    def releasedir(self, node, handle):
        self.ask(releasedir(self.number(), node, handle))

    def fsyncdir(self, node, handle):
        self.ask(fsyncdir(self.number(), node, handle))

    # Whole folders and files.

    def _pages(self, turn, node, size):
        handle = self.opendir(node)
        try:
            offset = 0
            while page := turn(node, handle, offset, size):
                yield from page
                offset = page[-1].following
        finally:
            self.releasedir(node, handle)

    def names(self, node=ROOT, size=PAGE):
        """Each name of a folder, `.` and `..` first, by pages of so many bytes."""
        return self._pages(self.readdir, node, size)

    def entries(self, node=ROOT, size=PAGE):
        """The same with nodes; each but 0 is the caller's to forget."""
        return self._pages(self.readdirplus, node, size)

    def pieces(self, node, size=MOST_READ):
        """The bytes of a file, piece by piece."""
        handle = self.open(node, os.O_RDONLY)
        try:
            offset = 0
            while piece := self.read(node, handle, offset, size):
                yield piece
                offset += len(piece)
        finally:
            self.release(node, handle)
