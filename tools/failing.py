"""Runs the built program where one of its calls fails: what three sessions with it are answered, over lines, over pipes and over a socket."""
import concurrent.futures
import os
import shutil
import socket
import subprocess
import sys
import tempfile
import time
from typing import NamedTuple

sys.dont_write_bytecode = True
import fuse_client as fuse

TOOLS = os.path.dirname(os.path.abspath(__file__))
PROGRAM = os.path.join(os.path.dirname(TOOLS), "crates/mirrord/out/mirrord")
WAIT = 20
MEMORY, LINK = b"mirrord: out of memory\n", b"mirrord: the link failed\n"


def sessions(program):
    """The sessions by their names: a request of each sort, the one whose calls and replies fail in turn in the tests, and one of links, for which `words_for` has them shown."""
    handle = first_handle(program)
    return {"the session of each sort": each_sort(handle), "the fixed session": fixed(handle), "the session of links": links()}


def words_for(name, words):
    """The words of a program for the session of that name."""
    return [*words, *["--kinds", "all"] * (name == "the session of links")]


def first_handle(program):
    """The handle that this program gives the first folder that is opened in a session."""
    lines = b"".join(frame.hex().encode() + b"\n" for frame in (fuse.init(1), fuse.opendir(2, fuse.ROOT)))
    output = subprocess.run([program, "hex"], input=lines, stdout=subprocess.PIPE, timeout=WAIT, check=True).stdout
    return fuse.handle_of(bytes.fromhex(output.split()[1].decode())[16:])


def each_sort(folder):
    return [
        fuse.init(1),
        fuse.lookup(2, fuse.ROOT, "a"),
        fuse.getattr_of(3, 2),
        fuse.open_file(4, 2, os.O_RDWR),
        fuse.write(5, 2, 1, 3, b"de"),
        fuse.read(6, 2, 1, 0, 10),
        fuse.fsync(7, 2, 1),
        fuse.flush(8, 2, 1),
        fuse.mkdir(9, fuse.ROOT, "m"),
        fuse.rename(10, fuse.ROOT, "a", 3, "b"),
        fuse.create(11, 3, "n", os.O_RDWR),
        fuse.unlink(12, 3, "b"),
        fuse.read(13, 2, 1, 0, 10),
        fuse.lookup(14, fuse.ROOT, "e"),
        fuse.opendir(15, fuse.ROOT),
        fuse.readdir(16, fuse.ROOT, folder, 0, 4096),
        fuse.readdirplus(17, fuse.ROOT, folder, 0, 4096),
        fuse.releasedir(18, fuse.ROOT, folder),
        fuse.release(19, 2, 1),
        fuse.unlink(20, fuse.ROOT, "e"),
        fuse.rmdir(21, fuse.ROOT, "d"),
        fuse.statfs(22, fuse.ROOT),
        fuse.lookup(23, fuse.ROOT, "zz"),
        fuse.destroy(24),
    ]


def fixed(folder):
    return [
        fuse.init(1),
        fuse.lookup(2, fuse.ROOT, "a"),
        fuse.open_file(3, 2, os.O_RDWR),
        fuse.write(4, 2, 1, 3, b"de"),
        fuse.unlink(5, fuse.ROOT, "a"),
        fuse.lookup(6, fuse.ROOT, "e"),
        fuse.rename(7, fuse.ROOT, "e", fuse.ROOT, "b"),
        fuse.mkdir(8, fuse.ROOT, "m"),
        fuse.rmdir(9, fuse.ROOT, "m"),
        fuse.opendir(10, fuse.ROOT),
        fuse.readdirplus(11, fuse.ROOT, folder, 0, 4096),
        fuse.release(12, 2, 1),
        fuse.releasedir(13, fuse.ROOT, folder),
        fuse.destroy(14),
    ]


def links():
    """Of the tree in memory, where no file gets a further name, node 4 is none."""
    return [
        fuse.init(1),
        fuse.symlink(2, fuse.ROOT, "l", "a"),
        fuse.readlink(3, 2),
        fuse.lookup(4, fuse.ROOT, "a"),
        fuse.link(5, 3, fuse.ROOT, "b"),
        fuse.link(6, 3, fuse.ROOT, "e"),
        fuse.open_file(7, 4, os.O_RDWR),
        fuse.write(8, 4, 1, 3, b"de"),
        fuse.unlink(9, fuse.ROOT, "b"),
        fuse.link(10, 2, fuse.ROOT, "m"),
        fuse.read(11, 4, 1, 0, 10),
        fuse.release(12, 4, 1),
        fuse.unlink(13, fuse.ROOT, "l"),
        fuse.getattr_of(14, 3),
        fuse.destroy(15),
    ]


class Ran(NamedTuple):
    """What a run wrote and left: its whole replies, what else it wrote, its status, its standard error, the folder, and whether the call came."""
    replies: list
    rest: bytes
    status: int
    fault: bytes
    folder: dict
    came: bool


def asked_program():
    """The program that the command line names, or that the first build leaves."""
    program = os.path.abspath(sys.argv[1]) if len(sys.argv) > 1 else PROGRAM
    if not os.access(program, os.X_OK):
        raise SystemExit(f"{program} is not there: build it first")
    return program


def build(place):
    """The library that has a call fail, built there."""
    library = os.path.join(place, "fail_call.so")
    subprocess.run([os.environ.get("CC", "cc"), "-shared", "-fPIC", "-O1", "-o", library, os.path.join(TOOLS, "fail_call.c")], check=True)
    return library


def fill(root):
    """The sample tree."""
    os.makedirs(os.path.join(root, "d"))
    for name, text in (("a", b"abc"), ("e", b"")):
        with open(os.path.join(root, name), "wb") as file:
            file.write(text)


def look(root):
    """What stands below a folder, with the bytes of each file."""
    found = {}
    for folder, folders, files in os.walk(root):
        for name in files:
            with open(os.path.join(folder, name), "rb") as file:
                found[os.path.relpath(file.name, root)] = file.read()
        for name in folders:
            found[os.path.relpath(os.path.join(folder, name), root) + "/"] = None
    return found


def split(output):
    """The whole replies that bytes begin with, and the rest."""
    replies = []
    while len(output) >= 16 and len(output) >= int.from_bytes(output[:4], "little") >= 16:
        length = int.from_bytes(output[:4], "little")
        replies.append(output[:length])
        output = output[length:]
    return replies, output


def talk(process, path, sent):
    """Sends bytes to a server that listens there, and reads what it answers to its end."""
    limit = time.monotonic() + WAIT
    with socket.socket(socket.AF_UNIX) as client:
        client.settimeout(WAIT)
        while True:
            try:
                client.connect(path)
                break
            except OSError:
                if process.poll() is not None:
                    return b""
                if time.monotonic() > limit:
                    raise
                time.sleep(0.0005)
        output = b""
        try:
            client.sendall(sent)
            client.shutdown(socket.SHUT_WR)
            while piece := client.recv(1 << 16):
                output += piece
        except (BrokenPipeError, ConnectionResetError):
            pass
        return output


def run(library, program, words, frames, sort, number):
    """Runs the program with these words, where its call of that sort and number fails. ROOT and SOCKET in the words stand for paths of the run's own."""
    place = tempfile.mkdtemp(prefix="mirrord-failing-")
    told, tell = os.pipe()
    try:
        root, path = os.path.join(place, "root"), os.path.join(place, "socket")
        fill(root)
        named = [word.replace("ROOT", root).replace("SOCKET", path) for word in words]
        environment = {**os.environ, "LD_PRELOAD": library, "FAIL_CALL": sort, "FAIL_AT": str(number), "FAIL_TELL": str(tell)}
        process = subprocess.Popen([program, *named], stdin=subprocess.PIPE, stdout=subprocess.PIPE, stderr=subprocess.PIPE, pass_fds=[tell], env=environment)
        os.close(tell)
        lines = b"".join(frame.hex().encode() + b"\n" for frame in frames)
        sent = lines if "hex" in words else b"".join(frames)
        if "serve" in words and frames:
            output = talk(process, path, sent)
            fault = process.communicate(timeout=WAIT)[1]
        else:
            output, fault = process.communicate(sent, timeout=WAIT)
        if "hex" in words:
            whole, _, rest = output.rpartition(b"\n")
            replies = [bytes.fromhex(line.decode()) for line in whole.split(b"\n")] if whole else []
        else:
            replies, rest = split(output)
        fault = fault.replace(place.encode(), b"PLACE")
        return Ran(replies, rest, process.returncode, fault, look(root), os.read(told, 1) != b"")
    finally:
        os.close(told)
        shutil.rmtree(place, ignore_errors=True)


def in_turn(library, program, words, frames, sort):
    """Runs where no call fails, where the first does, where the second does, and so on, until a run makes no call of that number."""
    yield run(library, program, words, frames, "none", 1)
    number, step = 1, 64
    with concurrent.futures.ThreadPoolExecutor(os.cpu_count()) as pool:
        while True:
            for ran in pool.map(lambda at: run(library, program, words, frames, sort, at), range(number, number + step)):
                if not ran.came:
                    return
                yield ran
            number += step


def head(reply):
    """Its error and its unique."""
    return fuse.REPLY.unpack_from(reply)[1:]


def first_other(plain, replies):
    """The index of the first reply that differs."""
    return next((n for n, (mine, other) in enumerate(zip(plain, replies)) if mine != other), min(len(plain), len(replies)))
