"""Mounts a folder by each of the servers that are compared, and unmounts it."""
import ctypes
import os
import signal
import subprocess
import time

import building

LIBC = ctypes.CDLL(None, use_errno=True)
CLONE_NEWNS, MS_NOSUID, MS_NODEV, MS_REC, MS_PRIVATE, MNT_DETACH, PR_SET_PDEATHSIG = 0x20000, 2, 4, 0x4000, 1 << 18, 2, 1
DEVICE = "/dev/fuse"
# What the kernel is told of each mount that is made here. bindfs and mergerfs mount by themselves, as root with the same two words at the end.
OPTIONS = "rootmode=40000,user_id=0,group_id=0,default_permissions,allow_other"
SECONDS = 10  # how long a server may take to begin, and to end after the unmount


class Failed(Exception):
    """Why something was not measured."""


def mirror(*words):
    return lambda tools, root, _: [tools.mirror, root, *words]


def mirrord(*words, other=False):
    return lambda tools, root, _: [tools.other if other else tools.program, "device", "--root", root, *words]


class Server:
    """What it is called in the table, the words that start it, and whether it mounts by itself."""

    def __init__(self, title, command=None, mounts=False):
        self.title, self.command, self.mounts = title, command, mounts


# Each of them lets the kernel keep names and attributes for a second: so say mirrord's replies, and so it is with libfuse, bindfs and mergerfs where nothing
# else is asked for. bindfs is one thread and mergerfs several, as they come; both stay in the foreground, so that their end can be waited for.
SERVERS = {
    "plain": Server("plain folder"),
    "libfuse": Server("libfuse, 1 thread", mirror("1")),
    "libfuse4": Server("libfuse, 4 threads", mirror("4")),
    "clone4": Server("libfuse, 4 threads, `clone_fd`", mirror("4", "clone")),
    "bindfs": Server("bindfs", lambda tools, root, where: ["bindfs", "-f", root, where], mounts=True),
    "mergerfs": Server("mergerfs", lambda tools, root, where: ["mergerfs", "-f", root, where], mounts=True),
    "single": Server("mirrord `-s`", mirrord("-s")),
    "two": Server("mirrord, 2 workers", mirrord("--workers", "2")),
    "four": Server("mirrord, 4 workers", mirrord("--workers", "4")),
    "other": Server("other build, `-s`", mirrord("-s", other=True)),
    "other2": Server("other build, 2 workers", mirrord("--workers", "2", other=True)),
    "other4": Server("other build, 4 workers", mirrord("--workers", "4", other=True)),
}


def called(name, *arguments):
    """A call of the C library; an error where it fails."""
    if getattr(LIBC, name)(*arguments):
        raise OSError(ctypes.get_errno(), f"{name}: {os.strerror(ctypes.get_errno())}")


def own_mounts():
    """From here on nobody else sees what is mounted, and it is gone with this process and its servers."""
    called("unshare", CLONE_NEWNS)
    called("mount", None, b"/", None, MS_REC | MS_PRIVATE, None)


def mount_memory(where):
    """A file system in memory. It may grow further than there is memory, since mergerfs makes nothing where less than 4 GiB are free."""
    called("mount", b"bench", os.fsencode(where), b"tmpfs", MS_NOSUID | MS_NODEV, b"size=64g,mode=755")


def dies_with_us():
    LIBC.prctl(PR_SET_PDEATHSIG, signal.SIGKILL)


def is_mounted(where):
    with open("/proc/self/mountinfo") as lines:
        return any(line.split()[4] == where for line in lines)


class Mount:
    """A folder mounted by a server, which runs. `folder` is where a program finds the files."""

    def __init__(self, server, tools, root, where, said):
        self.server, self.where, self.said, self.process = server, where, said, None
        self.folder = where if server.command else root
        if server.command:
            self.start(server.command(tools, root, where), tools.given.cores[1:])
            self.wait_until_it_answers()

    def start(self, command, cores):
        with open(self.said, "wb") as said:
            words = dict(stdout=subprocess.DEVNULL, stderr=said, preexec_fn=dies_with_us)
            if self.server.mounts:
                self.process = building.start_on(cores, command, stdin=subprocess.DEVNULL, **words)
                return
            device = os.open(DEVICE, os.O_RDWR | os.O_CLOEXEC)
            try:
                called("mount", b"mirror", os.fsencode(self.where), b"fuse.mirror", MS_NOSUID | MS_NODEV, f"fd={device},{OPTIONS}".encode())
                self.process = building.start_on(cores, command, stdin=device, **words)
            finally:
                # The server's is the only one: where it ends, what is asked of the mount fails, and hangs no program.
                os.close(device)

    def wait_until_it_answers(self):
        end = time.monotonic() + SECONDS
        while not is_mounted(self.where) and self.process.poll() is None and time.monotonic() < end:
            time.sleep(0.002)
        asked = subprocess.Popen(["stat", "-f", self.where], stdout=subprocess.DEVNULL, stderr=subprocess.DEVNULL)
        try:
            right = asked.wait(SECONDS) == 0 and is_mounted(self.where)
        except subprocess.TimeoutExpired:
            right = False
        if not right:
            self.end()
            asked.wait()
            raise Failed("it does not begin: " + self.words())

    def words(self):
        """What the server said, in one line."""
        with open(self.said, errors="replace") as said:
            return " ".join(said.read().split())[:200] or "it said nothing"

    def processor(self):
        """The seconds for which the server's threads ran."""
        if not self.process:
            return 0
        tasks = f"/proc/{self.process.pid}/task"
        return sum(int(open(f"{tasks}/{task}/schedstat").read().split()[0]) for task in os.listdir(tasks)) / 1e9

    def kill(self):
        """Frees whoever waits for an answer."""
        if self.process and self.process.poll() is None:
            self.process.kill()

    def end(self):
        """Unmounts, and waits for the server's end: its status, None where it had to be killed or there is none."""
        if not self.process:
            return 0
        where = os.fsencode(self.where)
        for _ in range(100):
            if not is_mounted(self.where) or LIBC.umount2(where, 0) == 0:
                break
            time.sleep(0.02)  # what a program that was killed had open may be closed a moment later
        else:
            LIBC.umount2(where, MNT_DETACH)
        try:
            return self.process.wait(SECONDS)
        except subprocess.TimeoutExpired:
            self.kill()
            self.process.wait()
            return None
