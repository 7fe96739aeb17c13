"""What `examples/mount` is asked for, by its own words and by mount(8): folders and options."""
import getopt
import os
import shutil
import stat
import sys

HELPER = os.path.basename(sys.argv[0]) == "mount.fuse.mirrord"
BUILT = os.path.join(os.path.dirname(os.path.dirname(os.path.realpath(__file__))), "crates/mirrord/out/mirrord")

# The flags of mount(2) by their options, and the options that take one away.
FLAGS = {"ro": 1, "nosuid": 2, "nodev": 4, "noexec": 8, "sync": 16, "dirsync": 128, "nosymfollow": 256, "noatime": 1024, "nodiratime": 2048,
         "relatime": 1 << 21, "strictatime": 1 << 24, "lazytime": 1 << 25}
WITHOUT = {"rw": "ro", "suid": "nosuid", "dev": "nodev", "exec": "noexec", "async": "sync", "symfollow": "nosymfollow", "atime": "noatime",
           "diratime": "nodiratime", "norelatime": "relatime", "nostrictatime": "strictatime", "nolazytime": "lazytime"}
# What the kernel's FUSE itself knows, what the server is told by words of its own, and what mount(8) has worked off before it calls.
KERNELS = {"allow_other", "default_permissions", "max_read", "blksize"}
SERVERS = {"kinds", "names", "attributes", "workers", "uid", "gid", "nodes", "files", "requests", "counts", "postings"}
OWN = {"single", "nosingle", "server", "log"}
PASSED_OVER = {"defaults", "auto", "noauto", "user", "nouser", "users", "owner", "noowner", "group", "nogroup", "_netdev", "nofail", "comment", "silent", "loud"}

# The words of a call: a helper of mount(8) is told to let unknown options pass (-s), to do nothing (-f), and what is of no use here.
WORDS = ("sfnvo:t:N:",) if HELPER else ("sbho:", ["server=", "log=", "kinds=", "names=", "attributes=", "workers=", "single", "no-single", "allow-other", "background", "help"])
OPTION_OF = {"-s": "single", "--single": "single", "--no-single": "nosingle", "--allow-other": "allow_other"}


class Failed(Exception):
    """Why it is not mounted, or not any more."""


def read_words(usage):
    """Whether to go to the background, the options, and both folders; none where nothing is to be done."""
    try:
        flags, folders = getopt.gnu_getopt(sys.argv[1:], *WORDS)
    except getopt.GetoptError as error:
        raise Failed(str(error)) from None
    given, words = dict(flags), []
    if "-h" in given or "--help" in given:
        print(usage.strip())
        sys.exit(0)
    if len(folders) != 2:
        raise Failed("two folders are wanted, ROOT and MOUNTPOINT")
    for name, value in flags:
        if name == "-o":
            words += filter(None, value.split(","))
        elif not HELPER and name in OPTION_OF:
            words.append(OPTION_OF[name])
        elif name.startswith("--") and value:
            words.append(f"{name[2:]}={value}")
    background = HELPER or "-b" in given or "--background" in given
    return background, Options(words, HELPER and "-s" in given), None if HELPER and "-f" in given else look_at(*map(os.path.realpath, folders))


class Options:
    """The options, sorted by who is told: mount(2) as flags, the kernel's FUSE, the server, and this program."""

    def __init__(self, words, unknown_too):
        self.flags, self.of_flags, self.kernel, self.of_server, self.own = FLAGS["nosuid"] | FLAGS["nodev"], [], ["default_permissions"], {"files": "65536"}, {}
        for word in words:
            name, _, value = word.partition("=")
            if name in FLAGS or name in WITHOUT:
                self.flags = self.flags | FLAGS[name] if name in FLAGS else self.flags & ~FLAGS[WITHOUT[name]]
                self.of_flags.append(name)
            elif name in KERNELS:
                self.kernel += [word] * (word not in self.kernel)
            elif name in SERVERS:
                self.of_server[name] = value
            elif name in OWN:
                self.own.update({name: value} if name in ("server", "log") else {"single": name == "single"})
            elif not (name in PASSED_OVER or name.startswith("x-") or unknown_too):
                raise Failed(f"the option {word} is unknown")

    def server(self, root):
        """The command that serves the device on its standard input."""
        program = self.own.get("server") or (BUILT if os.path.exists(BUILT) else shutil.which("mirrord") or "/usr/local/bin/mirrord")
        program = os.path.abspath(program) if "/" in program else program
        told = dict(self.of_server)
        if told.get("attributes") == "fixed":
            told = {"uid": os.getuid(), "gid": os.getgid(), **told}
        # A server that is not root may write a file that was made read-only in the thread that made it alone.
        single = self.own.get("single", os.geteuid() != 0 and "workers" not in told)
        logged = [os.path.join(os.path.dirname(os.path.realpath(__file__)), "log"), os.path.realpath(self.own["log"])] if self.own.get("log") else []
        return [*logged, program, "device", "--root", root, *(word for name, value in told.items() for word in ("--" + name, str(value))), *["-s"] * single]


def look_at(root, mountpoint):
    """Both folders, if they can be mounted."""
    for folder in (root, mountpoint):
        try:
            if not stat.S_ISDIR(os.stat(folder).st_mode):
                raise Failed(folder + " is not a folder")
        except OSError as error:
            raise Failed(f"{folder}: {error.strerror}") from None
    if os.path.commonpath([root, mountpoint]) in (root, mountpoint):
        raise Failed("one folder lies in the other: the server would ask itself, and wait for ever")
    return root, mountpoint
