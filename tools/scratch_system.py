"""A system to try things in, for tools/try-release, tools/try-units and tools/try-docs: this one's files under an overlay in memory, with nothing of what was installed beside its own packages.

It stands in a namespace of mounts, in which `enter` runs the script anew, and is gone with it. Root alone can make it.
"""
import os
import stat
import subprocess
import sys

SEEN = ("bin", "boot", "dev", "etc", "lib", "lib32", "lib64", "libx32", "media", "mnt", "proc", "run", "sbin", "srv", "sys", "usr", "var")
# What programs of the system write of themselves: dpkg and its triggers in some files, and all that run in /run.
BOOKS = ("var/lib/dpkg", "var/log", "var/cache", "etc/ld.so.cache")
PASSING = ("tmp", "run")
ENVIRONMENT = {"PATH": "/usr/local/sbin:/usr/local/bin:/usr/sbin:/usr/bin:/sbin:/bin", "LC_ALL": "C", "TZ": "UTC", "HOME": "/tmp", "DEBIAN_FRONTEND": "noninteractive"}


def can_enter():
    """Whether there can be such a namespace."""
    return os.getuid() == 0 and subprocess.run(["unshare", "--mount", "true"], stderr=subprocess.DEVNULL).returncode == 0


def enter(*words):
    """Runs this script with these words in a namespace of its own: its status."""
    return subprocess.run(["unshare", "--mount", "--propagation", "private", sys.executable, os.path.realpath(sys.argv[0]), *words]).returncode


def walked(top):
    return [os.path.join(at, name) for at, folders, files in os.walk(top) for name in [*folders, *files]]


class System:
    """The system, in an empty folder."""

    def __init__(self, place):
        self.upper, self.root, self.hidden = place + "/upper", place + "/root", []
        self.mount("-t", "tmpfs", "scratch", place)
        for name in ("upper", "work", "root"):
            os.mkdir(f"{place}/{name}")
        self.mount("-t", "overlay", "scratch", "-o", f"lowerdir=/,upperdir={self.upper},workdir={place}/work", self.root)
        for name in ("proc", "sys", "dev"):
            self.mount("--rbind", "/" + name, f"{self.root}/{name}")
        for name in [name for name in os.listdir("/") if name not in SEEN and os.path.isdir("/" + name)] + ["usr/local", "run"]:
            self.mount("-t", "tmpfs", "scratch", f"{self.root}/{name}")
            self.hidden.append(name)
        for name in ("bin", "lib", "share"):
            os.mkdir(f"{self.root}/usr/local/{name}")

    def mount(self, *words):
        subprocess.run(["mount", *words], check=True)

    def words(self, *words):
        """What runs a command there."""
        return ["chroot", self.root, *words]

    def write(self, name, text):
        with open(self.root + name, "w", encoding="utf-8") as file:
            file.write(text)

    def read(self, name):
        with open(self.root + name, encoding="utf-8") as file:
            return file.read()

    def names(self):
        """The files and folders that this system has and the real one has not, and those that it has lost; not what passes."""
        found = {f"/{name}/{os.path.relpath(path, f'{self.root}/{name}')}" for name in self.hidden if name not in PASSING for path in walked(f"{self.root}/{name}")}
        for path in walked(self.upper):
            name, of = os.path.relpath(path, self.upper), os.lstat(path)
            if stat.S_ISCHR(of.st_mode) and of.st_rdev == 0:
                found.add("lost: /" + name)
            elif not os.path.lexists("/" + name) and not name.startswith(BOOKS):
                found.add("/" + name)
        return found
