"""The programs that are run in a folder, what each finds there, and how much of its work it does in a second."""
import json
import os
import random
import shutil
import signal
import subprocess
import sys
import time

import building
from servers import Failed

MAKE = """
import os, sys, time
begun = time.perf_counter()
for number in range(int(sys.argv[2])):
    made = os.open(f"{sys.argv[1]}/file-{number:05}", os.O_WRONLY | os.O_CREAT | os.O_EXCL, 0o644)
    os.write(made, bytes(100))
    os.close(made)
print(time.perf_counter() - begun)
"""
RENAME = """
import os, sys, time
begun = time.perf_counter()
for number in range(int(sys.argv[2])):
    os.rename(f"{sys.argv[1]}/file-{number:05}", f"{sys.argv[1]}/moved-{number:05}")
print(time.perf_counter() - begun)
"""
GIT = """
set -e
git clone -q --no-hardlinks "$1" "$2/clone"
cd "$2/clone"
git status --short
for folder in f-00 f-01 f-02; do for file in $folder/*; do echo more >> "$file"; done; done
mkdir new
for number in 1 2 3 4 5 6 7 8 9; do echo $number > new/$number; done
git status --short
git add -A
git commit -q -m more
git status --short
"""


class Sizes:
    """How much each program has to do: enough for some tenths of a second, or with `quick` little."""

    def __init__(self, quick):
        self.fio_ms, self.fio_bytes = (100, 4 << 20) if quick else (700, 64 << 20)
        self.files = 300 if quick else 5000
        self.folders, self.in_folder = (10, 10) if quick else (100, 20)
        self.big_folders, self.in_big = (20, 20) if quick else (200, 100)
        self.inserts = 50 if quick else 2000


class Stock:
    """What the programs begin with, made once beside the folders that are served."""

    def __init__(self, place, sizes, seconds, cores):
        self.place, self.sizes, self.seconds, self.cores = place, sizes, seconds, cores
        self.environment = {"PATH": os.environ["PATH"], "HOME": place, "LC_ALL": "C", "GIT_CONFIG_NOSYSTEM": "1"}
        for who in ("AUTHOR", "COMMITTER"):
            self.environment |= {f"GIT_{who}_NAME": "bench", f"GIT_{who}_EMAIL": "bench@localhost"}
        self.tree, self.archive, self.repository, self.inserts = (os.path.join(place, name) for name in ("tree", "tree.tar", "repository", "inserts.sql"))
        make_tree(self.tree, sizes.folders, sizes.in_folder)
        self.run("tar", "-cf", self.archive, "-C", place, "tree")
        self.make_repository()
        with open(self.inserts, "w") as file:
            file.write("create table t (k integer primary key, v text);\n")
            file.writelines(f"insert into t values ({number}, 'value {number * number}');\n" for number in range(sizes.inserts))

    def make_repository(self):
        make_tree(self.repository, self.sizes.folders // 2, self.sizes.in_folder // 2)
        for words in (["init", "-q"], ["add", "-A"], ["commit", "-q", "-m", "all"]):
            self.run("git", "-C", self.repository, *words)

    def run(self, *command, **words):
        """Runs a program to its end: what it printed. Where it takes too long nobody waits for it here, since its server may have to be killed first."""
        words.setdefault("stdin", subprocess.DEVNULL)
        words |= dict(stdout=subprocess.PIPE, stderr=subprocess.STDOUT, cwd=self.place, env=self.environment, start_new_session=True)
        started = building.start_on(self.cores, command, **words)
        try:
            output, _ = started.communicate(timeout=self.seconds)
        except subprocess.TimeoutExpired:
            os.killpg(started.pid, signal.SIGKILL)
            raise Failed(f"{command[0]} does not end in {self.seconds} s") from None
        text = output.decode(errors="replace")
        if started.returncode:
            raise Failed(f"{command[0]} ends with status {started.returncode}: " + " ".join(text.split())[:300])
        return text


def make_tree(path, folders, files):
    """Folders with files of 100 bytes to 64 KiB, most of them small, the same each time."""
    chance = random.Random(1)
    for folder in range(folders):
        os.makedirs(f"{path}/f-{folder:02}")
        for file in range(files):
            with open(f"{path}/f-{folder:02}/file-{file:02}", "wb") as made:
                made.write(chance.randbytes(int(100 * 655 ** chance.random() ** 2)))


class Program:
    """A program, the words that --only knows it by, and whether what it finds stays as it is, so that it is made once."""

    def __init__(self, word, title, prepare, run, stays=False, jobs=1, unit="s"):
        self.word, self.title, self.prepare, self.run, self.stays, self.jobs, self.unit = word, title, prepare, run, stays, jobs, unit

    def shown(self, rate):
        """How fast, for a reader."""
        return f"{1 / rate:.3f} s" if self.unit == "s" else f"{rate:,.0f} {self.unit}"

    def cost(self, done):
        """The processor time of a request of fio, or of the whole program, where so much is done in a second of it."""
        return f"{1000 / done:,.0f} ms" if self.unit == "s" else f"{1e6 / done:.1f} microseconds"


# --- fio ---

def lay_out(stock, root):
    """A file for each of four jobs, as long as it will be: fio makes none."""
    for job in range(4):
        with open(f"{root}/job.{job}", "wb") as file:
            file.write(os.urandom(1 << 20) * (stock.sizes.fio_bytes >> 20))


def fio(kind, block, jobs, unit):
    """Direct access, since otherwise the kernel would answer reads from its cache and read ahead, and would be what is measured. One request at a time for each job."""
    def run(stock, folder):
        words = ["--name=job", f"--directory={folder}", "--filename_format=job.$jobnum", f"--rw={kind}", f"--bs={block}", f"--size={stock.sizes.fio_bytes}", f"--numjobs={jobs}",
                 "--ioengine=psync", "--direct=1", "--overwrite=1", "--fallocate=none", "--allow_file_create=0", "--norandommap", "--randrepeat=1", "--gtod_reduce=1",
                 "--time_based", f"--runtime={stock.sizes.fio_ms}ms", "--group_reporting", "--output-format=json"]
        text = stock.run("fio", *words)
        job = json.loads(text[text.index("{"):])["jobs"][0]
        if job["error"]:
            raise Failed(f"fio: error {job['error']}")
        done = job["read" if "read" in kind else "write"]
        if not done["total_ios"]:
            raise Failed("fio did nothing")
        return done["iops"] if unit == "a second" else done["bw_bytes"] / (1 << 20), done["total_ios"]

    name = f"fio-{kind}" + (f"-{jobs}" if jobs > 1 else "") + ("-128k" if block == "128k" else "")
    said = {"randread": "reads here and there", "randwrite": "writes here and there", "read": "reads in order", "write": "writes in order"}[kind]
    size = "4 KiB" if block == "4k" else "128 KiB"
    return Program(name, f"fio {size}, {said}" + (f", {jobs} jobs" if jobs > 1 else ""), lay_out, run, stays=True, jobs=jobs, unit=unit)


# --- The others: their clock's time, or where Python would be a good part of it the time of their work alone ---

def timed(*words):
    """Runs a program whose words may be those of the stock and the folder."""
    def run(stock, folder):
        command = [word(stock, folder) if callable(word) else word for word in words]
        begun = time.perf_counter()
        stock.run(*command)
        return 1 / (time.perf_counter() - begun), 1
    return run


def looped(text):
    """Runs a loop in Python, which prints the seconds that it took."""
    return lambda stock, folder: (1 / float(stock.run(sys.executable, "-I", "-S", "-c", text, folder, stock.sizes.files)), 1)


def inserting(stock, folder):
    begun = time.perf_counter()
    with open(stock.inserts) as lines:
        stock.run("sqlite3", "-batch", "-bail", f"{folder}/base", stdin=lines)
    return 1 / (time.perf_counter() - begun), 1


def nothing(_stock, _root):
    pass


def put_tree(stock, root):
    shutil.copytree(stock.tree, f"{root}/tree")


def put_big_tree(stock, root):
    for folder in range(stock.sizes.big_folders):
        os.makedirs(f"{root}/f-{folder % 10}/f-{folder:03}")
        for file in range(stock.sizes.in_big):
            with open(f"{root}/f-{folder % 10}/f-{folder:03}/file-{file:02}", "wb"):
                pass


def put_files(stock, root):
    for number in range(stock.sizes.files):
        with open(f"{root}/file-{number:05}", "wb") as made:
            made.write(bytes(100))


def below(name=""):
    return lambda stock, folder: f"{folder}/{name}"


def programs(sizes):
    kinds = ("randread", "read", "randwrite", "write")
    made = [fio(kind, "4k", jobs, "a second") for jobs in (1, 4) for kind in kinds]
    made += [fio(kind, "128k", 1, "MiB/s") for kind in ("read", "write")]
    return made + [
        Program("make", f"making {sizes.files:,} files", nothing, looped(MAKE)),
        Program("rename", f"{sizes.files:,} renames", put_files, looped(RENAME)),
        Program("untar", "`tar -x`", nothing, timed("tar", "-xf", lambda stock, _: stock.archive, "-C", below())),
        # To /dev/null itself tar would write nothing, and read nothing.
        Program("tar", "`tar -c`", put_tree, timed("tar", "-cf", lambda stock, _: f"{stock.place}/made.tar", "-C", below(), "tree"), stays=True),
        Program("git", "git clone, status, commit", nothing, timed("sh", "-c", GIT, "sh", lambda stock, _: stock.repository, below())),
        Program("cp", "`cp -r`", put_tree, timed("cp", "-r", below("tree"), below("copy"))),
        Program("sqlite", f"sqlite, {sizes.inserts:,} inserts", nothing, inserting),
        Program("find", "`find` with attributes", put_big_tree, timed("find", below(), "-printf", "%s %m %U %T@ %p\\n"), stays=True),
        Program("rm", "`rm -r`", put_tree, timed("rm", "-r", below("tree"))),
    ]
