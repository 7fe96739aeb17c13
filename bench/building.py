"""Reads the command lines of the scripts of this folder, and compiles its C programs into a temporary place."""
import contextlib
import glob
import os
import shutil
import signal
import subprocess
import sys
import tempfile

BENCH = os.path.dirname(os.path.abspath(__file__))


@contextlib.contextmanager
def temporary_folder():
    """A folder that is gone at the end, also where a signal ends the script."""
    signal.signal(signal.SIGTERM, lambda *_: sys.exit(143))
    place = tempfile.mkdtemp(prefix="mirrord-bench-")
    try:
        yield place
    finally:
        shutil.rmtree(place, ignore_errors=True)


def compiler():
    found = shutil.which("cc") or shutil.which("gcc") or shutil.which("clang")
    if not found:
        raise SystemExit("no C compiler is on the path")
    return found


def compile_c(out, sources, *flags):
    """Builds one program; the compiler's own words where it fails."""
    command = [compiler(), "-std=gnu11", "-O2", "-Wall", "-o", out, *sources, *flags]
    ended = subprocess.run(command, capture_output=True, text=True)
    if ended.returncode:
        raise SystemExit(f"{' '.join(sources)} cannot be compiled:\n{ended.stderr}")
    return out


def build_client(place):
    return compile_c(os.path.join(place, "client"), sorted(glob.glob(os.path.join(BENCH, "client", "*.c"))))


def build_mirror(place, behind="against-libfuse"):
    """The mirror over libfuse that is behind a socket, or the one that is `mounted`; one line where the library is absent."""
    probe = subprocess.run([compiler(), "-E", "-DFUSE_USE_VERSION=31", "-D_FILE_OFFSET_BITS=64", "-include", "fuse3/fuse.h", "-x", "c", os.devnull],
                           capture_output=True)
    if probe.returncode:
        raise SystemExit("libfuse3-dev is not installed (fuse3/fuse.h is missing)")
    sources = [os.path.join(BENCH, behind, "mirror.c"), os.path.join(BENCH, "against-libfuse", "operations.c")]
    return compile_c(os.path.join(place, "mirror"), sources, "-D_FILE_OFFSET_BITS=64", "-lfuse3", "-lpthread")


def prepared(client, place, name, known):
    """A folder with all files that the workloads use."""
    root = os.path.join(place, name)
    os.mkdir(root)
    subprocess.run([client, "prepare", root, str(known)], check=True)
    return root


def said(process):
    """The next line that the client printed, in words; an error where it ended."""
    line = process.stdout.readline()
    if not line:
        raise SystemExit(f"the client ended with status {process.wait()}")
    return line.split()


def go_on(process):
    """Lets a client that waits go on."""
    process.stdin.write("\n")
    process.stdin.flush()


def run_client(client, *words):
    return subprocess.Popen([client, *map(str, words)], stdin=subprocess.PIPE, stdout=subprocess.PIPE, text=True)


def memory(process, field="VmRSS"):
    """Kilobytes, as the system tells them."""
    with open(f"/proc/{process.pid}/status") as file:
        return next(int(line.split()[1]) for line in file if line.startswith(field))


def start_on(cores, command, **words):
    """Starts a program, on those processors alone where any are named."""
    mine = os.sched_getaffinity(0)
    try:
        if cores:
            os.sched_setaffinity(0, cores)
        return subprocess.Popen(list(map(str, command)), **words)
    finally:
        os.sched_setaffinity(0, mine)


def rounds_of(row, servers):
    """Of each round, a list of the servers' nanoseconds, and a list of those that their threads ran."""
    pairs = [tuple(map(int, word.split(":"))) for word in row[3:]]
    rounds = [pairs[at:at + servers] for at in range(0, len(pairs), servers)]
    return [[took for took, _ in pairs] for pairs in rounds], [[ran for _, ran in pairs] for pairs in rounds]


def output_of(cores, command, seconds):
    """What a client prints until it ends; None where that takes longer."""
    client = start_on(cores, command, stdin=subprocess.DEVNULL, stdout=subprocess.PIPE, stderr=subprocess.PIPE, text=True)
    try:
        output, errors = client.communicate(timeout=seconds)
    except subprocess.TimeoutExpired:
        client.kill()
        client.communicate()
        return None
    if client.returncode:
        raise SystemExit(errors.strip())
    return output


def cores(text):
    """The value of --cores: the processor of the client, and then those of the servers; none where they run where they like."""
    return [] if text == "free" else numbers(text)


def numbers(text):
    """The value of an option that is a list of numbers."""
    return [int(word) for word in text.split(",")]


def parsed(asked):
    """The command line, with what stands behind `--` as further words for the server."""
    own = sys.argv[1:]
    at = own.index("--") if "--" in own else len(own)
    given = asked.parse_args(own[:at])
    given.words = own[at + 1:]
    return given
