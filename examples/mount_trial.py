"""What the scripts that try `examples/mount` share: mounts that are ended where something hangs, and what was right and wrong."""
import contextlib
import os
import signal
import subprocess
import sys
import threading
import time

HERE = os.path.dirname(os.path.abspath(__file__))
BUILT = os.path.join(os.path.dirname(HERE), "crates/mirrord/out/mirrord")
SECONDS = 120
FAILED, SKIPPED, RIGHT = [], [], []
MOUNTS = []  # the mounts that run
HUNG = threading.Event()


def skip(why):
    print("skipped: " + why)
    sys.exit(0)


def expect(what, right, why=""):
    print(("ok     " if right else "WRONG  ") + what + ("" if right else f": {why}"), flush=True)
    (RIGHT if right else FAILED).append(what)


def passed_over(what, why):
    print(f"skip   {what}: {why}", flush=True)
    SKIPPED.append(what)


def summary(what):
    """Says what came of all since the last summary: how much was wrong."""
    print(f"{what}: {len(RIGHT)} right, {len(FAILED)} wrong, {len(SKIPPED)} skipped", flush=True)
    wrong = len(FAILED)
    FAILED.clear(), RIGHT.clear(), SKIPPED.clear()
    return wrong


def server_of(mount):
    """The process of a mount's server, which leads a session of its own."""
    told = subprocess.run(["ps", "-o", "pid=", "--ppid", str(mount.pid)], stdout=subprocess.PIPE, text=True)
    return next((number for number in map(int, told.stdout.split()) if os.getsid(number) == number), None)


def signal_server(server, number):
    with contextlib.suppress(ProcessLookupError):
        os.killpg(server, number)


def end_mounts():
    """Ends all mounts with their servers, so that nothing waits for one any more: what waits for an answer cannot be killed."""
    for mount in MOUNTS:
        server = server_of(mount)
        if server:
            signal_server(server, signal.SIGKILL)
        try:
            mount.wait(10)
        except subprocess.TimeoutExpired:
            mount.kill()


@contextlib.contextmanager
def limited(seconds, *processes):
    """All mounts are ended, and the processes' groups, where what is done takes longer."""
    def end():
        HUNG.set()
        end_mounts()
        for process in processes:
            with contextlib.suppress(ProcessLookupError):
                os.killpg(process.pid, signal.SIGKILL)
    timer = threading.Timer(seconds, end)
    timer.start()
    try:
        yield
    finally:
        timer.cancel()
    if HUNG.is_set():
        sys.exit(f"it took more than {seconds} seconds, and the mount was ended")


def until(holds, seconds=20):
    """Whether it holds within that time."""
    for _ in range(seconds * 20):
        if holds():
            return True
        time.sleep(0.05)
    return False


def is_mounted(where):
    """Whether something is mounted there; it asks nothing of the mount."""
    with open("/proc/self/mounts") as file:
        return any(line.split()[1] == where for line in file)


def start(program, place, *words, **more):
    """`examples/mount` on two folders of that place, once it is mounted: skips where it cannot be."""
    behind, mounted = os.path.join(place, "behind"), os.path.join(place, "mounted")
    words = [os.path.join(HERE, "mount"), "--server", program, *words, behind, mounted]
    mount = subprocess.Popen(words, stderr=subprocess.PIPE, text=True, start_new_session=True, **more)
    told = mount.stderr.readline()
    if " is mounted on " not in told:
        mount.wait()
        (skip if "/dev/fuse" in told or "cannot mount" in told or "fusermount3" in told else sys.exit)(told.strip())
    MOUNTS[:] = [mount]
    return mount, behind, mounted


def ends_well(mount):
    """Whether `examples/mount` ends with status 0. After an unmount by hand that takes as long as a namespace of mounts that was made meanwhile has the mount too."""
    return until(lambda: mount.poll() is not None, SECONDS) and mount.returncode == 0


def unmount(mounted, lazily=False):
    """Whether it could be unmounted; what is in use is tried again, since a command that has ended may be closing its files."""
    words = ["umount", *["-l"] * lazily, mounted] if os.getuid() == 0 else ["fusermount3", "-u", *["-z"] * lazily, mounted]
    for _ in range(50):
        if subprocess.run(words, stderr=subprocess.DEVNULL).returncode == 0:
            return True
        time.sleep(0.1)
    return False
