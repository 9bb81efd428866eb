"""A disk of one's own for measurements, the load on it, and the kernel's events of it.

The disk is a loop device over a file that nbdkit serves from memory, with delays, and nbdfuse shows. It serves four requests at once.
What is made here ends with the process: mounts are in a mount namespace of its own, the loop device detaches with its last user, and
the other processes die with this one."""
import contextlib
import ctypes
import glob
import os
import re
import shutil
import signal
import subprocess
import sys
import tempfile
import time

top = os.path.dirname(os.path.dirname(os.path.abspath(__file__)))
NOT_INSTALLED = 77
PACKAGES = {"fio": "fio", "nbdkit": "nbdkit", "nbdfuse": "libnbd-bin", "fusermount3": "fuse3"}
SIZE, READ, WRITE = "2G", "8ms", "12ms"
SLOTS = 4
# What serves the disk comes before all others on a busy machine, so that service takes as long under each scheduler.
FIRST = "nice", "-n", "-20"
# The jobs with their priorities: the weights are 16, 4, 2 and 1.
JOBS = {"db": 16, "log": 640, "web": 896, "backup": 1248}
TRACING = "/sys/kernel/tracing"
# The kernel's events that say something of a request.
EVENTS = "bio_queue", "bio_backmerge", "bio_frontmerge", "rq_merge", "rq_issue", "rq_requeue", "rq_complete"
# So many kB for the events of all processors: some ten times what a load makes.
TRACED = 65536
INSTANCE = "camxpt-linux-"
CLONE_NEWNS, PR_SET_PDEATHSIG = 0x20000, 1
SIGNALS = signal.SIGINT, signal.SIGTERM, signal.SIGHUP, signal.SIGALRM
libc = ctypes.CDLL(None, use_errno=True)


def stop(why, status=1):
    print(f"{os.path.relpath(os.path.abspath(sys.argv[0]), top)}: {why}", file=sys.stderr)
    sys.exit(status)


def say(text):
    print(text, file=sys.stderr, flush=True)


def needed(more=()):
    """Ends the program in one line if something is missing. `more` has further programs, with their packages."""
    if os.geteuid():
        stop("has to be run by root", NOT_INSTALLED)
    packages = [package for name, package in {**PACKAGES, **dict(more)}.items() if not shutil.which(name)]
    if packages:
        stop(f"not installed: apt-get install {' '.join(packages)}", NOT_INSTALLED)
    for path, what in ("/dev/fuse", "FUSE: modprobe fuse"), ("/dev/loop-control", "loop devices: modprobe loop"):
        if not os.path.exists(path):
            stop(f"this kernel has no {what}", NOT_INSTALLED)


def program(folder):
    """The program that CAMXPT names, or else that of the package in dist/, unpacked into the folder."""
    given = os.environ.get("CAMXPT")
    if given:
        if not os.access(given, os.X_OK):
            stop(f"CAMXPT names no program: {given}", 2)
        return os.path.abspath(given)
    packages = glob.glob(os.path.join(top, "dist", "*.deb"))
    if len(packages) != 1:
        stop("dist/ has no package: name a program by CAMXPT", NOT_INSTALLED)
    subprocess.run(["dpkg-deb", "-x", packages[0], folder], check=True)
    return os.path.join(folder, "usr", "bin", "camxpt")


def mortal():
    """In a child: it dies with this process."""
    libc.prctl(PR_SET_PDEATHSIG, signal.SIGKILL, 0, 0, 0)


@contextlib.contextmanager
def running(*words, **how):
    """A process that is ended when it is left, if it hasn't by then."""
    child = subprocess.Popen(words, preexec_fn=mortal, stdin=subprocess.DEVNULL, **how)
    try:
        yield child
    finally:
        child.terminate()
        try:
            child.wait(10)
        except subprocess.TimeoutExpired:
            child.kill()
            child.wait()


def mount(kind, place):
    subprocess.run(["mount", "-t", kind, kind, place], check=True)


@contextlib.contextmanager
def namespace():
    """A folder in memory. What is mounted from here on is seen by this process and its children alone, and ends with them."""
    folder = tempfile.mkdtemp(prefix="camxpt-linux-")
    try:
        if libc.unshare(CLONE_NEWNS):
            stop(f"no mount namespace: {os.strerror(ctypes.get_errno())}", NOT_INSTALLED)
        subprocess.run(["mount", "--make-rprivate", "/"], check=True)
        mount("tmpfs", folder)
        try:
            if os.path.exists(TRACING) and not os.path.exists(f"{TRACING}/events"):
                mount("tracefs", TRACING)
            if not os.path.exists(f"{TRACING}/events/block/block_rq_issue"):
                stop(f"this kernel has no block events in {TRACING} (CONFIG_FTRACE, CONFIG_BLK_DEV_IO_TRACE)", NOT_INSTALLED)
            yield folder
        finally:
            subprocess.run(["umount", "--recursive", "--lazy", folder], check=True)
    finally:
        os.rmdir(folder)


def appears(path, child, log):
    """Waits until a process has made a file."""
    for _ in range(100):
        if os.path.exists(path):
            return
        if child.poll() is not None:
            break
        time.sleep(0.1)
    stop(f"{child.args[0]}: {(open(log).read().strip() or 'it made nothing').splitlines()[-1]}")


class Disk:
    """The loop device: its path, its name below /sys/block, and its number as the kernel has it."""

    def __init__(self, path):
        self.path = path
        self.name = os.path.basename(path)
        major, minor = self.read("dev").split(":")
        self.number = int(major) << 20 | int(minor)

    def read(self, name):
        with open(f"/sys/block/{self.name}/{name}") as file:
            return file.read().strip()

    def write(self, name, value):
        with open(f"/sys/block/{self.name}/{name}", "w") as file:
            file.write(str(value))

    def schedulers(self):
        return self.read("queue/scheduler").replace("[", "").replace("]", "").split()


@contextlib.contextmanager
def disk(folder):
    """A disk that serves so many requests at once, each as long as the delays say."""
    socket, shown, log = (os.path.join(folder, name) for name in ("socket", "shown", "server.log"))
    os.mkdir(shown)
    file = os.path.join(shown, "disk")
    with open(log, "w") as out, contextlib.ExitStack() as stack:
        delays = "--filter=delay", "memory", SIZE, f"delay-read={READ}", f"delay-write={WRITE}"
        words = *FIRST, "nbdkit", "-f", "-U", socket, "-t", str(SLOTS), *delays
        appears(socket, stack.enter_context(running(*words, stdout=out, stderr=out)), log)
        # Requests on one connection wait for each other: with twice as many connections as slots they hardly meet.
        words = *FIRST, "nbdfuse", "-C", str(2 * SLOTS), file, "--unix", socket
        appears(file, stack.enter_context(running(*words, stdout=out, stderr=out)), log)
        done = subprocess.run(["losetup", "--find", "--show", "--direct-io=on", file], capture_output=True, text=True)
        if done.returncode:
            stop(f"losetup: {done.stderr.strip()}")
        path = done.stdout.strip()
        # Whoever has it open keeps it: from here on the last one who closes it detaches it.
        used = os.open(path, os.O_RDONLY)
        stack.callback(os.close, used)
        subprocess.run(["losetup", "--detach", path], check=True)
        made = Disk(path)
        if made.read("loop/backing_file") != file:
            stop(f"{path} isn't over the file that was made for it")
        # The slots are the driver's tags: what is set without a scheduler stays under each one.
        made.write("queue/scheduler", "none")
        made.write("queue/nr_requests", SLOTS)
        yield made


@contextlib.contextmanager
def traced(made):
    """The kernel traces the disk's events until this is left. Gives the folder of the trace."""
    instances = os.path.join(TRACING, "instances")
    for name in os.listdir(instances):
        if name.startswith(INSTANCE) and not os.path.exists(f"/proc/{name[len(INSTANCE):]}"):
            os.rmdir(os.path.join(instances, name))
    instance = os.path.join(instances, f"{INSTANCE}{os.getpid()}")

    def write(name, value):
        with open(os.path.join(instance, name), "w") as file:
            file.write(str(value))

    os.mkdir(instance)
    try:
        write("trace_clock", "mono")
        write("buffer_size_kb", max(2048, TRACED // os.cpu_count()))
        for event in EVENTS:
            write(f"events/block/block_{event}/filter", f"dev == {made.number}")
            write(f"events/block/block_{event}/enable", 1)
        yield instance
        write("tracing_on", 0)
        for stats in glob.glob(os.path.join(instance, "per_cpu", "cpu*", "stats")):
            if re.search(r"overrun: [1-9]", open(stats).read()):
                stop("the trace's buffer is too small: the kernel dropped events")
    finally:
        os.rmdir(instance)


def load(made, folder, seconds):
    """Runs each job as a process that has the job's name, all at once."""
    given = {**os.environ, "DISK": made.path, "SECONDS": str(seconds)}
    with contextlib.ExitStack() as stack:
        jobs = []
        for name in JOBS:
            called, log = os.path.join(folder, name), os.path.join(folder, f"{name}.log")
            if not os.path.exists(called):
                os.symlink(shutil.which("fio"), called)
            out = stack.enter_context(open(log, "w"))
            words = called, f"--section={name}", os.path.join(top, "bench", "linux", "jobs.fio")
            jobs.append((name, log, stack.enter_context(running(*words, env=given, cwd=folder, stdout=out, stderr=out))))
        for name, log, job in jobs:
            if job.wait(seconds + 60):
                stop(f"fio's job {name}: {(open(log).read().strip() or 'it failed').splitlines()[-1]}")


def ended(number, _):
    for other in SIGNALS:
        signal.signal(other, signal.SIG_IGN)
    stop("ten minutes are over" if number == signal.SIGALRM else f"ended by {signal.Signals(number).name}", 128 + number)


def end_by(seconds):
    """Ends the program by a signal, or after so many seconds, so that all that was made is removed."""
    for number in SIGNALS:
        signal.signal(number, ended)
    signal.alarm(seconds)
