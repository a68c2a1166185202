"""Starts the real program in a folder in memory, some 1,000 times a second."""

import os
import resource
import shutil
import signal
import tempfile

REPORT = 100


class Ended:
    """The result of a run; the status is None if it was ended by a signal or by its time limit."""

    def __init__(self, status, out, err, report):
        self.status, self.out, self.err, self.report = status, out, err, report


class Late(Exception):
    pass


def late(_number, _frame):
    raise Late


class Starter:
    """A folder for runs, and the program that is started in it. A run may use a number of seconds of a processor, and ten times as many on the
    clock."""

    def __init__(self, program, seconds=10):
        self.program, self.seconds = os.path.abspath(program), seconds
        shared = "/dev/shm" if os.access("/dev/shm", os.W_OK) else None
        self.folder = tempfile.mkdtemp(prefix="runs-", dir=shared)
        names = (os.path.join(self.folder, name) for name in ("out", "err", "report"))
        self.streams = [os.open(name, os.O_RDWR | os.O_CREAT | os.O_APPEND) for name in names]
        self.nothing = os.open("/dev/null", os.O_RDONLY)
        targets = zip([self.nothing, *self.streams], (0, 1, 2, REPORT))
        self.actions = [(os.POSIX_SPAWN_DUP2, source, target) for source, target in targets]
        self.place = os.path.join(self.folder, "files")
        os.mkdir(self.place)
        os.chdir(self.place)
        signal.signal(signal.SIGALRM, late)
        self.starts, self.took = 0, 0.0
        # The files that are there, where no run began since they were read.
        self.there = {}

    def close(self):
        os.chdir("/")
        shutil.rmtree(self.folder)

    def ended(self, process):
        """Returns the process's status: None if it was ended by a signal, or didn't end within its time."""
        signal.setitimer(signal.ITIMER_REAL, 10 * self.seconds)
        try:
            _, status, used = os.wait4(process, 0)
        except Late:
            os.kill(process, signal.SIGKILL)
            _, _, used = os.wait4(process, 0)
            status = signal.SIGKILL
        finally:
            signal.setitimer(signal.ITIMER_REAL, 0)
        self.took = used.ru_utime + used.ru_stime
        status = os.waitstatus_to_exitcode(status)
        return status if status >= 0 and self.took <= self.seconds else None

    def start(self, words, environment=()):
        """Runs the program."""
        for stream in self.streams:
            os.ftruncate(stream, 0)
        process = os.posix_spawn(self.program, ["bin65", *words], dict(environment), file_actions=self.actions)
        status = self.ended(process)
        self.starts, self.there = self.starts + 1, None
        return Ended(status, *(os.pread(stream, os.fstat(stream).st_size, 0) for stream in self.streams))

    def files(self):
        """Returns all files by name."""
        if self.there is None:
            self.there = read_below("")
        return self.there

    def restore(self, files):
        """Leaves exactly these files."""
        there = self.files()
        for name in there.keys() - files.keys():
            os.remove(name)
        for name, file in files.items():
            if there.get(name) != file:
                if "/" in name:
                    os.makedirs(os.path.dirname(name), exist_ok=True)
                with open(name, "wb") as opened:
                    opened.write(file)
        self.there = dict(files)


def read_below(folder):
    """Returns all files below the folder that is open, by name."""
    found = {}
    with os.scandir(folder or ".") as entries:
        for entry in entries:
            name = folder + entry.name
            if entry.is_dir():
                found.update(read_below(f"{name}/"))
            else:
                with open(name, "rb") as opened:
                    found[name] = opened.read()
    return found


def bound_memory(size):
    """Bounds the memory of each run."""
    resource.setrlimit(resource.RLIMIT_AS, (size, resource.getrlimit(resource.RLIMIT_AS)[1]))
