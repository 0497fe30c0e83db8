"""Proves and builds the libraries of the program, several at a time, as `factc` does before its first use.

`python3 tools/libraries.py TOP RT CALLER`: TOP is the top of the repository, RT the toolchain's command, CALLER the process that waits, at whose
end all ends. Each library is what `rt lib` makes of its crate, begun once those that it uses are there. Standard output has a line `library NAME`
for each that is there, in the order in which they end; or `unproved NAME` for the first that failed, or `killed NAME` where its prover was killed
even with nothing beside it, most likely for memory, at which the others are ended.

The longest chain of crates goes first: of what can begin, the crate with the longest one from it to the program, by the clock, gets a process
for each processor but one, another two where its chain is at least half as long, else one. Each process reads for itself what its functions
speak of, the more the more definitions and laws there are, so that a crate gets no more than share its work well (docs/GATE.md, "The first
build"). What is not on the longest chain has one process more than there are processors, as far as memory reaches, since a check uses one
processor while it reads libraries and while it writes its own. It gives way, with a niceness of ASIDE, and so has the processors that the
longest chain leaves.

Two calls of `rt lib` would wait for one another, since each locks the folders of all crates that it reads as if it wrote there. Here a crate is
locked so while it is built, and the libraries below it, which are there, as readers lock.

RT_JOBS, where it is a number, stands for the number of processors, as for `rt ci`.

Ends with 0; with 1 where a library failed; with 3, and nothing done, where the toolchain's rt is another than this was written for.
"""

import contextlib
import fcntl
import importlib.machinery
import importlib.util
import os
import signal
import sys
import time

FAILED, OTHER_RT = 1, 3
ENDING = (signal.SIGINT, signal.SIGTERM, signal.SIGHUP)
# Linux: the signal that a process gets when the one that began it ends.
PR_SET_PDEATHSIG = 1
# More processes do little for one crate, by the prover's own help.
MOST = 8
# How nice a library is that others need not wait for: one of 0 beside it gets some three times its share of a processor.
ASIDE = 5
# How rt ends where the prover was killed, most likely for memory.
KILLED = 256 - signal.SIGKILL


class Ended(Exception):
    """A signal came, or the caller has ended."""


def toolchain(path):
    """The toolchain's rt, a Python script, as a module; None where it has not what is used of it here."""
    # Nothing is written beside it.
    sys.dont_write_bytecode = True
    loader = importlib.machinery.SourceFileLoader("rt", os.path.realpath(path))
    rt = importlib.util.module_from_spec(importlib.util.spec_from_loader("rt", loader))
    try:
        loader.exec_module(rt)
        used = [rt.main, rt.free, rt.processors, rt.rtlib.lock, rt.rtlib.files_of, rt.rtlib.Crate.below, rt.rtlib.Crate.is_built, rt.rtlib.Crate.stamp]
    except (Exception, SystemExit):
        return None
    return rt if all(map(callable, used)) else None


def hold(crates):
    """Locks the folders of crates: as readers do, and that of the last one alone."""
    own = os.path.realpath(crates[-1].folder)
    # In the order in which rt locks, so that no two wait for one another.
    folders = sorted({os.path.realpath(it.folder) for it in crates})
    held = [os.open(it, os.O_RDONLY) for it in folders]
    for folder, it in zip(folders, held):
        # Some file systems have no locks.
        with contextlib.suppress(OSError):
            fcntl.flock(it, fcntl.LOCK_EX if folder == own else fcntl.LOCK_SH)
    return held


def share_locks(rtlib):
    """Has rt lock a library as `hold` does, where those below it are there, and look only once at what these were made from."""
    lock_alone, stamp = rtlib.lock, rtlib.Crate.stamp

    def lock(crates):
        *below, own = crates
        held, stamps = hold(crates), {}

        def stamp_once(crate):
            if crate.folder == own.folder:
                return stamp(crate)
            if crate.folder not in stamps:
                stamps[crate.folder] = stamp(crate)
            return stamps[crate.folder]

        # While it is locked, a library is what its stamp says, whatever becomes of its sources.
        rtlib.Crate.stamp = stamp_once
        if all(it.is_built() for it in below):
            return held
        rtlib.Crate.stamp = stamp
        for it in held:
            os.close(it)
        return lock_alone(crates)

    rtlib.lock = lock


def end_with(parent):
    """Has this process end with the one that began it, and returns whether that runs still."""
    with contextlib.suppress(ImportError, AttributeError, OSError):
        import ctypes

        ctypes.CDLL(None).prctl(PR_SET_PDEATHSIG, signal.SIGKILL)
    return os.getppid() == parent


def lines_of(path):
    with open(path, "rb") as it:
        return it.read().count(b"\n")


def lines_in(rtlib, crate, end):
    return sum(lines_of(it) for it in rtlib.files_of(crate.folder) if it.endswith(end))


class Library:
    """A library of the program, with what its proof is likely to take by the lines of its files."""

    def __init__(self, rtlib, crate):
        self.name, self.folder, self.below = crate.name, crate.folder, [it.name for it in crate.below()]
        code, laws = lines_in(rtlib, crate, ".rt"), lines_in(rtlib, crate, ".antt")
        read = laws + sum(lines_in(rtlib, it, ".antt") for it in crate.below())
        # In processor minutes and gigabytes. Laws and definitions take little: functions are dear.
        self.work = 0.5 + 0.0034 * code + 0.00002 * laws
        self.memory = 0.9 + 0.0005 * code + 0.00004 * laws
        # As many processes as share its work well.
        self.most = 1 + int(0.6 * self.work / (0.000007 * read + 0.01))
        # The minutes by the clock of the longest chain from it to the program, which `in_order` sums up: what reads and writes is not shared.
        self.chain = 0.6 + 0.0015 * code + 0.00003 * laws
        self.is_alone = False

    def takes(self, processes):
        """The memory that it is likely to take with so many processes, which share what they read."""
        return self.memory * (1 + 0.3 * (processes - 1))


def in_order(rt, top):
    """The libraries that the program stands on, each behind those that it uses."""
    program = rt.rtlib.Crate(f"{top}/crates/factc", top, {})
    libraries = [Library(rt.rtlib, it) for it in program.below()]
    for at, one in reversed(list(enumerate(libraries))):
        one.chain += max([it.chain for it in libraries[at:] if one.name in it.below], default=0)
    return libraries


class Build:
    """What is left, what is there, and what runs: by its process the library, with how many processes of the prover, and whether it gives way."""

    def __init__(self, rt, libraries, caller):
        self.rt, self.left, self.caller = rt, libraries, caller
        self.there, self.running = set(), {}
        number = os.environ.get("RT_JOBS", "")
        self.processors = int(number) if number.isdigit() and int(number) else rt.processors()
        self.memory = 0

    def processes_for(self, library, longest):
        """How many processes the library gets now, or 0 where it has to wait."""
        first = library.chain >= longest
        most = min(max(self.processors - 1, 2), MOST) if first else 2 if 2 * library.chain >= longest else 1
        most = min(most, library.most)
        if not self.running:
            room = self.memory
        elif library.is_alone or self.processors == 1 or any(it.is_alone for it, _, _ in self.running.values()):
            return 0
        else:
            if not first:
                most = min(most, self.processors + 1 - sum(number for _, number, aside in self.running.values() if aside))
            room = self.memory - sum(it.takes(number) for it, number, _ in self.running.values())
        most = 1 if library.is_alone else min(most, self.processors)
        while most > 0 and library.takes(most) > room:
            most -= 1
        return most if self.running else max(most, 1)

    def begin_what_can(self):
        if not self.running:
            # Some checks take more than is likely.
            self.memory = 0.85 * self.rt.free() / 1e9
        ready = sorted((it for it in self.left if self.there.issuperset(it.below)), key=lambda it: -it.chain)
        longest = max([it.chain for it in ready] + [it.chain for it, _, _ in self.running.values()], default=0)
        for library in ready:
            processes = self.processes_for(library, longest)
            if not processes:
                # What stands on a shorter chain does not take its place.
                return
            self.left.remove(library)
            self.begin(library, processes, library.chain < longest)

    def begin(self, library, processes, gives_way):
        parent = os.getpid()
        child = os.fork()
        if child:
            self.running[child] = library, processes, gives_way
            return
        status = FAILED
        try:
            for it in ENDING:
                signal.signal(it, signal.SIG_DFL)
            nothing = os.open(os.devnull, os.O_RDWR)
            for it in range(3):
                os.dup2(nothing, it)
            os.chdir(library.folder)
            os.nice(ASIDE if gives_way else 0)
            if end_with(parent):
                status = self.rt.main(["lib", "--jobs", str(processes)])
        except SystemExit as it:
            status = it.code
        finally:
            os._exit(status % 256 if isinstance(status, int) else FAILED)

    def pause(self):
        """Waits a little, and ends where nobody waits for this process any more."""
        time.sleep(0.1)
        try:
            os.kill(self.caller, 0)
        except OSError:
            raise Ended from None

    def take_turn(self, folder):
        """Waits until no other call builds here. It locks a folder that rt never locks, so that neither waits for the other."""
        turn = os.open(folder, os.O_RDONLY)
        # Some file systems have no locks.
        with contextlib.suppress(OSError):
            while True:
                try:
                    fcntl.flock(turn, fcntl.LOCK_EX | fcntl.LOCK_NB)
                    return
                except BlockingIOError:
                    self.pause()

    def await_one(self):
        """Waits until a library ends, and returns it and what it ended with."""
        while True:
            child, status = os.waitpid(-1, os.WNOHANG)
            if child:
                break
            self.pause()
        library, _, _ = self.running.pop(child)
        if os.WIFSIGNALED(status) and os.WTERMSIG(status) in ENDING:
            raise Ended
        return library, os.WEXITSTATUS(status) if os.WIFEXITED(status) else KILLED

    def run(self):
        """Builds what is left, and tells what is there, or what failed. What was killed is begun once more, with nothing beside it."""
        while self.left or self.running:
            self.begin_what_can()
            library, status = self.await_one()
            if status == KILLED and not library.is_alone:
                library.is_alone = True
                self.left.append(library)
            elif status:
                print("killed" if status == KILLED else "unproved", library.name, flush=True)
                return FAILED
            else:
                self.there.add(library.name)
                print("library", library.name, flush=True)
        return 0

    def end(self):
        """Ends what runs: where rt ends, the provers that it began end too."""
        for it in ENDING:
            signal.signal(it, signal.SIG_IGN)
        for call in (lambda it: os.kill(it, signal.SIGKILL), lambda it: os.waitpid(it, 0)):
            for child in self.running:
                # One may have ended meanwhile.
                with contextlib.suppress(OSError):
                    call(child)


def main(top, path, caller):
    rt = toolchain(path)
    if not rt:
        return OTHER_RT

    def end(number, _):
        raise Ended

    for it in ENDING:
        signal.signal(it, end)
    share_locks(rt.rtlib)
    build = Build(rt, in_order(rt, top), int(caller))
    try:
        build.take_turn(f"{top}/crates")
        return build.run()
    except Ended:
        return FAILED
    finally:
        build.end()


if __name__ == "__main__":
    sys.exit(main(*sys.argv[1:]))
