"""Runs of a program of which one request for memory is refused, or which ends before one of its calls on files: for refuse_memory.py and old_file.py."""
import collections, os, shutil, subprocess, sys, tempfile

ENDED = 77
# A run, how many requests for memory and calls on files there were (0 where it was ended), and how many requests before each write on standard output.
Run = collections.namedtuple("Run", "done requests calls written")


def compiler():
    """A C compiler, None where there is none."""
    return next((found for found in map(shutil.which, ("cc", "gcc", "clang")) if found), None)


class Spoiler:
    """The library of spoil_calls.c, in a folder of its own. `with` removes it."""

    def __enter__(self):
        self.folder = tempfile.TemporaryDirectory(prefix="spoil-calls-")
        self.library = f"{self.folder.name}/spoil_calls.so"
        source = os.path.join(os.path.dirname(os.path.abspath(__file__)), "spoil_calls.c")
        subprocess.run([compiler(), "-O1", "-shared", "-fPIC", "-o", self.library, source, "-ldl"], check=True)
        return self

    def __exit__(self, *_):
        self.folder.cleanup()

    def run(self, words, text="", refuse=0, stop=0, folder=None):
        """The run of a command line."""
        told, tell = os.pipe()
        spoiled = {"LD_PRELOAD": self.library, "REFUSE": str(refuse), "STOP": str(stop), "TELL": str(tell)}
        try:
            done = subprocess.run(words, input=text, capture_output=True, text=True, pass_fds=[tell], cwd=folder, timeout=300, env={**os.environ, **spoiled})
        finally:
            os.close(tell)
        with os.fdopen(told) as tale:
            counts = [tuple(map(int, line.split())) for line in tale]
        requests, calls = counts.pop() if counts and done.returncode != ENDED else (0, 0)
        return Run(done, requests, calls, [before for before, _ in counts])


def end(tool, checks, failed, whole=""):
    """Prints the line that the gate counts, and ends."""
    print(f"{tool}: {checks} checks, {failed} failed" + (f" ({whole})" if whole else ""), flush=True)
    sys.exit(1 if failed else 0)


def end_without_compiler(tool):
    """Ends a tool that can check nothing where no C compiler is found: it has failed."""
    if compiler() is None:
        end(tool, 1, 1, "there is no C compiler")
