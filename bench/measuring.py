"""What the benchmarks share: texts are written, and commands measured, in processes of their own."""
import os, signal, subprocess, sys, time


def written(file, make):
    """Writes a text in a process of its own, since the memory of this one counts for those that it starts."""
    child = os.fork()
    if child == 0:
        with open(file, "w") as it:
            it.write(make())
        os._exit(0)
    if os.waitpid(child, 0)[1] != 0:
        sys.exit(f"{file} was not written")


def measured(words, folder, seconds):
    """Runs a command for so many seconds at most: its seconds, those of the processor, MiB at most, the last line of what it
    says (or the signal that ended it), the first line, and the status. The folder takes what it says."""
    start = time.monotonic()
    with open(f"{folder}/said", "wb") as said, open(os.devnull, "rb") as nothing:
        child = subprocess.Popen(words, stdin=nothing, stdout=subprocess.DEVNULL, stderr=said)
        signal.signal(signal.SIGALRM, lambda *_: child.kill())
        signal.alarm(seconds)
        _, status, used = os.wait4(child.pid, 0)
        signal.alarm(0)
    child.returncode = status
    lines = open(f"{folder}/said", errors="replace").read().strip().split("\n")
    said = lines[-1] if os.WIFEXITED(status) else f"ended by signal {os.WTERMSIG(status)}"
    return time.monotonic() - start, used.ru_utime + used.ru_stime, used.ru_maxrss / 1024, said, lines[0], status
