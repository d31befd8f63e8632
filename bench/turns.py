"""What the scripts of bench/ have in common: the workloads of workloads.txt, and the processor seconds that a program takes.

A line of workloads.txt is NAME CRATE WORD..: it runs crates/CRATE/out/CRATE with these words, in the folder bench/ of its
checkout. SEED stands for the seed; a last word <FILE makes that file the standard input.
"""
import os
import subprocess
import sys
import tempfile

# How often each program is run, after a first run that is not counted.
TURNS = 9


def workloads(top, seed):
    """The name of each workload, the program with its words, and the file that is its standard input."""
    with open(f"{top}/bench/workloads.txt", encoding="utf-8") as lines:
        for line in lines:
            name, crate, *words = [seed if word == "SEED" else word for word in line.split()]
            source = words.pop()[1:] if words and words[-1].startswith("<") else os.devnull
            yield name, [f"{top}/crates/{crate}/out/{crate}", *words], source


def timed(top, words, source=os.devnull):
    """Runs a program: what it wrote, and the processor seconds that it took."""
    with open(os.path.join(f"{top}/bench", source), "rb") as stdin, tempfile.TemporaryFile() as stdout:
        process = subprocess.Popen(words, cwd=f"{top}/bench", stdin=stdin, stdout=stdout)
        _, status, usage = os.wait4(process.pid, 0)
        process.returncode = os.waitstatus_to_exitcode(status)
        if process.returncode:
            sys.exit(f"{' '.join(words)}: status {process.returncode}")
        stdout.seek(0)
        return stdout.read(), usage.ru_utime + usage.ru_stime
