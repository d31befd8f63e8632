"""Answers the file `lines` by iref_cli on the workers of a Dask cluster, and writes the file `answers`.

`dask-scheduler` runs on the machine SCHEDULER and `dask-worker SCHEDULER:8786` on each machine; all read `lines` at one path, and
have iref_cli on their path. Debian's packages are python3-dask and python3-distributed. `latin-1` keeps every byte, and without
`linedelimiter` a CR would end a line. If a worker dies, other workers answer its lines.
"""
import subprocess
import dask.bag
from distributed import Client

def answers(lines):
    text = "".join(lines).encode("latin-1")
    return [subprocess.run(["iref_cli"], input=text, stdout=subprocess.PIPE, check=True).stdout]

client = Client("SCHEDULER:8786")
lines = dask.bag.read_text("lines", blocksize="4MiB", encoding="latin-1", linedelimiter="\n")
open("answers", "wb").writelines(lines.map_partitions(answers).compute())
