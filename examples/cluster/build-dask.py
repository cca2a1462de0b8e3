#!/usr/bin/python3
"""Builds the indexes of a collection by Dask's `distributed` (Debian: apt install python3-distributed).

  build-dask.py COLLECTION WORK [--scheduler ADDRESS | --scheduler-file FILE] [options of pieces.py cut]

On one machine, with nothing else running, it starts four workers by itself. On many, start `dask-scheduler` on one,
`dask-worker ADDRESS --nthreads 1 --nworkers N` on each, and name the ADDRESS that the scheduler prints. A piece whose worker
is lost is given to another one, and a piece that failed is tried three times more. The program is $IX, or build/ix beside this
folder, under the same path on all machines. The indexes are WORK/i0000.ix and so on.
"""
import argparse
import os
import shutil
import subprocess
import sys
import tempfile
from pathlib import Path

try:
    from distributed import Client, as_completed
except ImportError:
    sys.exit("build-dask.py needs Dask's distributed: apt install python3-distributed, and Debian's own /usr/bin/python3")

PIECES = str(Path(__file__).resolve().parent / "pieces.py")


def step(ix, words):
    """Runs a step where this call is made: on a worker."""
    subprocess.run([sys.executable, PIECES, *words], env={**os.environ, "IX": ix} if ix else None, check=True)
    return words[-1]


def here(*words):
    """Runs a step on this machine, and gives the lines that it prints."""
    return subprocess.run([sys.executable, PIECES, *words], check=True, stdout=subprocess.PIPE, text=True).stdout.split()


def everywhere(client, ix, name, work, items):
    """Runs a step for each item, side by side."""
    calls = [client.submit(step, ix, [name, work, item], pure=False, retries=3) for item in items]
    for done, call in enumerate(as_completed(calls, raise_errors=True), 1):
        call.result()
        print(f"{name}: {done} of {len(calls)}", file=sys.stderr)


def main():
    parser = argparse.ArgumentParser(description=__doc__, formatter_class=argparse.RawDescriptionHelpFormatter)
    parser.add_argument("collection")
    parser.add_argument("work")
    parser.add_argument("--scheduler")
    parser.add_argument("--scheduler-file")
    given, options = parser.parse_known_args()
    work = str(Path(given.work).resolve())
    ix = os.environ.get("IX") and os.path.abspath(os.environ["IX"])
    space = tempfile.mkdtemp()
    try:
        here("cut", given.collection, work, *options)
        if given.scheduler or given.scheduler_file:
            where = {"address": given.scheduler, "scheduler_file": given.scheduler_file}
        else:
            where = {"n_workers": 4, "threads_per_worker": 1, "dashboard_address": None, "local_directory": space}
        with Client(**where) as client:
            pieces = here("list", work)
            everywhere(client, ix, "count", work, pieces)
            here("number", work)
            everywhere(client, ix, "run", work, pieces)
            everywhere(client, ix, "merge", work, here("groups", work))
            everywhere(client, ix, "merge", work, here("indexes", work))
    except subprocess.CalledProcessError as fault:
        print(f"build-dask.py: not built: {' '.join(fault.cmd[2:])}: status {fault.returncode}", file=sys.stderr)
        return fault.returncode
    finally:
        shutil.rmtree(space, ignore_errors=True)
    return 0


if __name__ == "__main__":
    sys.exit(main())
