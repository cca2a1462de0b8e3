"""What the measuring scripts share: the rounds that a bench prints, and the most memory of one run of a program."""
import subprocess
import sys


def peak_of(words):
    """The most memory of one run, in bytes, as its status tells it from time to time."""
    run = subprocess.Popen(words, stdout=subprocess.DEVNULL)
    peak = 0
    while run.poll() is None:
        try:
            with open(f"/proc/{run.pid}/status", encoding="ascii") as status, open(f"/proc/{run.pid}/cmdline", "rb") as name:
                mine = name.read().startswith(words[0].encode())
                for line in status:
                    if mine and line.startswith("VmHWM"):
                        peak = max(peak, int(line.split()[1]) * 1024)
        except OSError:
            break
    if run.wait() != 0:
        sys.exit(f"{' '.join(words)} ended with status {run.returncode}")
    return peak


def rounds_of(words):
    """The numbers that a bench prints, a list a round."""
    out = subprocess.run(words, stdout=subprocess.PIPE, check=True).stdout.decode()
    return [[int(number) for number in line.split()] for line in out.splitlines()]
