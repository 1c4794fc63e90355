#!/usr/bin/env python3
"""bench/gate.py [LOG]: what the gate costs.

Runs `rt ci --anew` once, in a fresh clone, and reads from /proc meanwhile how many processor seconds each crate's proof,
its tests' and its edits take. Prints them by crate, the longest chain of crates that stand on each other, and what the
whole run took. What `rt ci` says goes to LOG. Status 1: the gate refuses, or there is no `rt`.
"""
import collections
import os
import pathlib
import resource
import shutil
import subprocess
import sys
import tempfile
import time

TOP = pathlib.Path(__file__).resolve().parent.parent
TICKS = os.sysconf("SC_CLK_TCK")
# A name in the environment of all that the measured run starts.
MARK = f"GATE_MEASURED={os.getpid()}".encode()
KINDS = ("proof", "tests", "edits")


def crates():
    """Each crate of the repository with those of them that it stands on."""
    lines = (line.split("#")[0] for line in (TOP / "crates.txt").read_text().splitlines())
    uses = {name.strip(): below.split() for name, _, below in (line.partition(":") for line in lines if line.strip())}
    return {name: [it for it in below if it in uses] for name, below in uses.items()}


def prover(process, clone):
    """What tells a prover of the run from all others, its crate, for what it is proved, and the ticks used; None for any other process."""
    try:
        words = (process / "cmdline").read_bytes().split(b"\0")
        if b"--crate-name" not in words or MARK not in (process / "environ").read_bytes().split(b"\0"):
            return None
        folder = (process / "cwd").readlink()
        fields = (process / "stat").read_text().rpartition(")")[2].split()
    except OSError:
        return None
    crate = words[words.index(b"--crate-name") + 1].decode()
    # An edit is tried in a copy of the crate.
    kind = "edits" if clone not in folder.parents else "tests" if b"--test" in words else "proof"
    return (process.name, fields[19], crate, kind), int(fields[11]) + int(fields[12])


def measured(clone, log):
    """Runs the gate; its status, and the processor seconds by crate and kind."""
    name, _, value = MARK.decode().partition("=")
    ticks = {}
    with subprocess.Popen(["rt", "ci", "--anew"], cwd=clone, stdout=log, stderr=log, env={**os.environ, name: value}) as gate:
        while gate.poll() is None:
            for process in pathlib.Path("/proc").glob("[0-9]*"):
                found = prover(process, clone)
                if found:
                    ticks[found[0]] = found[1]
            time.sleep(0.5)
    spent = collections.Counter()
    for (_, _, crate, kind), used in ticks.items():
        spent[crate, kind] += used / TICKS
    return gate.returncode, spent


def chains(uses, spent):
    """For each crate the seconds of the longest chain of proofs that ends with it."""
    longest = {}

    def chain(crate):
        if crate not in longest:
            longest[crate] = spent[crate, "proof"] + max(map(chain, uses[crate]), default=0)
        return longest[crate]

    return {crate: chain(crate) for crate in uses}


def main():
    if len(sys.argv) > 2 or shutil.which("rt") is None:
        sys.exit("bench/gate.py: it takes one word, the name of a log; rt has to be on the PATH")
    uses = crates()
    with tempfile.TemporaryDirectory() as folder, open(sys.argv[1] if len(sys.argv) > 1 else os.devnull, "wb") as log:
        clone = pathlib.Path(folder).resolve() / "clone"
        subprocess.run(["git", "clone", "-q", TOP, clone], check=True)
        begun = time.monotonic()
        status, spent = measured(clone, log)
        elapsed = time.monotonic() - begun
    used = resource.getrusage(resource.RUSAGE_CHILDREN)
    longest = chains(uses, spent)
    print(f"{'seconds':<20}" + "".join(f"{kind:>8}" for kind in KINDS) + f"{'chain':>8}")
    for crate in uses:
        print(f"{crate:<20}" + "".join(f"{spent[crate, kind]:>8.0f}" for kind in KINDS) + f"{longest[crate]:>8.0f}")
    last = max(longest, key=longest.get)
    print(f"the longest chain, to {last}: {longest[last] / 60:.1f} processor minutes")
    print(f"rt ci --anew: status {status}, {elapsed / 60:.1f} minutes elapsed, {(used.ru_utime + used.ru_stime) / 60:.0f} processor minutes")
    sys.exit(1 if status else 0)


if __name__ == "__main__":
    main()
