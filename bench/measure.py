"""Runs programs on inputs in a folder, and prints processor seconds, peak memory and ratios. The scripts beside use it."""
import argparse
import os
import pathlib
import resource
import shutil
import subprocess
import sys
import tempfile

ROOT = pathlib.Path(__file__).resolve().parent.parent
TIME = "/usr/bin/time"


def programs(description, **argument):
    """The words of a script's command line, with the two programs; one more argument may be told."""
    parser = argparse.ArgumentParser(description=description, formatter_class=argparse.RawDescriptionHelpFormatter)
    parser.add_argument("--program", type=pathlib.Path, default=ROOT / "crates" / "cb_cli" / "out" / "cb_cli")
    parser.add_argument("--peer", type=pathlib.Path, help="another program with the same command line")
    if argument:
        parser.add_argument("sizes", **argument)
    words = parser.parse_args()
    if not words.program.exists():
        sys.exit(f"{words.program} isn't there: run .ci/run first, or `rt run` in crates/cb_cli")
    words.program = words.program.resolve()
    words.peer = words.peer.resolve() if words.peer and words.peer.exists() else None
    resource.setrlimit(resource.RLIMIT_CORE, (0, 0))
    return words


def run(program, words, folder):
    """The status, the output, the processor seconds and the peak memory in MiB of one run. A process begins with the peak of the
    one that it is forked from, so it is started by GNU time, which is small, where that is there."""
    with tempfile.TemporaryFile() as out, tempfile.TemporaryFile() as err, tempfile.NamedTemporaryFile() as peak:
        by = [TIME, "-q", "-f", "%M", "-o", peak.name] if os.path.exists(TIME) else []
        process = subprocess.Popen([*by, str(program), *words], cwd=folder, stdout=out, stderr=err)
        _, status, usage = os.wait4(process.pid, 0)
        process.returncode = os.waitstatus_to_exitcode(status)
        out.seek(0)
        err.seek(0)
        text = out.read() + err.read()
        memory = int(peak.read() or usage.ru_maxrss) / 1024
    return process.returncode, text, usage.ru_utime + usage.ru_stime, memory


def compare(what, command, programs_of, folder):
    """Runs the command with one program or both, and prints one line of numbers."""
    status, text, seconds, memory = run(programs_of.program, command, folder)
    line = f"{what}: status {status}, {seconds:8.3f} s, {memory:8.1f} MiB"
    if programs_of.peer is not None:
        peer_status, peer_text, peer_seconds, peer_memory = run(programs_of.peer, command, folder)
        alike = "alike" if (status, text) == (peer_status, peer_text) else "DIFFERENT"
        line += f" | peer {peer_seconds:8.3f} s, {peer_memory:8.1f} MiB"
        line += f" | ratio {seconds / max(peer_seconds, 0.001):7.1f}, {memory / peer_memory:5.1f} | {alike}"
    print(line, flush=True)


def _below(name, lines, found):
    """Adds a crate of the repository and those that it stands on, lowest first."""
    if name in lines and name not in found:
        for other in lines[name]:
            _below(other, lines, found)
        found.append(name)


def build(folder, name, on, sources):
    """A small program of these sources over copies of the crates that it stands on, proved and built in a folder of its own."""
    lines = {}
    for line in (ROOT / "crates.txt").read_text().splitlines():
        if ":" in line and not line.startswith("#"):
            crate, others = line.split(":")
            lines[crate] = others.split()
    names = []
    for crate in on:
        _below(crate, lines, names)
    crates = folder / "crates"
    for crate in names:
        shutil.copytree(ROOT / "crates" / crate, crates / crate, ignore=shutil.ignore_patterns("out"))
    source = crates / name / "src"
    source.mkdir(parents=True)
    for file, text in sources.items():
        (source / file).write_text(text)
    listed = "".join(f"{crate}: {' '.join(lines[crate])}\n" for crate in names)
    (folder / "crates.txt").write_text(listed + f"{name}: {' '.join(on)}\n")
    subprocess.run(["rt", "run"], cwd=crates / name, check=True, stdout=subprocess.DEVNULL, stderr=subprocess.DEVNULL)
    return crates / name / "out" / name
