#!/usr/bin/env python3
"""Tries the completions of `share` in bash and, if it is installed, in zsh, as they are typed at a terminal.

    bench/completions.py [--share FOLDER]

FOLDER is where `bash-completion` and `zsh` stand: `share` of the repository, or that of a place where `./install` put them. Each case is
what is typed, and the words that the shell must offer for its last word. The status is 1 if a shell offers others.
"""
import argparse
import contextlib
import fcntl
import os
import pathlib
import pty
import select
import shlex
import shutil
import signal
import struct
import sys
import tempfile
import termios
import time

ROOT = pathlib.Path(__file__).resolve().parent.parent
COMMANDS = "burst codebook correlate decode explain grow levels matrix model pairs prove rewind verify".split()
FILES = ["a:b.model", "folder", "ring.model", "ring.topology", "two words.log"]
RING = ["ring.model", "ring.topology"]
CASES = (
    ("jeknaule ", COMMANDS),
    ("jeknaule co", ["codebook", "correlate"]),
    ("jeknaule burst", ["burst"]),
    ("jeknaule -", []),
    ("jeknaule model ", [*FILES, "-"]),
    ("jeknaule model -", ["-"]),
    ("jeknaule model ri", RING),
    ("jeknaule model folder/", ["folder/inner.model"]),
    ("jeknaule model two", ["two words.log"]),
    ("jeknaule model two\\ w", ["two words.log"]),
    ("jeknaule model ring.model ", []),
    ("jeknaule matrix ring.model ring.t", ["ring.topology"]),
    ("jeknaule matrix - ", FILES),
    ("jeknaule pairs ring.model ring.topology ", [*FILES, "-"]),
    ("jeknaule pairs ring.model ring.topology - ", []),
    ("jeknaule explain ring.model ring.topology ", [*FILES, "-"]),
    ("jeknaule explain ring.model ring.topology - ", []),
    ("jeknaule ex", ["explain"]),
    ("jeknaule levels ring.model ", [*FILES, "-"]),
    ("jeknaule levels ring.model ring.topology ", []),
    ("jeknaule levels ring.model ring.topology ri", []),
    ("jeknaule levels ring.model ring.topology Cut@x ", []),
    ("jeknaule prove ring.model ring.topology ri", RING),
    ("jeknaule prove ring.model - ", FILES),
    ("jeknaule prove ring.model ring.topology - ", []),
    ("jeknaule rewind ring.model ring.topology ri", RING),
    ("jeknaule rewind ring.model ring.topology ", [*FILES, "-"]),
    ("jeknaule rewind ring.model - ", FILES),
    ("jeknaule rewind ring.model ring.topology - ", []),
    ("jeknaule rewind ring.model ring.topology - 9 ", []),
    ("jeknaule matrix ring.model ring.topology ", []),
    ("jeknaule codebook ring.model ", [*FILES, "-"]),
    ("jeknaule codebook ring.model ring.topology ", []),
    ("jeknaule codebook ring.model ring.topology ri", []),
    ("jeknaule codebook ring.model ring.topology 3 ", []),
    ("jeknaule codebook ring.model ring.topology cap3 ", []),
    ("jeknaule codebook ring.model ring.topology 3 > ri", RING),
    ("jeknaule codebook ring.model ring.topology 3 2>ri", RING),
    ("jeknaule codebook ring.model 2> ring.topology ri", RING),
    ("jeknaule model - < ri", RING),
    ("jeknaule burst ring.model ring.topology ", [*FILES, "-"]),
    ("jeknaule burst ring.model ring.topology - ", []),
    ("jeknaule burst a:b.model ring.topology ", [*FILES, "-"]),
    ("jeknaule burst a:b.model a=b ring.model ", []),
    ("jeknaule burst two\\ words.log 'two words.log' ri", RING),
    ("jeknaule burst two\\ words.log 'two words.log' ring.model ", []),
    ("jeknaule verify ring.model ring.topology ri", RING),
    ("jeknaule correlate ring.model ring.topology ", [*FILES, "-"]),
    ("jeknaule correlate ring.model ring.topology - ", []),
    ("jeknaule correlate ring.model ring.topology - 3 ", []),
    ("jeknaule correlate ring.model ring.topology - ca", []),
    ("jeknaule correlate ring.model ring.topology - cap3 ", []),
    ("jeknaule decode ring.model ring.topology - ", FILES),
    ("jeknaule decode ring.model ring.topology ring.model ", [*FILES, "-"]),
    ("jeknaule decode ring.model ring.topology ring.model - ", []),
    ("jeknaule grow ", []),
    ("jeknaule grow 4 ", []),
    ("jeknaule nothing ", []),
    ("cat ring.model | jeknaule model ", [*FILES, "-"]),
    ("LC_ALL=C jeknaule mo", ["model"]),
)
# Each shell's start: at a control-O all that is offered is put into the line, and at a control-T the line is written down.
BASH = r"""
PS1='ready> '
bind '"\C-o": insert-completions'
bind -x '"\C-t": printf "%s\n" "$READLINE_LINE" >> "$SEEN"'
. "$SHARE/bash-completion/completions/jeknaule"
"""
ZSH = r"""
PS1='ready> '
fpath=("$SHARE/zsh/site-functions" $fpath)
autoload -Uz compinit
compinit -u -D
offered() { _main_complete; compstate[insert]=all; compstate[list]= }
zle -C offered complete-word offered
bindkey '^O' offered
seen() { print -r -- "$BUFFER" >> "$SEEN" }
zle -N seen
bindkey '^T' seen
"""


def place(room, share):
    """Makes the folder in which all is typed, and returns what the shells find."""
    (room / "here" / "folder").mkdir(parents=True)
    for name in [*FILES, "folder/inner.model"]:
        if name != "folder":
            (room / "here" / name).touch()
    (room / "bash").write_text(BASH)
    (room / ".zshrc").write_text(ZSH)
    found = {"SHARE": str(share), "SEEN": str(room / "seen"), "ZDOTDIR": str(room), "HOME": str(room)}
    return {**found, "PATH": os.environ["PATH"], "TERM": "vt100", "LC_ALL": "C.UTF-8"}


def begin(words, room, found):
    """Starts a shell at a terminal of its own, and returns its number and the terminal."""
    process, terminal = pty.fork()
    if process == 0:
        os.chdir(room / "here")
        os.execvpe(words[0], words, found)
    fcntl.ioctl(terminal, termios.TIOCSWINSZ, struct.pack("HHHH", 60, 400, 0, 0))
    return process, terminal


def wait(terminal, is_done):
    """Reads what the terminal shows until that is done, for 20 seconds at most."""
    shown, end = b"", time.monotonic() + 20
    while not is_done(shown) and time.monotonic() < end:
        if select.select([terminal], [], [], 0.02)[0]:
            shown += os.read(terminal, 65536)
    return is_done(shown)


def words_of(line):
    """The words of a line, with operators such as `>` apart."""
    found = shlex.shlex(line, posix=True, punctuation_chars=True)
    found.whitespace_split = True
    return list(found)


def offers(typed, line):
    """The words that the shell put in the place of the last one typed."""
    if line == typed:
        return []
    given = len(words_of(typed)) - (not typed.endswith(" "))
    return [word.rstrip("/") for word in words_of(line)[given:]]


def try_shell(words, share):
    """Prints what a shell offers wrongly, and returns how often it does."""
    with tempfile.TemporaryDirectory() as name:
        room, wrong, lines = pathlib.Path(name), 0, []
        found = place(room, share)
        words = [word.format(room=room) for word in words]
        process, terminal = begin(words, room, found)
        if not wait(terminal, lambda shown: b"ready> " in shown):
            sys.exit(f"{words[0]} doesn't start")
        for typed, wanted in CASES:
            os.write(terminal, b"\x15" + typed.encode() + b"\x0f\x14")
            wait(terminal, lambda _: (room / "seen").exists() and (room / "seen").read_text().count("\n") > len(lines))
            lines = (room / "seen").read_text().splitlines() if (room / "seen").exists() else lines
            offered = offers(typed, lines[-1]) if lines else None
            if offered is None or sorted(offered) != sorted(wanted):
                wrong += 1
                print(f"{words[0]}: {typed!r} offers {offered}, and {wanted} is wanted")
        os.kill(process, signal.SIGKILL)
        with contextlib.suppress(ChildProcessError):
            os.waitpid(process, 0)
        os.close(terminal)
    print(f"{words[0]}: {len(CASES)} lines, {wrong} wrong")
    return wrong


def main():
    parser = argparse.ArgumentParser(description=__doc__, formatter_class=argparse.RawDescriptionHelpFormatter)
    parser.add_argument("--share", type=pathlib.Path, default=ROOT / "share")
    share = parser.parse_args().share.resolve()
    wrong = 0
    for words in (["bash", "--noprofile", "--rcfile", "{room}/bash", "-i"], ["zsh", "-d", "-i"]):
        if shutil.which(words[0]):
            wrong += try_shell(words, share)
        else:
            print(f"{words[0]} isn't installed, and not tried")
    sys.exit(1 if wrong else 0)


if __name__ == "__main__":
    main()
