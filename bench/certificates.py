"""Measures what the text of a large certificate costs to read, and to read and write, beside another program that makes and verifies it.
It makes a small program over cb_cert in a temporary folder; where cb_cert isn't proved on this machine yet, that takes some minutes.

    python3 bench/certificates.py PEER WORKLOAD [--sites N]

PEER is a program with the same command line, WORKLOAD the script that makes a network of N sites, each of which reaches all.
"""
import argparse
import pathlib
import subprocess
import sys
import tempfile

import measure

MAIN = r"""//! Reads a certificate, and writes it again where a second word asks for it.
#![tactic(auto)]

mod again;

use std::{env, fs, io};

fn main(rt: HostRuntime) -> io::Result<()> {
    let mut words = Vec::new(rt.alloc());
    for word in env::args(&rt)? {
        words.push(word)?;
    }
    let Some(path) = words.get(1) else {
        return Ok(());
    };
    let text = fs::read(&rt, path)?;
    let size = again::size(rt.alloc(), text.as_slice(), words.len() > 2);
    println!(rt; "{size}")?;
    Ok(())
}
"""

AGAIN = r"""//! A certificate's text, read and written.
use cb_cert::{read, write};
use std::alloc::Global;

#[inline(never)]
pub fn size(alloc: Global, text: &[u8], writes: bool) -> usize {
    if text.len() > 1 << 25 {
        return 0;
    }
    let Ok(certificate) = read(alloc, text) else {
        return 0;
    };
    if !writes {
        return 1;
    }
    match write(alloc, &certificate) {
        Ok(again) => again.len(),
        Err(_) => 0,
    }
}
"""


def least(program, words, folder):
    """Output, processor seconds and memory of the quickest of five runs."""
    runs = [measure.run(program, words, folder) for _ in range(5)]
    return min(runs, key=lambda run: run[2])[1:]


def main():
    parser = argparse.ArgumentParser(description=__doc__, formatter_class=argparse.RawDescriptionHelpFormatter)
    parser.add_argument("peer", type=pathlib.Path)
    parser.add_argument("workload", type=pathlib.Path)
    parser.add_argument("--sites", type=int, default=1024)
    words = parser.parse_args()
    with tempfile.TemporaryDirectory() as name:
        folder = pathlib.Path(name)
        subprocess.run([sys.executable, words.workload.resolve(), "mesh", str(words.sites), name], check=True)
        peer = words.peer.resolve()
        certificate, made, made_memory = least(peer, ["codebook", "m", "t", "1"], folder)
        (folder / "c").write_bytes(certificate)
        _, verified, verified_memory = least(peer, ["verify", "m", "t", "c"], folder)
        program = measure.build(folder, "certificates_bench", ["cb_cert"], {"main.rt": MAIN, "again.rt": AGAIN})
        good, reading, reading_memory = least(program, ["c"], folder)
        size, both, both_memory = least(program, ["c", "w"], folder)
        if good.strip() != b"1" or int(size) != len(certificate):
            sys.exit("the certificate isn't read and written as it is")
        print(f"{len(certificate)} bytes: read {reading:.3f} s, {reading_memory:.1f} MiB; read and written {both:.3f} s, {both_memory:.1f} MiB")
        print(f"peer: codebook {made:.3f} s, {made_memory:.1f} MiB; verify {verified:.3f} s, {verified_memory:.1f} MiB")


if __name__ == "__main__":
    main()
