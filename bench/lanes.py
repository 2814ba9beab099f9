"""Measures the kernels of cb_lanes against the same loops in C (gcc -O3 for x86-64-v2) at 128 and at 1,024 words, and the memory of a
pool of cb_pool with 64 MiB reserved and ten rows taken. It makes a small program in a temporary folder, which takes a minute or two.

    python3 bench/lanes.py [--rounds N]
"""
import argparse
import pathlib
import subprocess
import tempfile

import measure

KERNELS = {"distance": "d", "distance_under": "u", "or_into": "o", "equal": "e", "and_any": "a", "next_in_a_not_b": "n"}
ROUNDS = {128: 4_000_000, 1024: 500_000}

MAIN = """//! Runs one kernel many times over rows without a difference, or reserves a pool.
#![tactic(auto)]

mod kernels;
mod pool;

use std::env;
use std::io;

fn main(rt: HostRuntime) -> io::Result<()> {
    let mut words = Vec::new(rt.alloc());
    for word in env::args(&rt)? {
        words.push(word.as_bytes().first().copied().unwrap_or(0))?;
    }
    let kernel = words.get(1).copied().unwrap_or(0);
    if kernel == b'p' {
        let spare = pool::reserved(rt.alloc())?;
        println!(rt; "{spare}")?;
        return Ok(());
    }
    let large = words.get(2).copied().unwrap_or(0) == b'1';
    let n = if large { 1024 } else { 128 };
    let times = if large { ROUNDS_LARGE } else { ROUNDS_SMALL };
    let mut a = vec![in rt.alloc(); 0x00ff_00ff_0000_0001_u64; n]?;
    let b = vec![in rt.alloc(); 0x00ff_00ff_0000_0001_u64; n]?;
    let none = vec![in rt.alloc(); 0xff00_ff00_0000_0000_u64; n]?;
    let mut sum = 0u32;
    for _ in 0..times {
        sum = sum.wrapping_add(kernels::run(kernel, &mut a, &b, &none));
    }
    println!(rt; "{sum}")?;
    Ok(())
}
"""

CALLS = """//! The kernels, by a letter.
use cb_lanes::{and_any, distance, distance_under, equal, next_in_a_not_b, or_into};

#[inline(never)]
pub fn run(kernel: u8, a: &mut [u64], b: &[u64], none: &[u64]) -> u32 {
    if 1024 < a.len() || a.len() != b.len() || a.len() != none.len() {
        return 0;
    }
    match kernel {
        b'd' => distance(a, b),
        b'u' => distance_under(a, none, b),
        b'o' => u32::from(or_into(a, b)),
        b'e' => u32::from(equal(a, b)),
        b'a' => u32::from(and_any(a, none)),
        b'n' => u32::from(next_in_a_not_b(a, b, 0).is_some()),
        _ => 0,
    }
}
"""

POOL = """//! A pool of which little is taken.
use cb_pool::RowPool;
use std::alloc::{AllocError, Global};

/// Reserves 64 MiB of rows and takes ten.
pub fn reserved(alloc: Global) -> Result<usize, AllocError> {
    let mut pool = RowPool::new(alloc, 1024);
    pool.reserve(8192)?;
    for _ in 0..10 {
        if 0 < pool.spare() {
            let _slot = pool.take();
        }
    }
    Ok(pool.spare())
}
"""

PEER = r"""
#include <stdint.h>
#include <stdio.h>
#include <stdlib.h>
typedef uint64_t u64;
#define KERNEL __attribute__((noinline)) uint32_t
KERNEL distance(const u64 *a, const u64 *b, size_t n) { uint32_t c = 0; for (size_t i = 0; i < n; i++) c += __builtin_popcountll(a[i] ^ b[i]); return c; }
KERNEL under(const u64 *a, const u64 *b, const u64 *m, size_t n) { uint32_t c = 0; for (size_t i = 0; i < n; i++) c += __builtin_popcountll((a[i] ^ b[i]) & m[i]); return c; }
KERNEL or_into(u64 *a, const u64 *b, size_t n) { int c = 0; for (size_t i = 0; i < n; i++) { u64 w = a[i] | b[i]; c |= w != a[i]; a[i] = w; } return c; }
KERNEL equal(const u64 *a, const u64 *b, size_t n) { for (size_t i = 0; i < n; i++) if (a[i] != b[i]) return 0; return 1; }
KERNEL any(const u64 *a, const u64 *b, size_t n) { for (size_t i = 0; i < n; i++) if (a[i] & b[i]) return 1; return 0; }
KERNEL next(const u64 *a, const u64 *b, size_t n) { for (size_t i = 0; i < n; i++) { u64 l = a[i] & ~b[i]; if (l) return 1; } return 0; }
int main(int count, char **words) {
    char kernel = words[1][0];
    int large = words[2][0] == '1';
    size_t n = large ? 1024 : 128, times = large ? ROUNDS_LARGE : ROUNDS_SMALL;
    u64 *a = malloc(8 * n), *b = malloc(8 * n), *none = malloc(8 * n);
    for (size_t i = 0; i < n; i++) { a[i] = b[i] = 0x00ff00ff00000001; none[i] = 0xff00ff0000000000; }
    uint32_t sum = 0;
    for (size_t i = 0; i < times; i++) {
        switch (kernel) {
        case 'd': sum += distance(a, b, n); break;
        case 'u': sum += under(a, none, b, n); break;
        case 'o': sum += or_into(a, b, n); break;
        case 'e': sum += equal(a, b, n); break;
        case 'a': sum += any(a, none, n); break;
        case 'n': sum += next(a, b, n); break;
        }
        __asm__ volatile("" ::"r"(a), "r"(b), "r"(none) : "memory");
    }
    printf("%u\n", sum);
}
"""


def with_rounds(text):
    return text.replace("ROUNDS_LARGE", str(ROUNDS[1024])).replace("ROUNDS_SMALL", str(ROUNDS[128]))


def build(folder):
    """The program over the two crates, and its peer in C."""
    sources = {"main.rt": with_rounds(MAIN), "kernels.rt": CALLS, "pool.rt": POOL}
    program = measure.build(folder, "lanes_bench", ["cb_lanes", "cb_pool"], sources)
    (folder / "peer.c").write_text(with_rounds(PEER))
    subprocess.run(["gcc", "-O3", "-march=x86-64-v2", "-o", folder / "peer", folder / "peer.c"], check=True)
    return program, folder / "peer"


def least(program, words, rounds, folder):
    """The output and the least of some times."""
    runs = [measure.run(program, words, folder) for _ in range(rounds)]
    return runs[0][1], min(seconds for _, _, seconds, _ in runs)


def main():
    parser = argparse.ArgumentParser(description=__doc__, formatter_class=argparse.RawDescriptionHelpFormatter)
    parser.add_argument("--rounds", type=int, default=5)
    rounds = parser.parse_args().rounds
    with tempfile.TemporaryDirectory() as name:
        folder = pathlib.Path(name)
        program, peer = build(folder)
        for kernel, letter in KERNELS.items():
            for n in ROUNDS:
                words = [letter, str(n)[0] if n == 1024 else "0"]
                text, seconds = least(program, words, rounds, folder)
                peer_text, peer_seconds = least(peer, words, rounds, folder)
                alike = "alike" if text == peer_text else "DIFFERENT"
                print(f"{kernel} {n}: {seconds:.3f} s, gcc {peer_seconds:.3f} s, ratio {seconds / peer_seconds:.2f}, {alike}", flush=True)
        print(f"nothing reserved: {measure.run(program, ['x'], folder)[3]:.1f} MiB")
        print(f"64 MiB reserved, ten rows taken: {measure.run(program, ['p'], folder)[3]:.1f} MiB")


if __name__ == "__main__":
    main()
