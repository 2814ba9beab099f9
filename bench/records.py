"""Measures what a line of a log costs to read as a record: as a session reads it, by its tokens first; by its value, where the tokens have
no answer; and what of the second is the reading of its JSON. It makes a small program over cb_alarm in a temporary folder; where cb_alarm
isn't proved on this machine yet, that takes some minutes.

    python3 bench/records.py [--rounds N]
"""
import argparse
import pathlib
import tempfile

import measure

LINES = {
    "raise": '{"at":1764288000,"from":"collector-7","raise":"NoVoltage@m/quay/3"}',
    "clear": '{"at":1764288030,"from":"collector-7","clear":"NoVoltage@m/quay/3"}',
    "edit": '{"at":1764288060,"edit":"link bridge next mill"}',
    "tick": '{"at":1764288090,"tick":true}',
    "no record": '{"at":1764288090,"from":"collector-7","raise":"NoVoltage at m/quay/3"}',
}

MAIN = r"""//! Reads one line many times.
#![tactic(auto)]

mod reading;

use cb_alarm::Scratch;
use std::env;
use std::io;

fn main(rt: HostRuntime) -> io::Result<()> {
    let mut words = Vec::new(rt.alloc());
    for word in env::args(&rt)? {
        words.push(word)?;
    }
    let (Some(mode), Some(line)) = (words.get(1), words.get(2)) else {
        return Ok(());
    };
    let Some(mode) = mode.as_bytes().first() else {
        return Ok(());
    };
    let mut scratch = Scratch::new(rt.alloc());
    let mut good = 0u32;
    for _ in 0..ROUNDS {
        good = good.wrapping_add(reading::read(rt.alloc(), &mut scratch, line.as_bytes(), *mode));
    }
    println!(rt; "{good}")?;
    Ok(())
}
"""

READING = r"""//! One line, as a record or as a value alone.
use cb_alarm::{Scratch, plain_record, read_record};
use serde_json::Value;
use std::alloc::Global;

// Whether it is read so: `t` by its tokens first, `r` by its value, `j` as a value alone.
#[inline(never)]
pub fn read(alloc: Global, scratch: &mut Scratch, line: &[u8], mode: u8) -> u32 {
    match mode {
        b't' => u32::from(is_plain(alloc, scratch, line) || read_record(alloc, line).is_ok()),
        b'r' => u32::from(read_record(alloc, line).is_ok()),
        _ => u32::from(Value::from_slice(alloc, line).is_ok()),
    }
}

fn is_plain(alloc: Global, scratch: &mut Scratch, line: &[u8]) -> bool {
    match plain_record(alloc, scratch, line) {
        Ok(Some(_)) => true,
        _ => false,
    }
}
"""


def main():
    parser = argparse.ArgumentParser(description=__doc__)
    parser.add_argument("--rounds", type=int, default=1_000_000)
    rounds = parser.parse_args().rounds
    with tempfile.TemporaryDirectory() as name:
        sources = {"main.rt": MAIN.replace("ROUNDS", str(rounds)), "reading.rt": READING}
        program = measure.build(pathlib.Path(name), "records_bench", ["cb_alarm", "serde_json", "json"], sources)
        print("line        tokens first   as a value   of that its JSON")
        for kind, line in LINES.items():
            first, whole, json = (min(measure.run(program, [mode, line], name)[2] for _ in range(3)) / rounds * 1e6 for mode in ("t", "r", "j"))
            print(f"{kind:12}{first:12.2f}{whole:13.2f}{json:19.2f}")


if __name__ == "__main__":
    main()
