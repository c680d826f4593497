"""Measures the look-ups of hazards, outside the gate: nanoseconds of a call of `facts` and of `name_of` over all 28 hazards in turn,
beside a call of `find` over the ten actions, and of the stamp of a minute. It writes a program into a scratch folder beside a copy of
crates/hazard_types, with what its `out/` keeps, and builds it by `rt run`, which proves what is not proved yet. Seconds are of
processor time, the least of five runs, less those of a loop that calls nothing.

    python3 bench/facts.py
"""
import os
import shutil
import subprocess
import tempfile

from measure import run

TURNS = 1_000_000
PROGRAM = """//! Calls of look-ups, as often as a word asks.
#![tactic(auto)]

use hazard_types::desk_hazards::{facts, hazard_codes, name_of};
use hazard_types::{Hazard, Minute, actions, find, stamp};
use std::env;
use std::process::ExitCode;

fn each_facts(hazards: &[Hazard], turns: u32) -> u64 {
    let mut sum = 0u64;
    for _turn in 0..turns {
        for hazard in hazards {
            if let Some(known) = facts(*hazard) {
                sum = sum.wrapping_add(if known.flood { 1 } else { 2 });
            }
        }
    }
    sum
}

fn each_name(hazards: &[Hazard], turns: u32) -> u64 {
    let mut sum = 0u64;
    for _turn in 0..turns {
        for hazard in hazards {
            if let Some(name) = name_of(*hazard) {
                sum = sum.wrapping_add(name.len() as u64);
            }
        }
    }
    sum
}

fn each_letters(hazards: &[Hazard], turns: u32) -> u64 {
    let mut sum = 0u64;
    for _turn in 0..turns {
        for hazard in hazards {
            sum = sum.wrapping_add(u64::from(hazard.sig.letter()));
        }
    }
    sum
}

fn each_find(turns: u32) -> u64 {
    let table = actions();
    let codes = [*b"NEW", *b"EXB", *b"ROU", *b"CAN"];
    let mut sum = 0u64;
    for turn in 0..turns {
        for code in &codes {
            if find(&table, code).is_some() {
                sum = sum.wrapping_add(u64::from(turn));
            }
        }
    }
    sum
}

fn each_stamp(turns: u32) -> u64 {
    let mut sum = 0u64;
    for turn in 0..turns {
        if let Some(minute) = Minute::new(turn) {
            sum = sum.wrapping_add(u64::from(stamp(minute)[5]));
        }
    }
    sum
}

fn main(rt: HostRuntime) -> ExitCode {
    let Ok(words) = env::args(&rt) else {
        return ExitCode::from(2);
    };
    let Some(word) = words.into_iter().nth(1) else {
        return ExitCode::from(2);
    };
    let mut hazards = Vec::new(rt.alloc());
    for row in hazard_codes() {
        if hazards.push(row.value).is_err() {
            return ExitCode::from(2);
        }
    }
    let sum = match word.as_str() {
        "facts" => each_facts(&hazards, TURNS),
        "name" => each_name(&hazards, TURNS),
        "letters" => each_letters(&hazards, TURNS),
        "find" => each_find(TURNS),
        "stamp" => each_stamp(50_000_000),
        _ => return ExitCode::from(2),
    };
    ExitCode::from((sum % 2) as u8 * 100)
}
""".replace("TURNS", "%d" % TURNS)

TOP = os.path.join(os.path.dirname(os.path.abspath(__file__)), "..")


def build(folder):
    """The path of the program, made in a folder."""
    shutil.copytree(os.path.join(TOP, "crates", "hazard_types"), os.path.join(folder, "crates", "hazard_types"), symlinks=True)
    os.makedirs(os.path.join(folder, "crates", "calls", "src"))
    with open(os.path.join(folder, "crates.txt"), "w") as file:
        file.write("hazard_types:\ncalls: hazard_types\n")
    with open(os.path.join(folder, "crates", "calls", "src", "main.rt"), "w") as file:
        file.write(PROGRAM)
    subprocess.run(["git", "init", "-q", folder], check=True)
    crate = os.path.join(folder, "crates", "calls")
    done = subprocess.run(["rt", "run", "--", "nothing"], cwd=crate, stdin=subprocess.DEVNULL, capture_output=True, text=True)
    path = os.path.join(crate, "out", "calls")
    if not os.path.exists(path):
        raise SystemExit(done.stdout[-2000:] + done.stderr[-2000:])
    return path


def seconds(path, word):
    return min(run([path, word], os.devnull)[0] for _ in range(5))


with tempfile.TemporaryDirectory() as place:
    calls = build(place)
    nothing = seconds(calls, "letters")
    find = (seconds(calls, "find")) / (4 * TURNS) * 1e9
    print("find among ten actions: %.1f ns a call" % find)
    for word in "facts", "name":
        took = (seconds(calls, word) - nothing) / (28 * TURNS) * 1e9
        print("%s: %.1f ns a call, %.2f times a call of find" % (word, took, took / find))
    print("stamp: %.1f ns a call" % (seconds(calls, "stamp") / 50_000_000 * 1e9))
