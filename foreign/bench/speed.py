#!/usr/bin/env python3
"""How fast the library is from C, beside the same in Rattle, in one run, one in turn with the other.

- frames: `mv_packet_in_front`, which reads the header of a whole packet in the caller and calls `mv_next_packet` for all else, over a stream of 50,000
  commands in memory, 400 times (`frames.c`), and `next_packet` of jdwp_wire by a program that stands below, which is proved and built for it;
- packets: `mv_next_packets` over the same stream, 256 places a call, and the fields read by the functions of milunovesk.h (`packets.c`), and `next_packet` in the same
  program, 400 times; both add up all fields of each packet's header, and the length and place of its data;
- both ends: a million SuspendCounts, 64 at a time, asked and answered in one process (`both_ends.c`), and `both_ends bytes` of crates/both_ends, whose commands are
  made of the bytes of their data, too. Beside it, as a thing of its own, `both_ends`, which makes them of items and so reads no bytes;
- check: `mv_check` of a capture of 64 MB of short packets (`check.c`), and `jdwp check`.

Prints, each the best of seven runs by the processor's time, what C reaches of the speed of Rattle; and of packets, where valgrind is there, the instructions that each takes,
which do not change with what else the machine does. To reach: 0.9, of packets by instructions, and `mv_check` 1.

    make -C foreign bench && foreign/bench/speed.py

`rt run` in crates/both_ends and crates/jdwp builds the programs.
"""

import os
import re
import shutil
import subprocess
import sys
import tempfile

sys.dont_write_bytecode = True  # no folder of them beside the scripts

HERE = os.path.dirname(os.path.abspath(__file__))
ROOT = os.path.dirname(os.path.dirname(HERE))
OUT = f"{HERE}/../out"
sys.path.append(f"{ROOT}/bench")

import captures

RUNS = 7
PASSES = 400
ROUNDS = 15_625
MB = 64

# The program that counts frames, over the crates that it needs.
FRAMES = """\
//! Counts the packets of a stream in memory, again and again.
#![tactic(auto)]

use jdwp_wire::{Next, PacketKind, PacketRef, next_packet};
use std::env;

/// How many packets stand one behind the other in these bytes.
fn found(bytes: &[u8]) -> u64 {
    let mut found = 0u64;
    let mut rest = bytes;
    for _ in 0..bytes.len() {
        match next_packet(rest) {
            Next::Whole(_, used) => match rest.get(used..) {
                Some(left) => rest = left,
                None => break,
            },
            _ => break,
        }
        found = found.wrapping_add(1);
    }
    found
}

/// All that is told of a packet whose data begin at this place, added up.
fn told(packet: &PacketRef, place: usize) -> u64 {
    let (kind, set, number, error) = match packet.header.kind {
        PacketKind::Command { set, number } => (1u64, set, number, 0),
        PacketKind::Reply { error } => (2, 0, 0, error.0),
    };
    kind.wrapping_add(u64::from(set))
        .wrapping_add(u64::from(number))
        .wrapping_add(u64::from(error))
        .wrapping_add(u64::from(packet.header.id))
        .wrapping_add(u64::from(packet.header.length))
        .wrapping_add(packet.body.len() as u64)
        .wrapping_add(place as u64)
}

/// All that is told of the packets that stand one behind the other in these bytes, added up.
fn summed(bytes: &[u8]) -> u64 {
    let mut sum = 0u64;
    let mut rest = bytes;
    for _ in 0..bytes.len() {
        match next_packet(rest) {
            Next::Whole(packet, used) => {
                let place = bytes.len().wrapping_sub(rest.len()).wrapping_add(11);
                sum = sum.wrapping_add(told(&packet, place));
                match rest.get(used..) {
                    Some(left) => rest = left,
                    None => break,
                }
            }
            _ => break,
        }
    }
    sum
}

fn main(rt: HostRuntime) -> anyhow::Result<()> {
    let packet = [0u8, 0, 0, 19, 0, 0, 0, 1, 0, 11, 12, 0, 0, 0, 0, 0, 0, 0, 1];
    let mut stream = Vec::new(rt.alloc());
    for _ in 0..50_000u32 {
        stream.extend_from_slice(&packet)?;
    }
    let words = env::args(&rt)?.collect::<Vec<String>>(rt.alloc())?;
    let mut all = 0u64;
    if let [_, passes] = words.as_slice() {
        for _ in 0..passes.parse::<u32>()? {
            all = all.wrapping_add(found(stream.as_slice()));
        }
        println!(&rt; "{all} found")?;
    } else if let [_, _, passes] = words.as_slice() {
        for _ in 0..passes.parse::<u32>()? {
            all = all.wrapping_add(summed(stream.as_slice()));
        }
        println!(&rt; "{all} in all")?;
    }
    Ok(())
}
"""


def frames(folder):
    """The program above, built in a repository of its own."""
    os.makedirs(f"{folder}/crates/frames/src")
    os.symlink(f"{ROOT}/HANDLES", f"{folder}/HANDLES")
    subprocess.run(["cp", "-r", f"{ROOT}/crates/jdwp_wire", f"{folder}/crates/"], check=True)
    with open(f"{folder}/crates.txt", "w", encoding="ascii") as out:
        out.write("jdwp_wire: byteorder circular_buffer thiserror\nframes: jdwp_wire anyhow\n")
    with open(f"{folder}/crates/frames/src/main.rt", "w", encoding="ascii") as out:
        out.write(FRAMES)
    subprocess.run(["rt", "run"], cwd=f"{folder}/crates/frames", check=True, stdout=subprocess.DEVNULL)
    return f"{folder}/crates/frames/out/frames"


def seconds(words, says):
    """The processor's seconds of a run, which has to say this."""
    process = subprocess.Popen(words, stdout=subprocess.PIPE)
    said = process.stdout.read()
    _, status, usage = os.wait4(process.pid, 0)
    if os.waitstatus_to_exitcode(status) != 0 or said != says:
        sys.exit(f"{words}: {said}")
    return usage.ru_utime + usage.ru_stime


def instructions(words):
    """The instructions of each packet, by two runs, of which one does nothing but begin and end."""
    def counted(passes):
        words_of = ["valgrind", "--tool=callgrind", "--callgrind-out-file=/dev/null", *words, str(passes)]
        said = subprocess.run(words_of, check=True, stdout=subprocess.DEVNULL, stderr=subprocess.PIPE, text=True).stderr
        return int(re.search(r"refs: *([0-9,]+)", said)[1].replace(",", ""))

    return (counted(20) - counted(0)) / (20 * 50_000)


def compare(name, in_c, in_rattle, says):
    times = [(seconds(in_c, says), seconds(in_rattle, says)) for _ in range(RUNS)]
    c, rattle = (min(it) for it in zip(*times))
    print(f"{name}: {c:.3f} s from C, {rattle:.3f} s in Rattle: {rattle / c:.2f} of its speed", flush=True)


def main():
    with tempfile.TemporaryDirectory() as folder:
        program = frames(folder)
        compare("frames", [f"{OUT}/bench_frames", str(PASSES)], [program, str(PASSES)], b"%d found\n" % (50_000 * PASSES))
        # kind, set, number, id, length, length of data, and place of data, of each packet
        told = PASSES * sum(1 + 11 + 12 + 1 + 19 + 8 + (19 * each + 11) for each in range(50_000))
        compare("packets", [f"{OUT}/bench_packets", str(PASSES)], [program, "packets", str(PASSES)], b"%d in all\n" % (told % 2**64))
        if shutil.which("valgrind"):
            c, rattle = instructions([f"{OUT}/bench_packets"]), instructions([program, "packets"])
            print(f"packets: {c:.1f} instructions from C, {rattle:.1f} in Rattle: {rattle / c:.2f}", flush=True)
        rounds = str(ROUNDS)
        in_c, in_rattle, says = f"{OUT}/bench_both_ends", f"{ROOT}/crates/both_ends/out/both_ends", b"%d answered\n" % (64 * ROUNDS)
        compare("both ends", [in_c, rounds], [in_rattle, "bytes", rounds], says)
        compare("both ends, beside commands made of items", [in_c, rounds], [in_rattle, rounds], says)
        path = f"{folder}/session.capture"
        captures.write_capture(path, captures.short_exchange, captures.packet_lines, MB * 1_000_000)
        compare("check", [f"{OUT}/bench_check", path], [f"{ROOT}/crates/jdwp/out/jdwp", "check", path], b"yes\n")


if __name__ == "__main__":
    main()
