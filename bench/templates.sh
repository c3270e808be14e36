#!/bin/sh
# Prints how many nanoseconds of processor time a byte parse_template takes at 4,096 and at 65,536 bytes. The first
# five texts are those that a reader with retries would read again and again: their two numbers are to be within a
# factor of 2 of one another. The texts after them that are all references take memory for each piece besides.
# Run it at the top of the repository, with `rt` in the path.
set -e
top=$(pwd)
work=$(mktemp -d)
trap 'rm -rf "$work"' EXIT
mkdir -p "$work/crates/template_bench/src" "$work/crates/template_bench/specs"
cp -r "$top/crates/jm_base" "$top/crates/template_text" "$work/crates/"
: > "$work/crates/template_bench/specs/Lib.antt"
grep -E '^(jm_base|template_text)[ :]' crates.txt > "$work/crates.txt"
echo "template_bench: jm_base template_text anyhow" >> "$work/crates.txt"
cat > "$work/crates/template_bench/src/main.rt" <<'PROGRAM'
//! Times the reading of templates.
#![tactic(auto)]

use anyhow::Result;
use jm_base::M;
use std::alloc::Global;
use std::time::CpuClock;
use template_text::parse_template;

fn repeated(alloc: Global, unit: &[u8], count: usize) -> M<Vec<u8>> {
    let mut out = Vec::new(alloc);
    for _ in 0..count {
        for byte in unit {
            if out.len() < count {
                out.push(*byte)?;
            }
        }
        if out.len() >= count {
            break;
        }
    }
    Ok(out)
}

/// Reads a text that many times and gives the nanoseconds of processor time that all took.
fn nanoseconds<R: CpuClock + AllocGlobal>(rt: &R, text: &[u8], rounds: u32) -> Result<u64> {
    let start = rt.thread_cpu_time()?;
    for _ in 0..rounds {
        if text.len() <= 65536 {
            let _ = parse_template(rt.alloc(), text)?;
        }
    }
    match rt.thread_cpu_time()?.checked_sub(start) {
        Some(whole) => Ok(u64::from(whole.subsec_nanos())
            .saturating_add(whole.as_secs().saturating_mul(1_000_000_000))),
        None => Ok(0),
    }
}

fn per_byte(all: u64) -> u64 {
    all / 1_048_576
}

fn run<R: CpuClock + Print + AllocGlobal>(rt: &R) -> Result<()> {
    for unit in ["${__a(", "${", "${__a(x,(", "${__a(\\,", "${x", "${x}", "${__a(b,${c})}", "plain ", "((", "$"] {
        let short = repeated(rt.alloc(), unit.as_bytes(), 4096)?;
        let long = repeated(rt.alloc(), unit.as_bytes(), 65536)?;
        let first = per_byte(nanoseconds(rt, &short, 256)?);
        let second = per_byte(nanoseconds(rt, &long, 16)?);
        println!(rt; "{unit}: {first} ns a byte at 4,096 bytes, {second} at 65,536")?;
    }
    Ok(())
}

fn main(rt: HostRuntime) -> Result<()> {
    run(&rt)
}
PROGRAM
cd "$work/crates/template_bench"
rt run
