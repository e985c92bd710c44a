#!/usr/bin/env bash
# How long a table of the logarithms of 1 to 1,000,000 takes, beside the logarithms one by one in the same run.
set -eu
"$(dirname "$0")/run.sh" bench_logarithms fixed_log rgb_base anyhow <<'PROGRAM'
//! Makes a table of logarithms, and adds up single ones.
#![tactic(auto)]

use anyhow::Result;
use fixed_log::{LogTable, lg};
use std::time::Instant;

const TOP: u32 = 1_000_000;

fn sum() -> u64 {
    let mut sum = 0u64;
    for x in 1..=TOP {
        sum = sum.wrapping_add(u64::from(lg(u64::from(x))));
    }
    sum
}

fn main(rt: HostRuntime) -> Result<()> {
    for _ in 0..3 {
        let start = Instant::now(&rt)?;
        let table = LogTable::new(rt.alloc(), TOP)?;
        let made = start.elapsed(&rt)?.as_micros();
        let start = Instant::now(&rt)?;
        let sum = sum();
        let single = start.elapsed(&rt)?.as_micros();
        let top = table.top();
        println!(rt; "table up to {top}: {made} us; the same one by one: {single} us ({sum})")?;
    }
    Ok(())
}
PROGRAM
