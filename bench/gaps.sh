#!/usr/bin/env bash
# How long the gap costs of 20 million postings take at one and at four workers, beside a plain Rust program over the
# same gaps (rustc -O) in the same run.
set -eu
here=$(dirname "$0")
work=$(mktemp -d)
trap 'rm -rf "$work"' EXIT
cat >"$work/plain.rs" <<'PROGRAM'
use std::time::Instant;

#[derive(Clone, Copy)]
struct Posting {
    doc: u32,
    tf: i32,
}

fn main() {
    let mut lists = Vec::new();
    let mut seed = 1u64;
    for list in 0..40_000u32 {
        let len = 500 + (list % 3) - 1;
        let mut doc = 0;
        let mut postings = Vec::with_capacity(len as usize);
        for _ in 0..len {
            seed = seed.wrapping_mul(6364136223846793005).wrapping_add(1442695040888963407);
            postings.push(Posting { doc, tf: 1 });
            doc += 1 + (seed >> 56) as u32 * (seed >> 48 & 255) as u32 / 256;
        }
        lists.push(postings);
    }
    for _ in 0..3 {
        let start = Instant::now();
        let (mut count, mut gamma, mut delta, mut bytes) = (0u64, 0u64, 0u64, 0u64);
        for postings in &lists {
            let mut before = 0;
            for posting in postings {
                let gap = posting.doc + 1 - before;
                before = posting.doc + 1;
                let e = gap.ilog2() as u64;
                gamma += 2 * e + 1;
                delta += e + 2 * (e as u32 + 1).ilog2() as u64 + 1;
                bytes += e / 7 + 1;
                count += (posting.tf != 0) as u64;
            }
        }
        let taken = start.elapsed().as_micros();
        println!("plain: {taken} us ({count} {gamma} {delta} {bytes})");
    }
}
PROGRAM
rustc -O -o "$work/plain" "$work/plain.rs"
"$work/plain"
"$here/run.sh" bench_gaps gap_report rgb_base anyhow <<'PROGRAM'
//! The gap costs of 20 million postings.
#![tactic(auto)]

use anyhow::Result;
use gap_report::Costs;
use rgb_base::{DocRecord, Header, Index, Posting, Postings, TermList, Text};
use std::alloc::Global;
use std::time::Instant;

const DOCUMENTS: u32 = 140_000;

fn header_of(alloc: Global) -> Header {
    Header {
        version: 1,
        total_lists: 0,
        total_docs: 0,
        total_terms: 0,
        average_bits: 0,
        description: Text::of(String::new(alloc)),
    }
}

fn list_of(alloc: Global, list: u32, seed: &mut u64) -> Result<TermList> {
    let len = 499 + (list % 3);
    let mut postings = Vec::with_capacity(alloc, len as usize)?;
    let mut doc = 0u32;
    for _ in 0..len {
        *seed = seed.wrapping_mul(6364136223846793005).wrapping_add(1442695040888963407);
        postings.push(Posting { doc, tf: 1 })?;
        let step = (*seed >> 56) * (*seed >> 48 & 255) / 256;
        doc = doc.wrapping_add(1).wrapping_add((step & 0xff) as u32);
    }
    Ok(TermList {
        term: Text::of(format!(in alloc; "{list}")?),
        df: 1,
        cf: 1,
        postings: Postings::of(postings),
    })
}

fn index_of(alloc: Global) -> Result<Index> {
    let mut lists = Vec::new(alloc);
    let mut seed = 1;
    for list in 0..40_000 {
        lists.push(list_of(alloc, list, &mut seed)?)?;
    }
    let mut records = Vec::new(alloc);
    for _ in 0..DOCUMENTS {
        records.push(DocRecord {
            name: Text::of(String::new(alloc)),
            length: 1,
        })?;
    }
    Ok(Index::from_parts(alloc, header_of(alloc), lists, records)?)
}

fn main(rt: HostRuntime) -> Result<()> {
    let index = index_of(rt.alloc())?;
    for workers in [1, 1, 4, 4] {
        let start = Instant::now(&rt)?;
        let costs = Costs::of(&rt, &index, workers)?;
        let taken = start.elapsed(&rt)?.as_micros();
        let (count, gamma, delta, bytes) = (costs.postings, costs.gamma, costs.delta, costs.bytes);
        println!(rt; "workers {workers}: {taken} us ({count} {gamma} {delta} {bytes})")?;
    }
    Ok(())
}
PROGRAM
