#!/usr/bin/env bash
# How long it takes to make the forward index of an index of 20 million postings, by one and by four threads, beside a
# plain Rust program (rustc -O) in the same run that does the same: band by band of documents and list by list it
# counts the terms of each document, and then fills its row. Two shapes of an index: many lists whose documents lie near
# one another, and few lists that are spread over all documents.
set -eu
here=$(dirname "$0")
work=$(mktemp -d)
trap 'rm -rf "$work"' EXIT
cat >"$work/plain.rs" <<'PROGRAM'
use std::time::Instant;

#[derive(Clone, Copy)]
struct Posting {
    doc: u32,
    _tf: i32,
}

struct Shape {
    name: &'static str,
    documents: u32,
    lists: u32,
    postings: u32,
    stride: u32,
}

const SHAPES: [Shape; 2] = [
    Shape { name: "near", documents: 140_000, lists: 40_000, postings: 500, stride: 128 },
    Shape { name: "spread", documents: 1_002_000, lists: 2_000, postings: 10_000, stride: 100 },
];

struct Index {
    documents: u32,
    table: Vec<Posting>,
    ends: Vec<u32>,
}

impl Index {
    fn postings(&self, list: usize) -> &[Posting] {
        let from = if list == 0 { 0 } else { self.ends[list - 1] };
        &self.table[from as usize..self.ends[list] as usize]
    }
}

fn index(shape: &Shape) -> Index {
    let (mut table, mut ends, mut seed) = (Vec::new(), Vec::new(), 1u64);
    for list in 0..shape.lists {
        for place in 0..shape.postings {
            seed = seed.wrapping_mul(6364136223846793005).wrapping_add(1442695040888963407);
            let doc = list + place * shape.stride + ((seed >> 40) * shape.stride as u64 >> 24) as u32;
            table.push(Posting { doc, _tf: 1 + (seed >> 60) as i32 });
        }
        ends.push(table.len() as u32);
    }
    Index { documents: shape.documents, table, ends }
}

fn width(index: &Index) -> u32 {
    let average = index.table.len() as u64 / index.documents as u64 + 1;
    let postings = (1u64 << 18).max(8 * index.ends.len() as u64);
    (postings / average).min(index.documents as u64).max(1) as u32
}

/// Each band of documents, and its postings list by list.
fn by_bands(index: &Index, places: &[u32], first: u32, len: usize, mut each: impl FnMut(u32, usize)) {
    let limit = first + len as u32;
    let mut passed: Vec<usize> = (0..index.ends.len())
        .map(|list| index.postings(list).partition_point(|p| p.doc < first))
        .collect();
    let (mut from, width) = (first, width(index));
    while from < limit {
        from += width.min(limit - from);
        for (list, passed) in passed.iter_mut().enumerate() {
            let rest = &index.postings(list)[*passed..];
            let mut n = 0;
            while n < rest.len() && rest[n].doc < from {
                let at = (places[rest[n].doc as usize] as usize).wrapping_sub(first as usize);
                if at < len {
                    each(list as u32, at);
                }
                n += 1;
            }
            *passed += n;
        }
    }
}

fn count(index: &Index, places: &[u32], first: u32, counts: &mut [u32]) {
    by_bands(index, places, first, counts.len(), |_, at| counts[at] += 1);
}

fn fill(index: &Index, places: &[u32], first: u32, base: u32, cursors: &mut [u32], entries: &mut [u32]) {
    by_bands(index, places, first, cursors.len(), |list, at| {
        entries[(cursors[at] - base) as usize] = list;
        cursors[at] += 1;
    });
}

fn forward(index: &Index, places: &[u32], workers: usize) -> (Vec<u32>, Vec<u32>) {
    let mut cursors = vec![0u32; places.len()];
    let share = places.len().div_ceil(workers);
    std::thread::scope(|scope| {
        for (worker, counts) in cursors.chunks_mut(share).enumerate() {
            scope.spawn(move || count(index, places, (worker * share) as u32, counts));
        }
    });
    let mut total = 0;
    for cursor in cursors.iter_mut() {
        let start = total;
        total += *cursor;
        *cursor = start;
    }
    let mut entries = vec![0; total as usize];
    std::thread::scope(|scope| {
        let (mut rest, mut entries, mut first) = (&mut cursors[..], &mut entries[..], 0);
        while !rest.is_empty() {
            let (own, others) = rest.split_at_mut(share.min(rest.len()));
            let base = own[0];
            let end = others.first().copied().unwrap_or(total);
            let (near, far) = entries.split_at_mut((end - base) as usize);
            scope.spawn(move || fill(index, places, first, base, own, near));
            (rest, entries, first) = (others, far, first + share as u32);
        }
    });
    (cursors, entries)
}

fn main() {
    for shape in &SHAPES {
        let index = index(shape);
        let places: Vec<u32> = (0..index.documents).collect();
        for workers in [1, 1, 1, 4, 4, 4] {
            let start = Instant::now();
            let (_, entries) = forward(&index, &places, workers);
            let taken = start.elapsed().as_millis();
            println!("plain, {}, workers {workers}: {taken} ms ({} entries)", shape.name, entries.len());
        }
    }
}
PROGRAM
rustc -O -o "$work/plain" "$work/plain.rs"
"$work/plain"
# A shape of an index: its name, its documents, its lists, the postings of each, and how far they are apart.
measure() {
    sed "s/NAME/$1/; s/DOCUMENTS: u32 = 1/DOCUMENTS: u32 = $2/; s/LISTS: u32 = 1/LISTS: u32 = $3/
s/POSTINGS: u32 = 1/POSTINGS: u32 = $4/; s/STRIDE: u32 = 1/STRIDE: u32 = $5/" <"$work/main.rt" |
        "$here/run.sh" bench_forward forward_index rgb_base anyhow
}
cat >"$work/main.rt" <<'PROGRAM'
//! The forward index of an index of 20 million postings.
#![tactic(auto)]

use anyhow::Result;
use forward_index::Forward;
use rgb_base::{DocRecord, Header, Index, Posting, Postings, TermList, Text};
use std::alloc::Global;
use std::time::Instant;

const DOCUMENTS: u32 = 1;
const LISTS: u32 = 1;
const POSTINGS: u32 = 1;
const STRIDE: u32 = 1;

fn header_of(alloc: Global) -> Header {
    Header {
        version: 1,
        total_lists: 0,
        total_docs: 0,
        total_terms: 0,
        average_bits: 0,
        description: Text::of(String::new(alloc)),
    }
}

fn list_of(alloc: Global, list: u32, seed: &mut u64) -> Result<TermList> {
    let mut postings = Vec::with_capacity(alloc, POSTINGS as usize)?;
    let mut doc = list;
    for _ in 0..POSTINGS {
        *seed = seed.wrapping_mul(6364136223846793005).wrapping_add(1442695040888963407);
        let tf = 1 + (*seed >> 60 & 15) as i32;
        let ahead = (*seed >> 40).wrapping_mul(STRIDE as u64) >> 24;
        postings.push(Posting {
            doc: doc.wrapping_add((ahead & 0xff) as u32),
            tf,
        })?;
        doc = doc.wrapping_add(STRIDE);
    }
    Ok(TermList {
        term: Text::of(format!(in alloc; "{list}")?),
        df: 1,
        cf: 1,
        postings: Postings::of(postings),
    })
}

fn index_of(alloc: Global) -> Result<Index> {
    let mut lists = Vec::new(alloc);
    let mut seed = 1;
    for list in 0..LISTS {
        lists.push(list_of(alloc, list, &mut seed)?)?;
    }
    let mut records = Vec::new(alloc);
    for _ in 0..DOCUMENTS {
        records.push(DocRecord {
            name: Text::of(String::new(alloc)),
            length: 1,
        })?;
    }
    Ok(Index::from_parts(alloc, header_of(alloc), lists, records)?)
}

fn main(rt: HostRuntime) -> Result<()> {
    let index = index_of(rt.alloc())?;
    for workers in [1, 1, 1, 4, 4, 4] {
        let start = Instant::now(&rt)?;
        let forward = Forward::build(&rt, rt.alloc(), &index, 1, workers)?;
        let taken = start.elapsed(&rt)?.as_millis();
        let documents = forward.docs();
        println!(rt; "NAME, workers {workers}: {taken} ms ({documents} documents)")?;
    }
    Ok(())
}
PROGRAM
measure near 140000 40000 500 128
measure spread 1002000 2000 10000 100
