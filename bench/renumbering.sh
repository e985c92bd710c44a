#!/usr/bin/env bash
# How long it takes to renumber an index of 20 million postings by a scattered permutation, by one and by four threads,
# beside plain Rust programs over the same postings (rustc -O) in the same run: one that sorts the lists as the proved
# code does, and one without a sort, which goes over the documents in the new order through a table of each document's
# terms.
set -eu
here=$(dirname "$0")
work=$(mktemp -d)
trap 'rm -rf "$work"' EXIT
cat >"$work/plain.rs" <<'PROGRAM'
use std::thread;
use std::time::Instant;

const DOCUMENTS: usize = 140_000;

#[derive(Clone, Copy, PartialEq)]
struct Posting {
    doc: u32,
    tf: i32,
}

fn table() -> (Vec<Posting>, Vec<u32>) {
    let (mut table, mut ends, mut seed) = (Vec::new(), Vec::new(), 1u64);
    for list in 0..40_000u32 {
        let mut doc = 0;
        for _ in 0..499 + list % 3 {
            seed = seed.wrapping_mul(6364136223846793005).wrapping_add(1442695040888963407);
            table.push(Posting { doc, tf: 1 + (seed >> 60) as i32 });
            doc += 1 + (seed >> 56) as u32 * (seed >> 48 & 255) as u32 / 256;
        }
        ends.push(table.len() as u32);
    }
    (table, ends)
}

fn sort_lists(mut part: &mut [Posting], ends: &[u32], mut start: u32, places: &[u32]) {
    for end in ends {
        let (list, rest) = part.split_at_mut((end - start) as usize);
        for posting in list.iter_mut() {
            posting.doc = places[posting.doc as usize];
        }
        list.sort_unstable_by_key(|posting| posting.doc);
        (part, start) = (rest, *end);
    }
}

fn sorted(table: &[Posting], ends: &[u32], places: &[u32], workers: usize) -> Vec<Posting> {
    let mut new = table.to_vec();
    thread::scope(|scope| {
        let (mut rest, mut start) = (&mut new[..], 0);
        for lists in ends.chunks(ends.len().div_ceil(workers)) {
            let end = lists[lists.len() - 1];
            let (part, others) = rest.split_at_mut((end - start) as usize);
            scope.spawn(move || sort_lists(part, lists, start, places));
            (rest, start) = (others, end);
        }
    });
    new
}

fn through_documents(table: &[Posting], ends: &[u32], places: &[u32]) -> Vec<Posting> {
    let mut starts = vec![0u32; places.len() + 1];
    for posting in table {
        starts[places[posting.doc as usize] as usize + 1] += 1;
    }
    for doc in 0..places.len() {
        starts[doc + 1] += starts[doc];
    }
    let (mut next, mut forward) = (starts.clone(), vec![(0u32, 0i32); table.len()]);
    let mut start = 0;
    for (list, end) in ends.iter().enumerate() {
        for posting in &table[start as usize..*end as usize] {
            let place = &mut next[places[posting.doc as usize] as usize];
            forward[*place as usize] = (list as u32, posting.tf);
            *place += 1;
        }
        start = *end;
    }
    let mut new = vec![Posting { doc: 0, tf: 0 }; table.len()];
    let mut next: Vec<u32> = [0].iter().chain(ends).copied().collect();
    for doc in 0..places.len() {
        for (list, tf) in &forward[starts[doc] as usize..starts[doc + 1] as usize] {
            let place = &mut next[*list as usize];
            new[*place as usize] = Posting { doc: doc as u32, tf: *tf };
            *place += 1;
        }
    }
    new
}

fn main() {
    let (table, ends) = table();
    let mut places = vec![0; DOCUMENTS];
    for new in 0..DOCUMENTS {
        places[new * 48271 % DOCUMENTS] = new as u32;
    }
    let start = Instant::now();
    let want = through_documents(&table, &ends, &places);
    println!("plain through the documents: {} ms", start.elapsed().as_millis());
    for workers in [1, 1, 1, 4, 4] {
        let start = Instant::now();
        let got = sorted(&table, &ends, &places, workers);
        println!("plain sort, {workers} threads: {} ms", start.elapsed().as_millis());
        assert!(got == want);
    }
}
PROGRAM
rustc -O -o "$work/plain" "$work/plain.rs"
"$work/plain"
"$here/run.sh" bench_renumbering postings_rewrite rgb_base anyhow <<'PROGRAM'
//! An index of 20 million postings renumbered.
#![tactic(auto)]

use anyhow::{Result, bail};
use postings_rewrite::renumber;
use rgb_base::{DocRecord, Header, Index, Permutation, Posting, Postings, TermList, Text};
use std::alloc::Global;
use std::time::Instant;

const DOCUMENTS: u32 = 140_000;

fn header_of(alloc: Global) -> Header {
    Header {
        version: 1,
        total_lists: 0,
        total_docs: 0,
        total_terms: 0,
        average_bits: 0,
        description: Text::of(String::new(alloc)),
    }
}

fn list_of(alloc: Global, list: u32, seed: &mut u64) -> Result<TermList> {
    let len = 499 + (list % 3);
    let mut postings = Vec::with_capacity(alloc, len as usize)?;
    let mut doc = 0u32;
    for _ in 0..len {
        *seed = seed.wrapping_mul(6364136223846793005).wrapping_add(1442695040888963407);
        let tf = 1 + (*seed >> 60 & 15) as i32;
        postings.push(Posting { doc, tf })?;
        let step = (*seed >> 56) * (*seed >> 48 & 255) / 256;
        doc = doc.wrapping_add(1).wrapping_add((step & 0xff) as u32);
    }
    Ok(TermList {
        term: Text::of(format!(in alloc; "{list}")?),
        df: 1,
        cf: 1,
        postings: Postings::of(postings),
    })
}

fn index_of(alloc: Global) -> Result<Index> {
    let mut lists = Vec::new(alloc);
    let mut seed = 1;
    for list in 0..40_000 {
        lists.push(list_of(alloc, list, &mut seed)?)?;
    }
    let mut records = Vec::new(alloc);
    for _ in 0..DOCUMENTS {
        records.push(DocRecord {
            name: Text::of(String::new(alloc)),
            length: 1,
        })?;
    }
    Ok(Index::from_parts(alloc, header_of(alloc), lists, records)?)
}

/// A permutation that leaves no neighbours.
fn scattered(alloc: Global) -> Result<Permutation> {
    let mut order = Vec::new(alloc);
    for new in 0..DOCUMENTS {
        order.push((u64::from(new) * 48271 % 140_000) as u32)?;
    }
    if order.len() >= 1 << 31 {
        bail!("too many documents");
    }
    Ok(Permutation::from_order(alloc, order)?)
}

fn main(rt: HostRuntime) -> Result<()> {
    let index = index_of(rt.alloc())?;
    let by = scattered(rt.alloc())?;
    if by.len() != index.documents() {
        bail!("lengths differ");
    }
    for workers in [1, 1, 1, 4, 4] {
        let start = Instant::now(&rt)?;
        let new = renumber(&rt, rt.alloc(), &index, &by, workers)?;
        let taken = start.elapsed(&rt)?.as_millis();
        let postings = new.total_postings();
        println!(rt; "workers {workers}: {taken} ms ({postings} postings)")?;
    }
    Ok(())
}
PROGRAM
