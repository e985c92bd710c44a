#!/usr/bin/env bash
# How long indexes of 20 million postings take to be written: to a host that keeps nothing, to a file, and, as the floor,
# as many zero bytes to a file, all in the same run.
set -eu
"$(dirname "$0")/run.sh" bench_write ciff_writer rgb_base rgb_host anyhow <<'PROGRAM'
//! Writes made indexes, and says how long it took.
#![tactic(auto)]
ghost use Rattle.std.specs.Prelude.{None};

use anyhow::Result;
use ciff_writer::write_index;
use rgb_base::{DocRecord, Header, Index, Posting, Postings, TermList, Text};
use rgb_host::{Failed, Host, RealHost, write_all};
use std::alloc::Global;
use std::time::Instant;
use std::{env, fs, process, result};

/// A host that takes all and keeps nothing.
#[derive(Drop)]
struct Nowhere;

impl Host for Nowhere {
    ghost seen = { λ h. record {
      files = None;
      printed = None;
      warned = None;
      read_faults = 0;
      write_faults = 0;
      warn_faults = 0;
    } };

    fn read_at(&mut self, _: &str, _: u64, _: &mut [u8]) -> result::Result<usize, Failed> {
        Ok(0)
    }

    fn create(&mut self, _: &str) -> result::Result<(), Failed> {
        Ok(())
    }

    fn append(&mut self, _: &str, piece: &[u8]) -> result::Result<usize, Failed> {
        Ok(piece.len())
    }

    fn print(&mut self, piece: &[u8]) -> result::Result<usize, Failed> {
        Ok(piece.len())
    }

    fn warn(&mut self, piece: &[u8]) -> result::Result<usize, Failed> {
        Ok(piece.len())
    }
}

/// So many postings, whose gaps are spread from 1 up to the widest.
fn postings(alloc: Global, count: u32, widest: u32, seed: u32) -> Result<Postings> {
    let mut all = Vec::with_capacity(alloc, count as usize)?;
    let mut state = seed | 1;
    let mut doc = 0u32;
    for _ in 0..count {
        state = state.wrapping_mul(1664525).wrapping_add(1013904223);
        doc = doc.wrapping_add(1 + (state >> 8) % widest.max(1));
        let tf = if state >> 30 == 0 { 2 } else { 1 };
        all.push(Posting { doc, tf })?;
    }
    Ok(Postings::of(all))
}

fn index(alloc: Global, lists: u32, count: u32, widest: u32) -> Result<Index> {
    let header = Header {
        version: 1,
        total_lists: 0,
        total_docs: 0,
        total_terms: 0,
        average_bits: 0,
        description: Text::of(String::new(alloc)),
    };
    let mut all = Vec::new(alloc);
    for i in 0..lists {
        let term = Text::of(format!(in alloc; "term{i}")?);
        let postings = postings(alloc, count, widest, i)?;
        let df = i64::from(count);
        all.push(TermList { term, df, cf: df, postings })?;
    }
    let mut documents = Vec::new(alloc);
    for i in 0..1_000_000u32 {
        let name = Text::of(format!(in alloc; "document{i}")?);
        documents.push(DocRecord { name, length: 7 })?;
    }
    Ok(Index::from_parts(alloc, header, all, documents)?)
}

fn zeros(host: &mut RealHost, path: &str, len: u64) -> result::Result<(), Failed> {
    host.create(path)?;
    for _ in 0..len / 65536 {
        write_all(host, path, &[0; 65536])?;
    }
    Ok(())
}

fn timed(rt: HostRuntime, path: &str, what: &str, index: &Index) -> Result<()> {
    for _ in 0..3 {
        let start = Instant::now(&rt)?;
        let len = write_index(index, &mut Nowhere, path)?;
        let alone = start.elapsed(&rt)?.as_micros();
        let mut host = RealHost::new(rt);
        host.create(path)?;
        let start = Instant::now(&rt)?;
        write_index(index, &mut host, path)?;
        let taken = start.elapsed(&rt)?.as_micros();
        let start = Instant::now(&rt)?;
        zeros(&mut host, path, len)?;
        let floor = start.elapsed(&rt)?.as_micros();
        println!(rt; "{what}: {len} bytes: to nowhere {alone} us, to a file {taken} us, as many zeros {floor} us")?;
    }
    Ok(())
}

fn main(rt: HostRuntime) -> Result<()> {
    let folder = env::temp_dir(&rt)?;
    let path = format!(in rt.alloc(); "{}/bench_write_{}", folder.as_str(), process::id(rt.process()))?;
    let alloc = rt.alloc();
    timed(rt, path.as_str(), "a million documents", &index(alloc, 0, 1, 1)?)?;
    timed(rt, path.as_str(), "gaps up to 20", &index(alloc, 400, 50_000, 20)?)?;
    timed(rt, path.as_str(), "gaps up to 900", &index(alloc, 10_000, 2_000, 900)?)?;
    fs::remove_file(&rt, path.as_str())?;
    Ok(())
}
PROGRAM
