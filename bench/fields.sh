#!/usr/bin/env bash
# How fast fields are taken off a large message of postings, beside a plain loop over the same bytes in the same run.
set -eu
"$(dirname "$0")/run.sh" bench_fields ciff_wire <<'PROGRAM'
//! Takes all fields off one large message, and adds up its bytes.
#![tactic(auto)]

use ciff_wire::{Content, next_field};
use std::alloc::{AllocError, Global};
use std::io;
use std::time::Instant;

const POSTINGS: usize = 16_000_000;

// Postings of a gap and a frequency of one byte each.
fn message(alloc: Global) -> Result<Vec<u8>, AllocError> {
    let mut bytes = Vec::new(alloc);
    for i in 0..POSTINGS {
        let gap = (i % 127) as u8 + 1;
        bytes.extend_from_slice(&[0x08, gap, 0x10, 0x01])?;
    }
    Ok(bytes)
}

fn sum_of_fields(bytes: &[u8]) -> u64 {
    let mut rest = bytes;
    let mut sum = 0u64;
    for _ in 0..bytes.len() {
        let Ok(Some((field, used))) = next_field(rest) else {
            return sum;
        };
        if let Content::Number(value) = field.content {
            sum = sum.wrapping_add(value);
        }
        rest = &rest[used..];
    }
    sum
}

fn sum_of_bytes(bytes: &[u8]) -> u64 {
    let mut sum = 0u64;
    for byte in bytes {
        sum = sum.wrapping_mul(31).wrapping_add(u64::from(*byte));
    }
    sum
}

fn main(rt: HostRuntime) -> io::Result<()> {
    let bytes = message(rt.alloc())?;
    for _ in 0..3 {
        let start = Instant::now(&rt)?;
        let fields = sum_of_fields(&bytes);
        let taken = start.elapsed(&rt)?.as_micros();
        let start = Instant::now(&rt)?;
        let plain = sum_of_bytes(&bytes);
        let looped = start.elapsed(&rt)?.as_micros();
        let len = bytes.len();
        println!(rt; "{len} bytes: fields {taken} us ({fields}), plain loop {looped} us ({plain})")?;
    }
    Ok(())
}
PROGRAM
