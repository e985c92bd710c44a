#!/usr/bin/env bash
# How long it takes to make an index of 20 million postings in 800,000 lists with 100,000 documents, through the builder
# and from parts, beside a plain Rust program that fills the same tables (rustc -O) in the same run: the time of the
# filling, and the peak memory of each program in kilobytes.
set -eu
here=$(dirname "$0")
work=$(mktemp -d)
trap 'rm -rf "$work"' EXIT
cat >"$work/plain.rs" <<'PROGRAM'
use std::collections::HashSet;
use std::time::Instant;

#[derive(Clone, Copy)]
struct Posting {
    doc: u32,
    tf: i32,
}

#[derive(Default)]
struct Texts {
    text: String,
    ends: Vec<u64>,
}

impl Texts {
    fn push(&mut self, text: &str) {
        self.text.push_str(text);
        self.ends.push(self.text.len() as u64);
    }
}

#[derive(Default)]
struct Index {
    terms: Texts,
    counts: Vec<(i64, i64)>,
    table: Vec<Posting>,
    ends: Vec<u32>,
    names: Texts,
    sizes: Vec<i32>,
}

struct List {
    term: String,
    postings: Vec<Posting>,
}

const LISTS: u32 = 800_000;
const DOCUMENTS: u32 = 100_000;

fn builder() -> Option<Index> {
    let mut index = Index::default();
    let mut marks = HashSet::new();
    for list in 0..LISTS {
        let term = format!("term {list}");
        let mut least = 0;
        for k in 0..25 {
            let doc = list % 1000 + k * 3000;
            if doc < least || DOCUMENTS <= doc || index.table.len() == u32::MAX as usize {
                return None;
            }
            index.table.push(Posting { doc, tf: 1 });
            least = doc + 1;
        }
        let mut mark = 14695981039346656037u64;
        for byte in term.bytes() {
            mark = (mark ^ byte as u64).wrapping_mul(1099511628211);
        }
        if !marks.insert(mark) {
            return None;
        }
        index.terms.push(&term);
        index.counts.push((25, 25));
        index.ends.push(index.table.len() as u32);
    }
    for document in 0..DOCUMENTS {
        index.names.push(&format!("document {document}"));
        index.sizes.push(1);
    }
    Some(index)
}

fn parts() -> Option<(Vec<List>, Vec<(String, i32)>)> {
    let mut lists = Vec::new();
    for list in 0..LISTS {
        let mut postings = Vec::with_capacity(25);
        for k in 0..25 {
            postings.push(Posting { doc: list % 1000 + k * 3000, tf: 1 });
        }
        lists.push(List { term: format!("term {list}"), postings });
    }
    let records = (0..DOCUMENTS).map(|d| (format!("document {d}"), 1)).collect();
    Some((lists, records))
}

fn from_parts(lists: Vec<List>, records: Vec<(String, i32)>) -> Option<Index> {
    let mut total = 0;
    for list in &lists {
        let mut least = 0;
        for posting in &list.postings {
            if posting.doc < least || DOCUMENTS <= posting.doc {
                return None;
            }
            least = posting.doc + 1;
        }
        total += list.postings.len();
    }
    let mut seen = HashSet::with_capacity(lists.len());
    if !lists.iter().all(|list| seen.insert(list.term.as_str())) {
        return None;
    }
    drop(seen);
    let mut index = Index::default();
    index.table.reserve(total);
    for list in &lists {
        index.terms.push(&list.term);
        index.counts.push((25, 25));
        index.table.extend_from_slice(&list.postings);
        index.ends.push(index.table.len() as u32);
    }
    for (name, size) in &records {
        index.names.push(name);
        index.sizes.push(*size);
    }
    Some(index)
}

fn main() {
    let index;
    let taken;
    if std::env::args().nth(1).as_deref() == Some("parts") {
        let (lists, records) = parts().unwrap();
        let start = Instant::now();
        index = from_parts(lists, records).unwrap();
        taken = start.elapsed();
    } else {
        let start = Instant::now();
        index = builder().unwrap();
        taken = start.elapsed();
    }
    let sum: u64 = index.table.iter().map(|p| p.doc as u64 + p.tf as u64).sum();
    let rest = index.terms.ends.len() + index.counts.len() + index.ends.len() + index.names.ends.len();
    println!("{} ms ({sum} {})", taken.as_millis(), rest + index.sizes.len());
}
PROGRAM
rustc -O -o "$work/plain" "$work/plain.rs"

# program NAME: the proved program that makes the index in this way, on standard output
program() {
    cat <<'PROGRAM'
//! An index of 20 million postings.
#![tactic(auto)]

use anyhow::Result;
use rgb_base::{BuildError, DocRecord, Header, Index, IndexBuilder, PartsError, Posting, Postings, TermList, Text};
use std::alloc::{AllocError, Global};
use std::time::Instant;

const LISTS: u32 = 800_000;
const DOCUMENTS: u32 = 100_000;

fn header_of(alloc: Global) -> Header {
    Header {
        version: 1,
        total_lists: 0,
        total_docs: 0,
        total_terms: 0,
        average_bits: 0,
        description: Text::of(String::new(alloc)),
    }
}

fn posting_of(list: u32, k: u32) -> Posting {
    let doc = (list % 1000).wrapping_add(k.wrapping_mul(3000));
    Posting { doc, tf: 1 }
}
PROGRAM
    if [ "$1" = builder ]; then
        cat <<'PROGRAM'

fn built(alloc: Global) -> Result<IndexBuilder, BuildError> {
    let mut builder = IndexBuilder::new(alloc, header_of(alloc), DOCUMENTS)?;
    for list in 0..LISTS {
        for k in 0..25 {
            builder.push_posting(posting_of(list, k))?;
        }
        let term = format!(in alloc; "term {list}")?;
        builder.close_list(term.as_str(), 25, 25)?;
    }
    for document in 0..DOCUMENTS {
        let name = format!(in alloc; "document {document}")?;
        builder.push_record(name.as_str(), 1)?;
    }
    Ok(builder)
}

fn main(rt: HostRuntime) -> Result<()> {
    let start = Instant::now(&rt)?;
    let builder = built(rt.alloc())?;
    let taken = start.elapsed(&rt)?.as_millis();
    let (lists, records) = (builder.lists(), builder.records());
    println!(rt; "{taken} ms ({lists} {records})")?;
    Ok(())
}
PROGRAM
    else
        cat <<'PROGRAM'

fn list_of(alloc: Global, list: u32) -> Result<TermList, AllocError> {
    let mut postings = Vec::with_capacity(alloc, 25)?;
    for k in 0..25 {
        postings.push(posting_of(list, k))?;
    }
    Ok(TermList {
        term: Text::of(format!(in alloc; "term {list}")?),
        df: 25,
        cf: 25,
        postings: Postings::of(postings),
    })
}

fn lists_of(alloc: Global) -> Result<Vec<TermList>, AllocError> {
    let mut lists = Vec::new(alloc);
    for list in 0..LISTS {
        lists.push(list_of(alloc, list)?)?;
    }
    Ok(lists)
}

fn records_of(alloc: Global) -> Result<Vec<DocRecord>, AllocError> {
    let mut records = Vec::new(alloc);
    for document in 0..DOCUMENTS {
        let name = Text::of(format!(in alloc; "document {document}")?);
        records.push(DocRecord { name, length: 1 })?;
    }
    Ok(records)
}

fn main(rt: HostRuntime) -> Result<()> {
    let lists = lists_of(rt.alloc())?;
    let records = records_of(rt.alloc())?;
    let start = Instant::now(&rt)?;
    let made: Result<Index, PartsError> = Index::from_parts(rt.alloc(), header_of(rt.alloc()), lists, records);
    let index = made?;
    let taken = start.elapsed(&rt)?.as_millis();
    let (lists, postings) = (index.lists(), index.total_postings());
    println!(rt; "{taken} ms ({lists} {postings})")?;
    Ok(())
}
PROGRAM
    fi
}

# run.sh leaves each program where KEEP says
for way in builder parts; do
    program $way >"$work/$way.rt"
    KEEP="$work/$way" "$here/run.sh" "bench_$way" rgb_base anyhow <"$work/$way.rt"
done
for turn in 1 2 3; do
    for way in builder parts; do
        for program in "$work/plain" "$work/$way"; do
            /usr/bin/time -f '%M' -o "$work/peak" "$program" $way >"$work/out"
            echo "$way, $(basename "$program" | sed 's/builder\|parts/proved/'): $(cat "$work/out"), peak $(cat "$work/peak")"
        done
    done
done
