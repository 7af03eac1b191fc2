#!/usr/bin/env bash
# Reads and microseconds of a look-up in index files of 64, 1,024 and 16,384 pages over the host's files, each through a paged
# index opened anew, and what a put costs an index that holds so many keys in no order. A small program does it on a copy of the
# crates: it is proved and built there, which takes minutes. Reads are counted by the host (syscr in /proc/self/io). No part of
# the gate.
set -eu
top=$(cd "$(dirname "$0")/.." && pwd)
work=$(mktemp -d)
trap 'rm -rf "$work"' EXIT
mkdir "$work/crates"
for crate in fd_bytes fd_region fd_index fd_disk fd_buffers fd_host fd_unsynced fd_untold fd_disk_real fd_pages; do
  mkdir "$work/crates/$crate"
  cp -r "$top/crates/$crate/src" "$work/crates/$crate/"
  for part in specs proofs; do
    if [ -d "$top/crates/$crate/$part" ]; then cp -r "$top/crates/$crate/$part" "$work/crates/$crate/"; fi
  done
  grep "^$crate:" "$top/crates.txt" >> "$work/crates.txt"
done
echo "fd_look: fd_bytes fd_index fd_disk fd_disk_real fd_pages" >> "$work/crates.txt"
driver=$work/crates/fd_look
mkdir -p "$driver/src"
cat > "$driver/src/main.rt" <<'RT'
//! Times look-ups in index files, and puts.
#![tactic(auto)]
ghost use Rattle.std.specs.Prelude.{◌≡◌, ◌≤◌, length, false, IfSome};
ghost use Rattle.fd_disk.specs.declared.folders.FileKind.TheVariants.{Index};
ghost use Rattle.fd_disk.specs.Names.{name_of};

use fd_disk::{Disk, FileKind, Folder, Sealed, Shelf, Store};
use fd_disk_real::RealStore;
use fd_index::IndexBuilder;
use fd_pages::Paged;
use std::alloc::Global;
use std::fs;
use std::io;
use std::time::Instant;

/// So many keys stand in a page.
const IN_A_PAGE: u32 = 151;

const TRIES: u32 = 400;

/// A key of nine octets.
fn key_of(alloc: Global, i: u32) -> Option<Vec<u8>>
    ensures { IfSome result (λ v. length v.items ≤ 256) }
{
    match format!(in alloc; "i|{i:07}") {
        Ok(text) if text.len() <= 256 => Some(text.into_bytes()),
        _ => None,
    }
}

/// The bytes of an index of so many keys.
fn index_of(alloc: Global, keys: u32) -> Option<Vec<u8>> {
    let Ok(mut builder) = IndexBuilder::new(alloc, keys, 40_000_000) else {
        return None;
    };
    for i in 0..keys {
        let key = key_of(alloc, i)?;
        if builder.put(&key, i as u64, 1).is_err() {
            return None;
        }
    }
    builder.bytes(alloc).ok()
}

/// Opens the file and looks for a key.
fn look<F: Send + Drop, Z: Sealed<F>>(alloc: Global, sealed: &Z, i: u32) -> bool {
    let len = sealed.len();
    let Ok(reader) = sealed.reader(alloc) else {
        return false;
    };
    let Ok(mut paged) = Paged::start(alloc, reader, len) else {
        return false;
    };
    let Some(key) = key_of(alloc, i) else {
        return false;
    };
    matches!(paged.find(alloc, &key), Ok(Some(_)))
}

/// Writes an index file of a dataset.
fn write<F: Send + Drop, H: Shelf<F>>(
    alloc: Global,
    shelf: &mut H,
    bytes: &[u8],
) -> Option<H::Sealed>
where
    requires index { H.created shelf.old (name_of (H.writer shelf.old) 1 Index) ≡ false }
{
    let Ok(mut file) = shelf.create(alloc, 1, FileKind::Index) else {
        return None;
    };
    if file.write_at(0, bytes).is_err() {
        return None;
    }
    match file.sync() {
        Ok(()) => Some(file.seal()),
        Err(_) => None,
    }
}

/// The line in which the host says how many reads this process has made.
fn print_reads(rt: &HostRuntime, what: &str) -> io::Result<()> {
    let text = fs::read(rt, "/proc/self/io")?;
    for line in text.split(|byte| *byte == b'\n') {
        if line.starts_with(b"syscr: ") {
            match std::str::from_utf8(line) {
                Ok(line) => println!(rt; "{what} {line}")?,
                Err(_) => {}
            }
        }
    }
    Ok(())
}

/// Times look-ups over so many pages, and has the host count their reads.
fn time_look_ups(rt: &HostRuntime, dataset: &str, pages: u32) -> io::Result<()>
    requires { (1 ≤ pages) × (pages ≤ 16384) }
{
    let alloc = rt.alloc();
    let keys = pages * IN_A_PAGE;
    let Ok(mut store) = RealStore::new(alloc, *rt) else {
        return Ok(());
    };
    let Ok(mut folder) = store.folder(alloc, dataset) else {
        return Ok(());
    };
    let Ok(mut shelf) = folder.shelf(alloc, 1) else {
        return Ok(());
    };
    let Some(bytes) = index_of(alloc, keys) else {
        return Ok(());
    };
    let Some(sealed) = write(alloc, &mut shelf, &bytes) else {
        return Ok(());
    };
    print_reads(rt, "before")?;
    let start = Instant::now(rt)?;
    let mut found = 0u32;
    let mut i = 0u32;
    for _ in 0..TRIES {
        i = ((i as u64 + 7919) % keys as u64) as u32;
        if look(alloc, &sealed, i) && found < TRIES {
            found += 1;
        }
    }
    let spent = start.elapsed(rt)?;
    print_reads(rt, "after")?;
    println!(rt; "pages {pages} octets {} found {found} us {}", bytes.len(), spent.as_micros())
}

/// Times 50 puts into an index that holds so many keys, in no order.
fn time_puts(rt: &HostRuntime, held: u32) -> io::Result<()>
    requires { held ≤ 65000 }
{
    let alloc = rt.alloc();
    let Ok(mut builder) = IndexBuilder::new(alloc, 65_536, 1_048_576) else {
        return Ok(());
    };
    let mut i = 0u32;
    let mut start = Instant::now(rt)?;
    for n in 0..held + 50 {
        if n == held {
            start = Instant::now(rt)?;
        }
        i = ((i as u64 + 40_503) % 65_536) as u32;
        let Some(key) = key_of(alloc, i) else {
            return Ok(());
        };
        if builder.put(&key, n as u64, 1).is_err() {
            return Ok(());
        }
    }
    let spent = start.elapsed(rt)?;
    println!(rt; "put behind {held} keys: {} ns each", spent.as_nanos() / 50)
}

fn main(rt: HostRuntime) -> io::Result<()> {
    time_look_ups(&rt, "pages=64", 64)?;
    time_look_ups(&rt, "pages=1024", 1024)?;
    time_look_ups(&rt, "pages=16384", 16_384)?;
    time_puts(&rt, 100)?;
    time_puts(&rt, 1000)?;
    time_puts(&rt, 60_000)
}
RT
if (cd "$driver" && rt run > "$work/out" 2> "$work/log"); then
  echo "proved, and built with optimisation:"
else
  echo "not proved here, so this is what \`rt try\` runs, without optimisation:"
  (cd "$driver" && rt try > "$work/out" 2>> "$work/log") || { tail -n 20 "$work/log" >&2; exit 1; }
fi
awk -v tries=400 '
  $1 == "before" { before = $3 }
  $1 == "after" { reads = $3 - before - 1 }
  $1 == "pages" { printf "%d pages, %d octets: %d of %d keys found, %.2f reads and %.1f us each\n", $2, $4, $6, tries, reads / tries, $8 / tries }
  $1 == "put" { print }' "$work/out"
