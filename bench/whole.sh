#!/bin/sh
# Shows how fast all elements of a variable are copied, beside a plain copy of as many bytes in memory: of a variable
# without records, of one with records of 1 MiB, of one with records of 1 KiB, and of one with 2^24 records of one byte
# and 1,000 dimensions. Then it counts what the allocator is
# asked for by the header and the layout of a large file, which may be little.
# Use: bench/whole.sh [MEBIBYTES].
set -eu
size=${1:-256}
limit=65536
. "$(dirname "$0")/common.sh"
make_folder
"$top/bench/crates.sh" "$folder" copy_elements nc_header nc_array
cat > "$folder/crates/copy_elements/src/main.rt" << 'PROGRAM'
//! `PROGRAM copy FILE` copies the elements of the last variable of a file, and as many bytes from the file's front, and
//! says how many microseconds each took. `PROGRAM check FILE` lays the file out, `PROGRAM read FILE` only reads it.
#![tactic(auto)]
ghost use Rattle.std.specs.Prelude.{◌<◌, length};

use fm_base::Bytes;
use nc_array::FileView;
use nc_header::read_header;
use nc_layout::lay_out;
use std::alloc::Global;
use std::rt::Clock;
use std::time::Instant;
use std::{env, fs, io};

fn elements<R: Print + Clock>(
    rt: &R,
    alloc: Global,
    file: &FileView<'_>,
    number: u32,
) -> io::Result<usize>
    requires { number < length file.now.layout.header.vars }
{
    let start = Instant::now(rt)?;
    let mut out = Bytes::new(alloc);
    let done = file.append_elements(number, &mut out);
    let took = start.elapsed(rt)?;
    if done.is_err() {
        println!(rt; "no memory")?;
    }
    println!(rt; "elements {} {}", out.len(), took.as_micros())?;
    Ok(out.len())
}

fn plain<R: Print + Clock>(rt: &R, alloc: Global, bytes: &[u8], len: usize) -> io::Result<()> {
    if bytes.len() < len {
        return Ok(());
    }
    let (front, _) = bytes.split_at(len);
    let start = Instant::now(rt)?;
    let copied = Bytes::copy_of(alloc, front);
    let took = start.elapsed(rt)?;
    if copied.is_err() {
        println!(rt; "no memory")?;
    }
    println!(rt; "plain {len} {}", took.as_micros())
}

#[tactic(auto, using(nc_layout::proofs::ReadLemmas::headers_read))]
fn laid<R: Print + Clock>(rt: &R, alloc: Global, bytes: &[u8], turns: u32) -> io::Result<()> {
    let Ok(header) = read_header(alloc, bytes) else {
        return println!(rt; "no header");
    };
    let Ok(layout) = lay_out(alloc, header, bytes.len() as u64) else {
        return println!(rt; "no layout");
    };
    let file = FileView::new(layout, bytes);
    let vars = &file.header().vars;
    if vars.is_empty() {
        return println!(rt; "no variable");
    }
    let last = (vars.len() - 1) as u32;
    for _turn in 0..turns {
        let len = elements(rt, alloc, &file, last)?;
        plain(rt, alloc, bytes, len)?;
    }
    Ok(())
}

fn main(rt: HostRuntime) -> io::Result<()> {
    let mut laid_out = true;
    let mut turns = 5;
    for word in env::args(&rt)?.skip(1) {
        match word.as_str() {
            "copy" => {}
            "check" => turns = 0,
            "read" => laid_out = false,
            path => {
                let bytes = fs::read(&rt, path)?;
                if laid_out {
                    laid(&rt, rt.alloc(), bytes.as_slice(), turns)?;
                }
            }
        }
    }
    Ok(())
}
PROGRAM
run_crate copy_elements -- check

# word NUMBER: four bytes as hexadecimal digits.
word() {
    printf '%08x' "$1"
}

# records FILE RECORDS ELEMENTS: two variables of 32-bit numbers over records, of one element and of ELEMENTS.
records() {
    {
        printf '43444601 %s 0000000a 00000002' "$(word "$2")"
        printf '00000004 74696d65 00000000 00000001 78000000 %s' "$(word "$3")"
        printf '00000000 00000000 0000000b 00000002'
        printf '00000001 61000000 00000001 00000000 00000000 00000000 00000005 00000004 %s' "$(word 132)"
        printf '00000001 62000000 00000002 00000000 00000001 00000000 00000000 00000005 00000000 %s' "$(word 136)"
    } | tr -d ' ' | xxd -r -p > "$1"
    head -c $(($2 * (4 + 4 * $3))) /dev/zero >> "$1"
}

# fixed FILE ELEMENTS: one variable of ELEMENTS 32-bit numbers, without records.
fixed() {
    {
        printf '43444601 00000000 0000000a 00000001 00000001 78000000 %s' "$(word "$2")"
        printf '00000000 00000000 0000000b 00000001'
        printf '00000001 61000000 00000001 00000000 00000000 00000000 00000005 00000000 %s' "$(word 80)"
    } | tr -d ' ' | xxd -r -p > "$1"
    head -c $((4 * $2)) /dev/zero >> "$1"
}

# ranked FILE RECORDS RANK: one variable of one byte in each record, with this rank; all its other dimensions have the
# length 1.
ranked() {
    {
        printf '43444601 %s 0000000a 00000002' "$(word "$2")"
        printf '00000004 74696d65 00000000 00000001 78000000 00000001'
        printf '00000000 00000000 0000000b 00000001 00000001 61000000 %s 00000000' "$(word "$3")"
        for _ in $(seq 2 "$3"); do printf '00000001'; done
        printf '00000000 00000000 00000001 00000004 %s' "$(word $((88 + 4 * $3)))"
    } | tr -d ' ' | xxd -r -p > "$1"
    head -c "$2" /dev/zero >> "$1"
}

# copied WHAT FILE: the least time of each kind of copy, and their ratio.
copied() {
    "$program" copy "$2" | awk -v what="$1" '
        !($1 in least) || $3 < least[$1] { least[$1] = $3; bytes = $2 }
        END {
            printf "%s: %d bytes, elements %d us, plain copy %d us, %.2f of its speed\n",
                what, bytes, least["elements"], least["plain"], least["plain"] / least["elements"]
        }'
}

fixed "$folder/case.nc" $((size * 262144))
copied 'no records' "$folder/case.nc"
records "$folder/case.nc" "$size" 262144
copied 'records of 1 MiB' "$folder/case.nc"
records "$folder/case.nc" $((size * 1024)) 256
copied 'records of 1 KiB' "$folder/case.nc"
ranked "$folder/ranked.nc" 16777216 1000
copied 'records of 1 byte, rank 1,000' "$folder/ranked.nc"

# A library that stands before the C library, and shows at the end how many bytes were asked for.
cat > "$folder/count.c" <<'C'
#include <stdio.h>
#include <stdlib.h>

static size_t total;

extern void *__libc_malloc(size_t size);
extern void *__libc_calloc(size_t count, size_t size);
extern void *__libc_realloc(void *old, size_t size);
extern void *__libc_memalign(size_t align, size_t size);

void *malloc(size_t size) {
    total += size;
    return __libc_malloc(size);
}

void *calloc(size_t count, size_t size) {
    total += count * size;
    return __libc_calloc(count, size);
}

void *realloc(void *old, size_t size) {
    total += size;
    return __libc_realloc(old, size);
}

void *aligned_alloc(size_t align, size_t size) {
    total += size;
    return __libc_memalign(align, size);
}

__attribute__((destructor)) static void tell(void) {
    fprintf(stderr, "asked %zu\n", total);
}
C
cc -shared -fPIC -O2 -o "$folder/count.so" "$folder/count.c"

# asked MODE FILE: the bytes that were asked for in all.
asked() {
    LD_PRELOAD="$folder/count.so" "$program" "$1" "$2" 2>&1 > /dev/null | sed -n 's/^asked //p'
}

more=$(($(asked check "$folder/case.nc") - $(asked read "$folder/case.nc")))
echo "a file of $(wc -c < "$folder/case.nc") bytes: $more bytes asked for its header and its layout"
if [ "$more" -gt "$limit" ]; then
    exit 1
fi
