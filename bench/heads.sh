#!/bin/sh
# Shows how long it takes to frame and read a head of 300 bytes, in one piece and in pieces of 50 bytes, and fails where
# it takes 2 microseconds or more. It builds a small program in a folder of its own.
# Use: bench/heads.sh.
set -eu
. "$(dirname "$0")/common.sh"
make_folder
"$top/bench/crates.sh" "$folder" frame_heads web_frame
cat > "$folder/crates/frame_heads/src/main.rt" << 'PROGRAM'
//! Frames and reads a head many times, in pieces of two sizes, and prints the time of each in nanoseconds.
#![tactic(auto)]

use std::alloc::Global;
use std::io;
use std::time::Instant;
use web_frame::{Frame, Next};

const HEAD: &[u8] = b"GET /thredds/dodsC/gfs/gfs_best.ncd.dods?t%5B0:1:9%5D%5B0%5D%5B0%5D HTTP/1.1\r\nHost: data.example.org:8080\r\nUser-Agent: netcdf-c/4.9.2 oc/2.1 curl/8.5.0 OpenSSL/3.0.13\r\nAccept: */*\r\nAccept-Encoding: deflate, gzip\r\nX-Request-Id: 5f9c2c1e-7d5b-4b0e-9\r\nConnection: keep-alive\r\nCache-Control: no-cache\r\n\r\n";

const TURNS: u32 = 1_000_000;

// How many heads were read.
fn frames(alloc: Global, size: usize) -> Result<u32, fm_base::NoMemory> {
    if size == 0 {
        return Ok(0);
    }
    let mut frame = Frame::new(alloc)?;
    let mut count = 0u32;
    for _ in 0..TURNS {
        for piece in HEAD.chunks(size) {
            frame.feed(piece);
            if let Next::Head(_) = frame.next() {
                count = count.saturating_add(1);
            }
        }
    }
    Ok(count)
}

fn main(rt: HostRuntime) -> io::Result<()> {
    for size in [HEAD.len(), 50] {
        let start = Instant::now(&rt)?;
        let count = frames(rt.alloc(), size).unwrap_or(0);
        let took = start.elapsed(&rt)?.as_nanos() / u128::from(TURNS);
        println!(rt; "{} {} {} {}", HEAD.len(), size, count, took)?;
    }
    Ok(())
}
PROGRAM
run_crate frame_heads
"$program" | while read -r len size count took; do
    echo "$count heads of $len bytes in pieces of $size: $took ns each"
    if [ "$took" -ge 2000 ]; then
        echo "a head takes 2 microseconds or more" >&2
        exit 1
    fi
done
