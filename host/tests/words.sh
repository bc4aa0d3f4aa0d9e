#!/usr/bin/env bash
# words.sh PLACE: makes in the folder PLACE a small repository with the crates formats and streams of this one and a program `words`, which prints what
# the shell makes of a number among its arguments, and proves it: PLACE/crates/words/out/words. What was proved of the two crates rt takes over.
set -euo pipefail
top=$(CDPATH='' cd -- "$(dirname -- "${BASH_SOURCE[0]}")/../.." && pwd)
place=$1

mkdir -p "$place"/crates/{formats,streams,words/src}
for crate in formats streams; do
    for part in src specs proofs; do
        [ ! -d "$top/crates/$crate/$part" ] || cp -R "$top/crates/$crate/$part" "$place/crates/$crate/"
    done
done
printf '%s\n' 'formats:' 'streams: formats io' 'words: formats streams' >"$place/crates.txt"
cat >"$place/crates/words/src/main.rt" <<'END'
#![tactic(auto)]

use streams::{Output, arguments};

// In decimal, and in hex the high word and the low one.
fn show(output: &mut Output<64>, v: u64) {
    output.put_number(v, b' ');
    output.put_word((v / 4294967296) as u32, b' ');
    output.put_word((v % 4294967296) as u32, b'\n');
}

fn tell(rt: &HostRuntime, i: usize) {
    if let Some(v) = arguments::number(rt, i, 100000, b"words [--next] [NUMBER]") {
        let mut output = Output::new(rt);
        show(&mut output, v);
        output.flush();
    }
}

fn main(rt: HostRuntime) {
    let i: usize = if arguments::is(&rt, 1, b"--next") { 2 } else { 1 };
    if arguments::fit(&rt, i, 1, b"words [--next] [NUMBER]") {
        tell(&rt, i);
    }
}
END
printf '100000 00000000 000186A0\n' >"$place/crates/words/stdout"
cd -- "$place/crates/words"
rt run </dev/null | cmp - stdout
