#!/bin/bash
# Measures the lexer outside the gate: MB a second on source of 1 MB and of 4 MB, and the ratio of the times, each the least
# of several runs on one core. It proves and builds a program of its own in a temporary folder, which takes some minutes.
# Usage: bench/lex.sh
set -u
. "$(dirname "${BASH_SOURCE[0]}")/program.sh" || exit 1

copy_crates vb_text vb_diag vb_syntax vb_lexer
build lex_bench 'anyhow vb_text vb_lexer' <<'RT'
//! Lexes a file several times, and prints the least time in microseconds and how many logical lines the file has.
#![tactic(auto)]

use anyhow::{Result, ensure};
use std::env;
use std::fs;
use std::time::Instant;
use vb_lexer::lex;
use vb_text::NameTable;

fn main(rt: HostRuntime) -> Result<()> {
    let mut arguments = env::args(&rt)?.skip(1);
    let Some(path) = arguments.next() else {
        return Ok(());
    };
    let bytes = fs::read(&rt, &path)?;
    ensure!(bytes.len() <= 4_194_304, "the file is too long");
    let mut least = u128::MAX;
    let mut count = 0;
    for _ in 0..20 {
        let mut names = NameTable::new(rt.alloc())?;
        let start = Instant::now(&rt)?;
        let answer = lex(rt.alloc(), 0, &bytes, &mut names);
        let took = start.elapsed(&rt)?.as_micros();
        match answer {
            Ok(lines) => count = lines.len(),
            Err(error) => ensure!(false, "{error:?}"),
        }
        least = least.min(took);
    }
    println!(rt; "{least} {count}")?;
    Ok(())
}
RT

times=()
for megabytes in 1 4; do
    source_of lines $((megabytes * 1048576)) source.vb || exit 1
    read -r micros lines < <("$program" source.vb)
    times+=("$micros")
    echo "$megabytes MB, $lines logical lines: $micros us, $(python3 -c "print(round($megabytes * 1048576 / $micros, 1))") MB a second"
done
echo "4 MB take $(python3 -c "print(round(${times[1]} / ${times[0]}, 2))") times as long as 1 MB"
