#!/bin/bash
# Measures lexing and parsing together, outside the gate: MB a second on source of 1 MB and of 4 MB, the ratio of the times, each
# the least of 20 processes that parse once, as the compiler does, and the peak memory. It proves and builds a program of its own
# in a temporary folder, with the crates below it: half an hour or more. The source is one module that breaks no rule on lines
# and blocks.
# Usage: bench/parse.sh
set -u
. "$(dirname "${BASH_SOURCE[0]}")/program.sh" || exit 1

copy_crates vb_text vb_diag vb_syntax vb_lexer vb_ends vb_blocks vb_members vb_tree vb_parse_expr vb_parse_decl vb_parse_stmt vb_rows vb_parse
build parse_bench 'anyhow vb_text vb_syntax vb_lexer vb_parse' <<'RT'
//! Parses a file once, and prints the time in microseconds and how many options, imports and types the file has.
#![tactic(auto)]

ghost use Rattle.std.specs.Prelude.{IfOk};
ghost use Rattle.vb_syntax.specs.ContextualWords.{OptionsApart};

use anyhow::{Result, ensure};
use std::alloc::AllocError;
use std::env;
use std::fs;
use std::time::Instant;
use vb_lexer::lex;
use vb_parse::parse;
use vb_syntax::{ContextualWords, words_apart};
use vb_text::NameTable;

fn words_of(names: &mut NameTable) -> Result<ContextualWords, AllocError>
    ensures { IfOk result (λ words. OptionsApart words) }
{
    let words = ContextualWords::new(names)?;
    names.are_apart();
    words_apart();
    Ok(words)
}

fn main(rt: HostRuntime) -> Result<()> {
    let mut arguments = env::args(&rt)?.skip(1);
    let Some(path) = arguments.next() else {
        return Ok(());
    };
    let bytes = fs::read(&rt, &path)?;
    ensure!(bytes.len() <= 4_194_304, "the file is too long");
    let mut names = NameTable::new(rt.alloc())?;
    let words = words_of(&mut names)?;
    let start = Instant::now(&rt)?;
    let lines = match lex(rt.alloc(), 0, &bytes, &mut names) {
        Ok(lines) => lines,
        Err(error) => anyhow::bail!("{error:?}"),
    };
    let count = match parse(rt.alloc(), &words, 0, lines.as_slice()) {
        Ok(tree) => tree.options.len() + tree.imports.len() + tree.types.len(),
        Err(error) => anyhow::bail!("{error:?}"),
    };
    let micros = start.elapsed(&rt)?.as_micros();
    println!(rt; "{micros} {count}")?;
    Ok(())
}
RT

times=()
for megabytes in 1 4; do
    source_of module $((megabytes * 1048576)) source.vb || exit 1
    read -r micros parts < <(python3 -c '
import resource, subprocess, sys
runs = [subprocess.run(sys.argv[1:], check=True, capture_output=True, text=True).stdout.split() for _ in range(20)]
print(*min(runs, key=lambda run: int(run[0])))
print(resource.getrusage(resource.RUSAGE_CHILDREN).ru_maxrss, file=open("peak", "w"))
' "$program" source.vb)
    times+=("$micros")
    echo "$megabytes MB, $parts types: $micros us, $(python3 -c "print(round($megabytes * 1048576 / $micros, 1))") MB a second, peak $(python3 -c "print(round($(cat peak) / 1024 / $megabytes, 1))") times the source"
done
echo "4 MB take $(python3 -c "print(round(${times[1]} / ${times[0]}, 2))") times as long as 1 MB"
