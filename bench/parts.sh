#!/bin/sh
# Times the lower crates through their public calls: evaluated expressions, and texts of 1 MiB that are loaded.
# It builds a small program over copies of the crates, in a folder of its own, and shows the best of five runs.
set -eu
root=$(dirname "$(readlink -f "$0")")/..
room=$(mktemp -d)
trap 'rm -rf "$room"' EXIT
mkdir -p "$room/crates/parts/src"
for crate in answers text expr; do cp -a "$root/crates/ptb_$crate" "$room/crates/"; done
rm -rf "$room"/crates/ptb_*/must-fail "$room"/crates/ptb_*/more-bugs
cp "$root/HANDLES" "$room/"
{
    grep -E '^ptb_(answers|text|expr):' "$root/crates.txt"
    echo 'parts: ptb_expr ptb_text'
} >"$room/crates.txt"
git init -q "$room"

cat >"$room/crates/parts/src/main.rt" <<'END'
// This file evaluates expressions and loads a text, again and again, and prints the time of each.
#![tactic(auto)]

use ptb_expr::{Listed, Stop, Store, evaluate};
use ptb_text::{Cursor, Device, Letter, load};
use std::io;
use std::time::Instant;

const TURNS: u32 = 10_000_000;

const LINES: u32 = 16_384;

const MIXED_LINES: u32 = 37_000;

const DOTS: &[u8] = b"................................................";

// The values of an expression, added up over all turns.
fn sum(text: &[u8], store: &Store) -> Result<i64, Stop> {
    if text.len() > 255 {
        return Ok(0);
    }
    let mut sum: i64 = 0;
    for _ in 0..TURNS {
        let mut cursor = Cursor::new(text, 0);
        let value = evaluate(&mut cursor, store, &mut Listed::new(&[]))?;
        sum = sum.wrapping_add(i64::from(value));
    }
    Ok(sum)
}

// Loads a text, and prints the time that it takes.
fn time_loading(rt: &HostRuntime, name: &str, text: &[u8]) -> io::Result<()> {
    let start = Instant::now(rt)?;
    let mut reader = Device::new(text);
    let program = load(rt.alloc(), 32_767, &mut reader);
    let spent = start.elapsed(rt)?.as_millis();
    let count = program.as_ref().map(|p| p.len()).unwrap_or(0);
    let bytes = text.len();
    println!(rt; "{bytes} bytes of {name}: loaded in {spent} ms, {count} statements are left")
}

fn main(rt: HostRuntime) -> io::Result<()> {
    let mut store = Store::new(rt.alloc(), 4000)?;
    for (name, value) in [(b'I', 3), (b'J', 50)] {
        if let Some(letter) = Letter::new(name) {
            store.set(letter, value);
        }
    }
    for text in ["1", "J/7*7+I", "(I+1)*(J-1)", "I*2<=J+1", "@(I+1)", "ABS(I-J)"] {
        let start = Instant::now(&rt)?;
        let sum = sum(text.as_bytes(), &store).unwrap_or(0);
        let spent = start.elapsed(&rt)?.as_millis();
        println!(rt; "{text}: {spent} ms for 10000000 evaluations, sum {sum}")?;
    }

    // 64 bytes a line; each number comes again and again, so that the program has room
    let mut text = Vec::new(rt.alloc());
    for at in 0..LINES {
        let number = 10_000 + at % 256;
        let line = format!(in rt.alloc(); "{number} REM {:053}\n", at)?;
        text.extend_from_slice(line.as_bytes())?;
    }
    time_loading(&rt, "comments", &text)?;

    // lines of 6 to 59 bytes in no order, each of another length than the last of its number, and
    // each fourth deletes
    let mut text = Vec::new(rt.alloc());
    for at in 0..MIXED_LINES {
        let number = 10_000 + at.wrapping_mul(77) % 397;
        let number = format!(in rt.alloc(); "{number}")?;
        text.extend_from_slice(number.as_bytes())?;
        if at % 4 != 3 {
            text.extend_from_slice(b" REM ")?;
            text.extend_from_slice(&DOTS[..(at % 48) as usize])?;
        }
        text.push(b'\n')?;
    }
    time_loading(&rt, "lines replaced and deleted", &text)
}
END
cd "$room/crates/parts"
if ! rt run >"$room/log" 2>&1; then
    cat "$room/log" >&2
    exit 1
fi
for _ in 1 2 3 4 5; do ./out/parts; done | awk '
{
    name = $0
    sub(/: .*/, "", name)
    match($0, /[0-9]+ ms/)
    spent = substr($0, RSTART, RLENGTH - 3) + 0
    if (!(name in best)) names[++count] = name
    if (!(name in best) || spent < best[name]) {
        best[name] = spent
        line[name] = $0
    }
}
END { for (at = 1; at <= count; at++) print line[names[at]] }'
