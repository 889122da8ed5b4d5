#!/usr/bin/env bash
# Times `tap` on captures of 1 MiB, of frames of 20 bytes, by the proved program that `rt ci` leaves or by the one whose
# path is given: `measure/tap.sh [PROGRAM]`. Beside it run `cat` and a program that takes one CRC-32C of the capture, which
# is proved and built in a folder that is removed; all three read the same file and write to a file, and whole commands
# are timed, by turns. It prints the least times of a run, how many times as long `tap` took as the two others together, and
# its memory, for a capture of one pair of ends and for one in which each frame has another. It fails where an answer is
# wrong; times it only prints.
here=$(cd "$(dirname "${BASH_SOURCE[0]}")" && pwd) || exit 70
program=$(realpath -e -- "${1:-$here/../crates/cspsim/out/cspsim}") || exit 70
[ -x /usr/bin/time ] || { echo "tap: GNU time is not at /usr/bin/time" >&2; exit 70; }
command -v rt > /dev/null || { echo "tap: rt, the kit's command, is not on the path" >&2; exit 70; }
top=$(git -C "$here" rev-parse --show-toplevel) || exit 70
work=$(mktemp -d) || exit 70
trap 'rm -rf "$work"' EXIT
frames=52428 # of 20 bytes: 16 bytes short of 1 MiB
passes=20    # so often each is measured, by turns
times=5      # so many runs are one measurement
failed=0

# crc_program: makes and builds the program that takes one CRC of its input.
crc_program() {
  mkdir -p "$work/crates" || return 1
  tar c -C "$top" --exclude=out --exclude=must-fail crates/csp_base crates/csp_crc | tar x -C "$work" || return 1
  (
    cd "$work" && git init -q && rt new crates/crc_pass start_io > /dev/null || exit 1
    rm -f BUILD.bazel crates/crc_pass/BUILD.bazel crates/crc_pass/src/*
    : > crates/crc_pass/stdin
    grep -E '^(csp_base|csp_crc):' "$top/crates.txt" > crates.txt
    echo 'crc_pass: csp_base csp_crc' >> crates.txt
    cat > crates/crc_pass/src/main.rt << 'PROGRAM'
#![tactic(auto)]

use csp_base::{ReadSource, read_up_to};
use csp_crc::crc32c;
use std::io;

fn main(rt: HostRuntime) -> io::Result<()> {
    let mut source = ReadSource::new(rt.reader());
    match read_up_to(rt.alloc(), &mut source, 1_048_576) {
        Ok(bytes) => println!(rt; "{:08x}", crc32c(bytes.as_slice())),
        Err(_) => println!(rt; "not read"),
    }
}
PROGRAM
    cd crates/crc_pass && rt run > ../../said 2>&1
    [ -x out/crc_pass ] || { cat ../../said >&2; exit 1; }
  )
}

# capture TALKS: frames with the payload 123456789 and its CRC, from so many different sources and ports by turns.
capture() {
  printf "$(awk -v n="$frames" -v talks="$1" 'BEGIN {
    for (i = 0; i < n; i++) {
      t = i % talks
      printf "\\xc0\\x00\\x%02x\\x%02x\\x%02x\\x00123456789\\xe3\\x06\\x92\\x83\\xc0", 1 + t % 64, 1 + int(t / 64) % 64, 1 + int(t / 4096)
    }
  }')"
}

# cost COMMAND..: the seconds and the processor seconds of one run of the command on the capture, of a measurement.
cost() {
  local TIMEFORMAT='%R %U %S'
  { time for ((i = 0; i < times; i++)); do "$@" < "$work/in" > "$work/out" 2> /dev/null || exit 1; done; } 2>&1 |
    awk -v n="$times" '{ print $1 / n, ($2 + $3) / n }'
}

# least A B: the lesser of two pairs of numbers, one by one, of which the first may be missing.
least() {
  awk -v a="$1" -v b="$2" 'BEGIN { split(a, x); split(b, y); print (a == "" || y[1] < x[1]) ? y[1] : x[1], (a == "" || y[2] < x[2]) ? y[2] : x[2] }'
}

# measured WHAT TALKS: the three commands by turns on a capture of so many talks.
measured() {
  local cat crc tap memory
  capture "$2" > "$work/in"
  [ "$(wc -c < "$work/in")" -eq $((frames * 20)) ] || { echo "tap: another capture" >&2; failed=1; }
  for ((pass = 0; pass < passes; pass++)); do
    cat=$(least "$cat" "$(cost cat)")
    crc=$(least "$crc" "$(cost "$work/crates/crc_pass/out/crc_pass")")
    tap=$(least "$tap" "$(cost "$program" tap)")
  done
  memory=$(/usr/bin/time -f %M "$program" tap < "$work/in" 2>&1 > "$work/out") || failed=1
  [ "$(grep -c '^packet ' "$work/out")" -eq "$frames" ] && [ "$(grep -c '^talk ' "$work/out")" -eq "$2" ] &&
    [ "$(tail -n 1 "$work/out")" = "end $frames" ] || { echo "tap: another text" >&2; failed=1; }
  awk -v what="$1" -v a="$cat" -v b="$crc" -v c="$tap" -v m="$memory" 'BEGIN {
    split(a, x); split(b, y); split(c, z)
    printf "%s: cat %.2f ms, a CRC %.2f ms, tap %.2f ms: %.2f times as long; %.2f, %.2f and %.2f ms of processors: %.2f times; %.1f MiB\n", what,
      1000 * x[1], 1000 * y[1], 1000 * z[1], z[1] / (x[1] + y[1]), 1000 * x[2], 1000 * y[2], 1000 * z[2], z[2] / (x[2] + y[2]), m / 1024
  }'
}

crc_program || exit 1
measured 'one pair of ends' 1
measured 'another pair for each frame' $frames
exit $failed
