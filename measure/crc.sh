#!/usr/bin/env bash
# Compares two CRC-32C: `measure/crc.sh EARLIER [LATER]`, where each is a commit, and LATER is the present state of the
# files unless it is given. In a folder that it removes, it proves and builds the same small program over each of the
# two, which takes the CRC of 1 MiB so many times, of other bytes each time; it runs them by turns and prints the least
# processor time of a CRC of 1 MiB by each, and by how much the later is faster. It fails where their answers differ.
here=$(cd "$(dirname "${BASH_SOURCE[0]}")" && pwd) || exit 70
[ $# -ge 1 ] || { echo "usage: measure/crc.sh EARLIER [LATER]" >&2; exit 64; }
[ -x /usr/bin/time ] || { echo "crc: GNU time is not at /usr/bin/time" >&2; exit 70; }
command -v rt > /dev/null || { echo "crc: rt, the kit's command, is not on the path" >&2; exit 70; }
top=$(git -C "$here" rev-parse --show-toplevel) || exit 70
work=$(mktemp -d) || exit 70
trap 'rm -rf "$work"' EXIT
times=200

# program NAME [COMMIT]: makes a repository NAME with the csp_crc of COMMIT, or the present one, and the program over
# it, and builds it.
program() {
  mkdir -p "$work/$1/crates" || return 1
  if [ $# -gt 1 ]; then
    git -C "$top" archive "$2" crates/csp_crc | tar x -C "$work/$1" || return 1
  else
    tar c -C "$top" --exclude=out crates/csp_crc | tar x -C "$work/$1" || return 1
  fi
  (
    cd "$work/$1" && git init -q && rt new crates/crc_times start_io > /dev/null || exit 1
    rm -f BUILD.bazel crates/crc_times/BUILD.bazel crates/crc_times/src/*
    : > crates/crc_times/stdin
    printf 'csp_crc: thiserror\ncrc_times: csp_crc\n' > crates.txt
    cat > crates/crc_times/src/main.rt << PROGRAM
#![tactic(auto)]

use csp_crc::crc32c;
use std::io;

fn main(rt: HostRuntime) -> io::Result<()> {
    let mut bytes = vec![in rt.alloc(); 0x5au8; 1_048_576]?;
    let mut crc = 0;
    for _ in 0..$times {
        crc = crc32c(bytes.as_slice());
        if let Some(first) = bytes.first_mut() {
            *first = crc.to_be_bytes()[0];
        }
    }
    println!(rt; "{crc:08x}")?;
    Ok(())
}
PROGRAM
    cd crates/crc_times && rt run > ../../said 2>&1
    [ -x out/crc_times ] || { cat ../../said >&2; exit 1; }
  )
}

# least NAME: the least processor seconds of one run so far, of those of this call and of those before.
least() {
  local user system
  /usr/bin/time -q -f '%U %S' -o "$work/cost" "$work/$1/crates/crc_times/out/crc_times" > "$work/$1/answer" || return 1
  read -r user system < "$work/cost"
  awk -v a="$user" -v b="$system" -v best="${best[$1]}" 'BEGIN { t = a + b; if (best == "" || t < best) best = t; print best }'
}

program earlier "$1" || exit 1
program later ${2:+"$2"} || exit 1
declare -A best
for _ in {1..7}; do
  for name in earlier later; do
    best[$name]=$(least "$name") || exit 1
  done
done
cmp "$work/earlier/answer" "$work/later/answer" || exit 1
awk -v a="${best[earlier]}" -v b="${best[later]}" -v n="$times" \
  'BEGIN { printf "CRC-32C of 1 MiB: %.3f ms, was %.3f ms: %.1f times faster\n", b / n * 1000, a / n * 1000, a / b }'
