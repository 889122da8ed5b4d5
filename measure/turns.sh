#!/usr/bin/env bash
# Compares two programs: `measure/turns.sh EARLIER [PROGRAM]`, where PROGRAM is ./cspsim unless it is given. Both run,
# by turns and many times, a scenario of four applications that wait for packets, just under the limit of entries, and
# one of four applications whose turns carry packets of the greatest payload. It prints the least time of each, the
# memory that it takes, and by how much PROGRAM needs less than EARLIER. Of the packets' turns that is the time without
# that of a run which stops after one round: what reading the scenario takes. It fails where an answer is wrong, or
# where the two programs print different reports; times and memory it only prints.
here=$(cd "$(dirname "${BASH_SOURCE[0]}")" && pwd) || exit 70
[ $# -ge 1 ] || { echo "usage: measure/turns.sh EARLIER [PROGRAM]" >&2; exit 64; }
earlier=$(realpath -e -- "$1") || exit 70
program=$(realpath -e -- "${2:-$here/../cspsim}") || exit 70
[ -x /usr/bin/time ] || { echo "turns: GNU time is not at /usr/bin/time" >&2; exit 70; }
work=$(mktemp -d) || exit 70
trap 'rm -rf "$work"' EXIT
failed=0

# packets FILE: a scenario in which four applications send 450 packets each of 256 bytes, no two the same, to a port of
# their own node that nobody listens at, so that the router discards each of them.
packets() {
  awk 'BEGIN {
    print "until 100000\nnode n1 1 buffers 64 inbox 64"
    for (app = 0; app < 4; app++) {
      print "app n1 " substr("abcd", app + 1, 1)
      for (i = 0; i < 450; i++) {
        bytes = ""
        for (k = 0; k < 128; k++) bytes = bytes sprintf("%04x", app * 450 + i)
        print "raw 8212b000 " bytes
      }
    }
  }' > "$1"
}

# once PROGRAM SCENARIO REPORT: the microseconds of one run.
once() {
  local start=${EPOCHREALTIME/./}
  "$1" sim < "$2" > "$3" 2> /dev/null || return 1
  echo $((${EPOCHREALTIME/./} - start))
}

# least A B: the lesser of two numbers, of which the first may be missing.
least() { [ -z "$1" ] || [ "$2" -lt "$1" ] && echo "$2" || echo "$1"; }

# measure SCENARIO RUNS: the least microseconds of so many runs of both programs, by turns, in `before` and `after`, and
# those of as many runs of it that stop after one round, in `before_first` and `after_first`.
measure() {
  local took
  before= after= before_first= after_first=
  sed 's/^until .*/until 1/' "$1" > "$work/first.scn"
  for _ in $(seq "$2"); do
    took=$(once "$earlier" "$work/first.scn" "$work/before") || return 1
    before_first=$(least "$before_first" "$took")
    took=$(once "$program" "$work/first.scn" "$work/after") || return 1
    after_first=$(least "$after_first" "$took")
    took=$(once "$earlier" "$1" "$work/before") || return 1
    before=$(least "$before" "$took")
    took=$(once "$program" "$1" "$work/after") || return 1
    after=$(least "$after" "$took")
  done
}

# memory PROGRAM SCENARIO: the KiB that a run takes at most.
memory() { /usr/bin/time -q -f %M -o "$work/cost" "$1" sim < "$2" > /dev/null 2>&1 && cat "$work/cost"; }

# tell WHAT SCENARIO: the two ratios of what was measured, and whether the reports are the same.
tell() {
  cmp -s "$work/before" "$work/after" || { echo "$1: the reports differ" >&2; failed=1; }
  awk -v what="$1" -v b="$before" -v a="$after" -v bm="$(memory "$earlier" "$2")" -v am="$(memory "$program" "$2")" 'BEGIN {
    printf "%s: %.2f ms and %s KiB, was %.2f ms and %s KiB: %.1f times less time, %.1f times less memory\n", what, a / 1000, am, b / 1000, bm, b / a, bm / am
  }'
}

if measure "$here/under_the_limit.scn" 5; then tell 'waiting, up to the limit' "$here/under_the_limit.scn"; else failed=1; fi

packets "$work/packets.scn"
if measure "$work/packets.scn" 40; then
  before=$((before - before_first)) after=$((after - after_first))
  tell 'turns that carry packets' "$work/packets.scn"
else failed=1; fi
exit "$failed"
