#!/usr/bin/env bash
# Runs csptrace from its edge: it compares what is written with each stored output of scenarios/, which is named by its
# scenario and the words that ask for it, as mission.kiss.radio.ground; then, for each exit status, the status, what is written
# on standard output and what is said on standard error. Prints what differs. The program is the proved one that `rt ci`
# leaves, or the one whose path is given.
here=$(cd "$(dirname "${BASH_SOURCE[0]}")/.." && pwd) || exit 70
program=$(realpath -e -- "${1:-$here/crates/csptrace/out/csptrace}") || exit 70
work=$(mktemp -d) || exit 70
trap 'rm -rf "$work"' EXIT
failed=0
runs=0
: > "$work/nothing"

# compare NAME STATUS OUTPUT LINE: the run NAME, whose output and error are in $work, ended with the status $got. It must have
# ended with STATUS, and have written the file OUTPUT and said LINE, or nothing where LINE is empty.
compare() {
  runs=$((runs + 1))
  if [ "$got" -ne "$2" ]; then
    failed=1
    echo "traces: $1: the status is $got, and $2 is wanted"
  fi
  if ! cmp -s "$3" "$work/out"; then
    failed=1
    echo "traces: $1: standard output differs (< is wanted):"
    diff -a "$3" "$work/out" | head -n 10
  fi
  if [ "$(cat "$work/said")" != "$4" ]; then
    failed=1
    echo "traces: $1: standard error is '$(cat "$work/said")', and '$4' is wanted"
  fi
}

# refused NAME STATUS LINE WORD..: the program is given the words and $work/in. It must end with STATUS, write nothing, and
# say LINE.
refused() {
  local name=$1 status=$2 line=$3
  shift 3
  "$program" "$@" < "$work/in" > "$work/out" 2> "$work/said"
  got=$?
  compare "$name" "$status" "$work/nothing" "$line"
}

# 0: each stored output.
for stored in "$here"/scenarios/*.*; do
  name=${stored##*/}
  case $name in *.scn | *.report | *.md) continue ;; esac
  IFS=. read -ra words <<< "${name#*.}"
  "$program" "${words[@]}" < "$here/scenarios/${name%%.*}.scn" > "$work/out" 2> "$work/said"
  got=$?
  compare "$name" 0 "$stored" ''
done

# The picture of docs/: `svg 58 118` of the mission.
"$program" svg 58 118 < "$here/scenarios/mission.scn" > "$work/out" 2> "$work/said"
got=$?
compare "the mission's picture" 0 "$here/docs/mission.svg" ''

# 1: memory for a run up to the limit of entries is wanting.
cp "$here/measure/limit.scn" "$work/in"
(ulimit -v 24576 && "$program" unused < "$work/in" > "$work/out" 2> "$work/said")
got=$?
compare 'a run in 24 MiB' 1 "$work/nothing" 'csptrace: no memory'

# 2: words that ask for nothing, one of them not UTF-8; and names that the scenario lacks, or of the other kind of link.
cp "$here/scenarios/mission.scn" "$work/in"
refused 'no words' 2 'csptrace: bad words'
refused 'sim' 2 'csptrace: bad words' sim
refused 'unused and a word' 2 'csptrace: bad words' unused radio
refused 'kiss alone' 2 'csptrace: bad words' kiss
refused 'kiss without an end' 2 'csptrace: bad words' kiss radio
refused 'kiss and a word too many' 2 'csptrace: bad words' kiss radio ground relay
refused 'a word that is not UTF-8' 2 'csptrace: bad words' $'\xff'
refused 'kiss of a link that is not there' 2 'csptrace: bad words' kiss laser ground
refused 'kiss of a node where the link does not end' 2 'csptrace: bad words' kiss radio payload
refused 'kiss of a node that is not there' 2 'csptrace: bad words' kiss radio moon
refused 'kiss of a CAN bus' 2 'csptrace: bad words' kiss bus relay
refused 'candump of a KISS link' 2 'csptrace: bad words' candump radio ground
refused 'kiss of empty names' 2 'csptrace: bad words' kiss '' ''

# 3 and 4: a standard input that can't be read, and a standard output that takes nothing.
"$program" unused < "$work" > "$work/out" 2> "$work/said"
got=$?
compare 'a folder as standard input' 3 "$work/nothing" 'csptrace: read fault'
if [ -e /dev/full ]; then
  "$program" unused < "$work/in" > /dev/full 2> "$work/said"
  got=$?
  cp "$work/nothing" "$work/out"
  compare 'a full standard output' 4 "$work/nothing" 'csptrace: write fault'
fi

# 5: a refused scenario, whatever its names are.
printf 'until 10\nnode a 1\n' > "$work/in"
refused 'a refused scenario' 5 'csptrace: line 2: Count' kiss laser ground

# 6: a text that is too long, and a run that reaches the limit of entries.
head -c 1048577 /dev/zero > "$work/in"
refused 'a byte too many' 6 'csptrace: limit Bytes 1048576' unused

[ "$runs" -gt 20 ] || failed=1
[ "$failed" -ne 0 ] || echo "traces: $runs runs ended, wrote and said what they should"
exit "$failed"
