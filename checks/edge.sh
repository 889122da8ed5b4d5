#!/usr/bin/env bash
# Runs the program from its edge: for each exit status it compares the status, what is written on standard output and
# what is said on standard error, and it compares each scenario of scenarios/ with its report. Prints what differs.
# The program is the proved one that `rt ci` leaves, or the one whose path is given. Then it runs the script ./cspsim in a
# copy of the clone without out/, which takes one quick build: what it keeps, when it builds anew, and how long calls take.
here=$(cd "$(dirname "${BASH_SOURCE[0]}")/.." && pwd) || exit 70
program=$(realpath -e -- "${1:-$here/crates/cspsim/out/cspsim}") || exit 70
work=$(mktemp -d) || exit 70
trap 'rm -rf "$work"' EXIT
failed=0
runs=0

# compare NAME STATUS: the run NAME, whose output and error are in $work, ended with the status $got. It must have
# ended with STATUS, and have written $work/wanted_out and said $work/wanted_said.
compare() {
  runs=$((runs + 1))
  if [ "$got" -ne "$2" ]; then
    failed=1
    echo "edge: $1: the status is $got, and $2 is wanted"
  fi
  if ! diff "$work/wanted_out" "$work/out" > "$work/diff"; then
    failed=1
    echo "edge: $1: standard output differs (< is wanted):"
    head -n 10 "$work/diff"
  fi
  if ! diff "$work/wanted_said" "$work/said" > "$work/diff"; then
    failed=1
    echo "edge: $1: standard error differs (< is wanted):"
    head -n 10 "$work/diff"
  fi
}

# refused NAME STATUS LINE WORD..: the program is given the words and $work/in. It must end with STATUS, write
# nothing, and say LINE.
refused() {
  local name=$1 status=$2 line=$3
  shift 3
  "$program" "$@" < "$work/in" > "$work/out" 2> "$work/said"
  got=$?
  : > "$work/wanted_out"
  printf '%s\n' "$line" > "$work/wanted_said"
  compare "$name" "$status"
}

# fed NAME STATUS LINE: the same for the word `sim`.
fed() {
  refused "$1" "$2" "$3" sim
}

# times COUNT TEXT: so many copies of a line.
times() {
  yes "$2" | head -n "$1"
}

: > "$work/nothing"

# 0: each scenario that ships with the project has its report.
for scenario in "$here"/scenarios/*.scn; do
  "$program" sim < "$scenario" > "$work/out" 2> "$work/said"
  got=$?
  cp "${scenario%.scn}.report" "$work/wanted_out"
  cp "$work/nothing" "$work/wanted_said"
  compare "$(basename "$scenario")" 0
done

# 0: the change that the README makes to the mission: nobody waits at the port, so the connection is not made.
sed 's/^bind 10 rdp/bind 11 rdp/' "$here/scenarios/mission.scn" > "$work/in"
printf '%s\n' 'end unfinished 20000' \
  'node ground 1 buffers 32 free 32 inbox 0 lane 0 router 0 iface 0 app 0' \
  'node relay 2 buffers 32 free 32 inbox 0 lane 0 router 0 iface 0 app 0' \
  'node payload 3 buffers 32 free 32 inbox 0 lane 0 router 0 iface 0 app 0' \
  'router ground noroute 0 backout 0 refused 0 crc 0 nosocket 0 noslot 0 required 0 malformed 0 mixed 0 noconn 200 stray 0 full 0' \
  'router payload noroute 0 backout 0 refused 0 crc 0 nosocket 9 noslot 0 required 0 malformed 0 mixed 0 noconn 0 stray 0 full 0' \
  'app ground ops ended' 'refused ground ops 7 timeout' 'app payload cam step 2' > "$work/wanted_out"
cp "$work/nothing" "$work/wanted_said"
"$program" sim < "$work/in" > "$work/report" 2> "$work/said"
got=$?
grep -xFf "$work/wanted_out" "$work/report" > "$work/out"
compare 'the mission with another port' 0

# 0: generated scenarios: the summary of 20 packets, whose frame 32 is lost; standard input is not looked at.
printf '%s\n' 'csp-gen 20' 'end finished 166' \
  'node ground 1 buffers 32 free 30 inbox 0 lane 0 router 2 iface 0 app 0' \
  'node relay 2 buffers 32 free 32 inbox 0 lane 0 router 0 iface 0 app 0' \
  'node payload 3 buffers 32 free 32 inbox 0 lane 0 router 0 iface 0 app 0' \
  'took 20' 'stale 0' 'passed 0' > "$work/wanted_out"
cp "$work/nothing" "$work/wanted_said"
"$program" gen 20 <&- > "$work/out" 2> "$work/said"
got=$?
compare 'gen 20' 0
"$program" gen 500 < "$work/nothing" > "$work/wanted_out" 2> "$work/said"
"$program" gen 500 < "$work/nothing" > "$work/out" 2> "$work/said"
got=$?
grep -qx 'took 500' "$work/out" || echo 'took 500 is wanted' > "$work/said"
compare 'gen 500, a second time' 0
# Its 25 faults show in the rounds: one for each 20 packets, from frame 10 on, 10 to 29 frames apart.
printf '%s\n' 'csp-gen 500' 'end finished 3965' \
  'node ground 1 buffers 32 free 31 inbox 0 lane 0 router 1 iface 0 app 0' \
  'node relay 2 buffers 32 free 32 inbox 0 lane 0 router 0 iface 0 app 0' \
  'node payload 3 buffers 32 free 32 inbox 0 lane 0 router 0 iface 0 app 0' \
  'took 500' 'stale 0' 'passed 0' > "$work/wanted_out"
cp "$work/nothing" "$work/wanted_said"
compare 'gen 500' 0

# 0: runs in threads. A scenario of one application has one report, by however many workers; the mission ends with each
# buffer in one place, all taken, and both counts 0, in whatever order the threads took their turns.
cp "$here/scenarios/one_node.report" "$work/wanted_out"
cp "$work/nothing" "$work/wanted_said"
for workers in --workers=1 --workers=8; do
  "$program" run "$workers" < "$here/scenarios/one_node.scn" > "$work/out" 2> "$work/said"
  got=$?
  compare "one_node, run $workers" 0
done
{ printf 'node %s adds up\n' ground relay payload; printf '%s\n' 'took 200' 'stale 0' 'passed 0'; } > "$work/wanted_out"
for workers in 1 3 4; do
  "$program" run --workers "$workers" < "$here/scenarios/mission.scn" > "$work/report" 2> "$work/said"
  got=$?
  awk '$1 == "node" { print "node", $2, $5 == $7 + $9 + $11 + $13 + $15 + $17 ? "adds up" : "does not" }
    $1 == "took" && $2 == "payload" { took++ }
    $1 == "stale" { print "took", took; print }
    $1 == "passed"' "$work/report" > "$work/out"
  compare "the mission, run --workers $workers" 0
done
sed 's/^until .*/until 3/' "$here/scenarios/mission.scn" | "$program" run > "$work/report" 2> "$work/said"
got=$?
sed -n 2p "$work/report" > "$work/out"
echo 'end unfinished 3' > "$work/wanted_out"
compare 'the mission until round 3, run' 0

# 0: captured streams: a frame as its page has it, read by its rules and by those of a covered header; and an empty one.
printf '\xc0\x00\x82\x22\xb0\x00\xdb\xdc\xdb\xdd\xdb\xdc\x7d\x49\xd4\x79\xc0' > "$work/capture"
cp "$work/nothing" "$work/wanted_said"
printf '%s\n' 'csp-tap 1' 'packet 1 8222b000 pri 2 src 1 dst 2 dport 10 sport 48 flags 00 len 3 c0dbc0' \
  'talk 1 2 10 48 packets 1 bytes 3' 'end 1' > "$work/wanted_out"
"$program" tap < "$work/capture" > "$work/out" 2> "$work/said"
got=$?
compare 'a captured frame' 0
printf '%s\n' 'csp-tap 1' 'badcrc 1 7d49d479 272bfd9c' 'end 1' > "$work/wanted_out"
"$program" tap --header < "$work/capture" > "$work/out" 2> "$work/said"
got=$?
compare 'a captured frame, by a covered header' 0
# The greatest address and port of both ends, whose talk is one for all priorities; 2,042 bytes of payload, and one more.
{
  printf '\xc0\x00\xff\xff\xff\x00\x00\x00\x00\x00\xc0\x00\x3f\xff\xff\x00\x00\x00\x00\x00\xc0\x00'
  head -c 2050 /dev/zero
  printf '\xc0\x00'
  head -c 2051 /dev/zero
  printf '\xc0'
} > "$work/capture"
printf '%s\n' 'csp-tap 1' 'packet 1 ffffff00 pri 3 src 31 dst 31 dport 63 sport 63 flags 00 len 0 -' \
  'packet 2 3fffff00 pri 0 src 31 dst 31 dport 63 sport 63 flags 00 len 0 -' 'badcrc 3 00000000 86dde189' 'toolong 4' \
  'talk 31 31 63 63 packets 2 bytes 0' 'end 4' > "$work/wanted_out"
"$program" tap < "$work/capture" > "$work/out" 2> "$work/said"
got=$?
compare 'a capture at the ends of its ranges' 0
printf 'csp-tap 1\nend 0\n' > "$work/wanted_out"
"$program" tap < "$work/nothing" > "$work/out" 2> "$work/said"
got=$?
compare 'an empty capture' 0

# 0 and 5: the longest texts, of a line feed for each byte.
printf 'csp-report 2\nend finished 0\nstale 0\npassed 0\n' > "$work/wanted_out"
cp "$work/nothing" "$work/wanted_said"
{ echo 'until 10'; times 1048567 ''; } | "$program" sim > "$work/out" 2> "$work/said"
got=$?
compare 'a scenario of 1,048,568 lines' 0
times 1048576 '' > "$work/in"
fed 'a text of 1,048,576 line feeds' 5 'cspsim: line 1048577: Missing'

# 1: memory for a run up to the limit of entries is wanting.
cp "$here/measure/limit.scn" "$work/in"
(ulimit -v 24576 && "$program" sim < "$work/in" > "$work/out" 2> "$work/said")
got=$?
cp "$work/nothing" "$work/wanted_out"
echo 'cspsim: no memory' > "$work/wanted_said"
compare 'a run in 24 MiB' 1

# 2: words that are no command, one of them not UTF-8.
cp "$here/scenarios/one_node.scn" "$work/in"
refused 'no words' 2 'cspsim: bad words'
refused 'sim x' 2 'cspsim: bad words' sim x
refused 'gen alone' 2 'cspsim: bad words' gen
refused 'gen 0' 2 'cspsim: bad words' gen 0
refused 'gen 501' 2 'cspsim: bad words' gen 501
refused 'gen 020' 2 'cspsim: bad words' gen 020
refused 'run without a number' 2 'cspsim: bad words' run --workers
refused 'run without workers' 2 'cspsim: bad words' run --workers 0
refused 'run with nine workers' 2 'cspsim: bad words' run --workers=9
refused 'run with workers twice' 2 'cspsim: bad words' run --workers 1 --workers 1
refused 'tap --x' 2 'cspsim: bad words' tap --x
refused 'tap tap' 2 'cspsim: bad words' tap tap
refused '--help' 2 'cspsim: bad words' --help
refused 'sim and an empty word' 2 'cspsim: bad words' sim ''
refused 'a word that is not UTF-8' 2 'cspsim: bad words' $'\xff'
refused 'sim and a word that is not UTF-8' 2 'cspsim: bad words' sim $'si\xc3'

# 3: a standard input that can't be read, and one that is closed.
cp "$work/nothing" "$work/wanted_out"
echo 'cspsim: read fault' > "$work/wanted_said"
"$program" sim < "$work" > "$work/out" 2> "$work/said"
got=$?
compare 'a folder as standard input' 3
"$program" sim <&- > "$work/out" 2> "$work/said"
got=$?
compare 'a closed standard input' 3

# 4: a standard output that is closed, and one that takes nothing.
echo 'cspsim: write fault' > "$work/wanted_said"
"$program" sim < "$work/in" >&- 2> "$work/said"
got=$?
cp "$work/nothing" "$work/out"
compare 'a closed standard output' 4
if [ -e /dev/full ]; then
  "$program" sim < "$work/in" > /dev/full 2> "$work/said"
  got=$?
  compare 'a full standard output' 4
fi

# 0 and 2: where standard error takes nothing the status is the same.
cp "$here/scenarios/one_node.report" "$work/wanted_out"
cp "$work/nothing" "$work/wanted_said"
"$program" sim < "$work/in" > "$work/out" 2>&-
got=$?
cp "$work/nothing" "$work/said"
compare 'a closed standard error' 0
cp "$work/nothing" "$work/wanted_out"
"$program" help < "$work/in" > "$work/out" 2>&-
got=$?
compare 'bad words and a closed standard error' 2

# 5: a refused line, and an empty text.
printf 'until 10\nnode n1 1 buffers 4\napp n1 a\ntale\n' > "$work/in"
fed 'a misspelt step' 5 'cspsim: line 4: Word'
cp "$work/nothing" "$work/in"
fed 'an empty text' 5 'cspsim: line 1: Missing'
refused 'an empty text, run' 5 'cspsim: line 1: Missing' run

# 6: a byte more than a text may have, and more entries than the logs may have.
times 1048577 '#' | tr -d '\n' > "$work/in"
fed 'a text of 1,048,577 bytes' 6 'cspsim: limit Bytes 1048576'
refused 'a text of 1,048,577 bytes, run' 6 'cspsim: limit Bytes 1048576' run
refused 'a stream of 1,048,577 bytes' 6 'cspsim: limit Bytes 1048576' tap
cp "$here/measure/limit.scn" "$work/in"
fed 'a run up to the limit of entries' 6 'cspsim: limit Entries 4000000'

# 6: fewer turns, by steps, in which a link finds the lanes at both its ends full, so that each shows a frame of 4,095 bytes
# twice and weighs eight.
{
  printf '%s\n' 'until 1' 'node a 1 buffers 16' 'node b 2 buffers 16' 'link l kiss a b mtu 2042' 'route a 3 l' 'route b 3 l'
  for number in {1..8}; do printf 'fault l ab %d repeat 7\nfault l ba %d repeat 7\n' "$number" "$number"; done
  for app in 'a x' 'b y'; do
    echo "app $app"
    times 8 'raw 82328a00 00'
    echo "raw 82328a00 $(times 2042 c0 | tr -d '\n')"
    echo 'recv 0 1'
  done
  times 60 'schedule steps a.x a a a.l a.l b.y b b b.l b.l'
  times 500050 l | paste -sd ' ' | fold -w 8000 | sed 's/^/schedule steps /'
} > "$work/in"
fed 'a run by steps whose entries weigh eight each' 6 'cspsim: limit Entries 4000000'

# The script, in a copy without a program. What it says in brackets on standard error is left out.
copy=$work/copy
mkdir "$copy" "$work/stub" || exit 70
(cd "$here" && tar -cf - --exclude=out --exclude=.git .) | tar -C "$copy" -xf - || exit 70
printf '#!/bin/sh\necho "rt is called" >&2\nexit 1\n' > "$work/stub/rt"
printf '#!/bin/sh\necho proved\n' > "$work/proved"
chmod +x "$work/stub/rt" "$work/proved"

# script NAME STATUS WORD..: the copy's script is given the words and $work/in. What it must write and say stands in
# $work/wanted_out and $work/wanted_said, as for a program.
script() {
  local name=$1 status=$2
  shift 2
  "$copy/cspsim" "$@" < "$work/in" > "$work/out" 2> "$work/all_said"
  got=$?
  grep -v '^(' "$work/all_said" > "$work/said"
  compare "./cspsim, $name" "$status"
}

# unbuilt NAME: the script has no program for the sources as they are, and so asks rt for one, which here refuses.
unbuilt() {
  cp "$work/nothing" "$work/wanted_out"
  echo 'rt is called' > "$work/wanted_said"
  PATH=$work/stub:$PATH script "$1" 70 sim
}

# within NAME MILLISECONDS WORD..: a call of the script takes less than that, the first or, on a busy machine, one of more.
within() {
  local name=$1 most=$2 least= start took
  shift 2
  for _ in {1..40}; do
    start=${EPOCHREALTIME/./}
    "$copy/cspsim" "$@" < "$work/in" > /dev/null 2>&1
    took=$((${EPOCHREALTIME/./} - start))
    [ -n "$least" ] && [ "$least" -le "$took" ] || least=$took
    [ "$least" -ge $((most * 1000)) ] || break
  done
  runs=$((runs + 1))
  if [ "$least" -ge $((most * 1000)) ]; then
    failed=1
    echo "edge: ./cspsim, $name: the shortest call takes $least microseconds, and $most milliseconds are wanted"
  fi
}

cp "$work/nothing" "$work/in"
cp "$work/nothing" "$work/wanted_out"
echo 'cspsim: bad words' > "$work/wanted_said"
script 'a wrong word before any build' 2 help
script 'two hyphens' 2 --
within 'a wrong word' 100 gen 501
unbuilt 'before any build'

cp "$here/scenarios/mission.scn" "$work/in"
cp "$here/scenarios/mission.report" "$work/wanted_out"
cp "$work/nothing" "$work/wanted_said"
script 'a quick build' 0 sim
PATH=$work/stub:$PATH script 'the program that was kept' 0 sim
ln -s "$copy/cspsim" "$work/link"
PATH=$work/stub:$PATH "$work/link" sim < "$work/in" > "$work/out" 2> /dev/null
got=$?
cp "$work/nothing" "$work/said"
compare './cspsim by a link' 0
within 'the mission, once a program was kept' 200 sim
"$copy/cspsim" sim < "$here/measure/under_the_limit.scn" 2> /dev/null | sed -n 2p > "$work/out"
echo 'end unfinished 99999' > "$work/wanted_out"
compare './cspsim, a run just under the limit' 0

cp "$work/nothing" "$work/wanted_out"
echo 'cspsim: read fault' > "$work/wanted_said"
"$copy/cspsim" sim <&- > "$work/out" 2> "$work/all_said"
got=$?
grep -v '^(' "$work/all_said" > "$work/said"
compare './cspsim, a closed standard input' 3
(ulimit -f 1 && "$copy/cspsim" sim < "$work/in" > "$work/short" 2> "$work/all_said")
got=$?
cp "$work/nothing" "$work/out"
echo 'cspsim: write fault' > "$work/wanted_said"
grep -v '^(' "$work/all_said" > "$work/said"
compare './cspsim, a file that may not grow' 4

echo '// one line more' >> "$copy/crates/csp_draw/src/lib.rt"
unbuilt 'a changed source'
cp "$here/crates/csp_draw/src/lib.rt" "$copy/crates/csp_draw/src/lib.rt"
cp "$here/scenarios/mission.report" "$work/wanted_out"
cp "$work/nothing" "$work/wanted_said"
PATH=$work/stub:$PATH script 'the source as it was' 0 sim
cp "$work/proved" "$copy/crates/cspsim/out/cspsim"
echo proved > "$work/wanted_out"
script 'a proved program' 0 sim
rm "$copy/crates/csp_draw/src/lib.rt"
unbuilt 'a deleted source'

[ "$failed" -ne 0 ] || echo "edge: $runs runs ended, wrote and said what they should"
exit "$failed"
