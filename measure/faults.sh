#!/usr/bin/env bash
# Refuses what runs ask of the system, one call in a run: `measure/faults.sh [PROGRAM]`, the proved program that `rt ci`
# leaves unless it is given. Each run of the list below is made again and again, and in each one thing more is refused:
#
# - one allocation: it ends with status 1 and has written nothing, or it is done;
# - one read of standard input: it ends with status 3, has written nothing and has not read again;
# - one write to standard output, which takes 16 bytes at a time: it ends with status 4, has written the first 16 bytes of
#   the report as often as it was allowed to, and has not written again;
# - one thread, and then all threads: it is done, since who asked for the thread does its work;
# - memory past a limit, in 200 steps from what a process has at its start to what a run takes: status 1, and nothing was
#   written, or it is done. That reaches what the C library takes for the program: stacks of threads, and room for them.
#
# Done is status 0 with the whole report, and nothing said. After every run, however it ended, all blocks of memory must have
# been given back but those of the emptied queues of a run in threads, which are left to the process.
#
# What is refused is refused by measure/faults/refuse.c, which stands between the program and the C library. It prints how
# much was refused, and each other answer, and fails where there was one. It takes some six minutes.
here=$(cd "$(dirname "${BASH_SOURCE[0]}")" && pwd) || exit 70
program=$(realpath -e -- "${1:-$here/../crates/cspsim/out/cspsim}") || exit 70
command -v cc > /dev/null || { echo "faults: a C compiler, cc, is not on the path" >&2; exit 70; }
work=$(mktemp -d) || exit 70
trap 'rm -rf "$work"' EXIT
cc -O2 -shared -fPIC -o "$work/refuse.so" "$here/faults/refuse.c" || exit 70
rows=$here/../crates/csp_rows/data

# The runs, one a line: what is read; the report; how a report is judged; the words. A report is judged as `same` as the one
# here; as the same but for the `rounds` of its line `end`, which differ with the order in which threads take their turns; or
# by what was `taken`, of which writes are then not refused. A scenario of another kind is one line more.
list() {
  echo "$rows/port_opens_a_connection.scn $rows/port_opens_a_connection.report same sim"
  echo "$rows/port_opens_a_connection.scn $rows/port_opens_a_connection.report rounds run --workers 2"
  echo "$rows/mission_cut_short.scn $rows/mission_cut_short.report taken run --workers 2"
  echo "/dev/null $rows/gen_20.report same gen 20"
  echo "$work/capture $work/capture.report same tap"
}

# capture FRAMES: a captured stream in which one frame comes so often, and what is to be told of it.
capture() {
  local number
  for ((number = 1; number <= $1; number++)); do
    printf '\xc0\x00\x82\x22\xb0\x00\xdb\xdc\xdb\xdd\xdb\xdc\x7d\x49\xd4\x79\xc0'
  done > "$work/capture"
  {
    echo 'csp-tap 1'
    for ((number = 1; number <= $1; number++)); do
      echo "packet $number 8222b000 pri 2 src 1 dst 2 dport 10 sport 48 flags 00 len 3 c0dbc0"
    done
    echo "talk 1 2 10 48 packets $1 bytes $((3 * $1))"
    echo "end $1"
  } > "$work/capture.report"
}

# More runs in which threads are refused.
more_in_threads() {
  echo "$rows/port_opens_a_connection.scn $rows/port_opens_a_connection.report rounds run --workers 8"
  echo "$here/../scenarios/mission.scn $here/../scenarios/mission.report taken run --workers 2"
  echo "$here/../scenarios/mission.scn $here/../scenarios/mission.report taken run --workers 4"
}

# As many threads are refused one by one in a run, at most.
most_threads=100
limits=200
piece=16
declare -A refused=([allocation]=0 [read]=0 [write]=0 [thread]=0 [limit]=0)
others=0

# once NAME=VALUE..: the present run, with these variables. Its status is in `got`, its output in $work/out, its error in
# $work/said; what it asked for is in `allocations`, `reads`, `writes` and `threads`, and the blocks that it left in $work/left.
once() {
  rm -f "$work/tally"
  env "$@" LD_PRELOAD="$work/refuse.so" TALLY="$work/tally" "$program" "${words[@]}" < "$input" > "$work/out" 2> "$work/said"
  got=$?
  allocations=0 reads=0 writes=0 threads=0
  [ -e "$work/tally" ] || return
  read -r allocations reads writes threads < "$work/tally"
  tail -n +2 "$work/tally" | sort > "$work/left"
}

# other WHAT: notes an answer that should not be.
other() {
  others=$((others + 1))
  echo "faults: ${words[*]} < ${input##*/}, $1: status $got, $(wc -c < "$work/out") bytes written, '$(cat "$work/said")'"
}

# facts FILE: what must be in a report, whatever threads do.
facts() {
  sed -n '2s/[0-9]*$//p' "$1"
  awk '$1 == "node" { print $2, $5 == $7 + $9 + $11 + $13 + $15 + $17 ? "adds up" : "does not add up" }' "$1"
  grep '^took ' "$1" | sort
  tail -n 2 "$1"
}

# without_rounds FILE: a report whose line `end` has no number.
without_rounds() { sed '2s/[0-9]/_/g' "$1"; }

# is_whole FILE: whether it is the whole report.
is_whole() {
  case $judge in
    same) cmp -s "$report" "$1" ;;
    rounds) cmp -s <(without_rounds "$report") <(without_rounds "$1") ;;
    taken) cmp -s <(facts "$report") <(facts "$1") ;;
  esac
}

# is_front BYTES: whether just the first BYTES bytes of the report were written.
is_front() {
  [ "$(wc -c < "$work/out")" -eq "$1" ] || return 1
  [ "$1" -gt 0 ] || return 0
  case $judge in
    same) cmp -s <(head -c "$1" "$report") "$work/out" ;;
    rounds) cmp -s <(without_rounds "$report" | head -c "$1") <(without_rounds "$work/out") ;;
  esac
}

# is_done: whether the run is done, and left just the blocks of emptied queues.
is_done() {
  [ "$got" -eq 0 ] && [ ! -s "$work/said" ] && is_whole "$work/out" && cmp -s "$work/left" "$work/queues"
}

# is_refused STATUS LINE BYTES: whether the run ended so, said this line, wrote so many bytes of the report, and left no block
# but those of queues.
is_refused() {
  [ "$got" -eq "$1" ] && [ "$(cat "$work/said")" = "cspsim: $2" ] && is_front "$3" &&
    [ -z "$(comm -23 "$work/left" "$work/queues")" ]
}

# queues: how many queues the scenario's run in threads has: of a node a pool and an inbox of four, of an application two lanes,
# and of a link three at each end. A simulation has lists.
queues() {
  [ "${words[0]}" = run ] || { echo 0; return; }
  awk '/^(node|bridge) / { n += 5 } /^app / { n += 2 } /^link / { n += 6 } END { print n }' "$input"
}

# begin LINE: the run of this line of a list. Where nothing is refused it leaves two blocks for each queue.
begin() {
  local fields
  read -ra fields <<< "$1"
  input=${fields[0]} report=${fields[1]} judge=${fields[2]} words=("${fields[@]:3}")
  once PIECE=$piece
  cp "$work/left" "$work/queues"
  is_done || other 'nothing refused'
  [ "$(wc -l < "$work/queues")" -eq $((2 * $(queues))) ] || other 'other blocks not given back'
}

# refuse_allocations: each allocation in turn.
refuse_allocations() {
  local number done=0
  for ((number = 1; ; number++)); do
    once REFUSE_ALLOCATION=$number
    [ "$number" -le "$allocations" ] || break
    refused[allocation]=$((refused[allocation] + 1))
    if is_done; then done=$((done + 1)); elif ! is_refused 1 'no memory' 0; then other "allocation $number refused"; fi
  done
  is_done || other 'no allocation refused'
  printf '%s: %d allocations, of which the run is done without %d; ' "${words[*]}" $((number - 1)) $done
}

# refuse_reads: each read in turn.
refuse_reads() {
  local number
  for ((number = 1; ; number++)); do
    once REFUSE_READ=$number
    [ "$number" -le "$reads" ] || break
    refused[read]=$((refused[read] + 1))
    is_refused 3 'read fault' 0 && [ "$reads" -eq "$number" ] && [ "$writes" -eq 0 ] || other "read $number failed"
  done
  is_done || other 'no read failed'
  printf '%d reads, ' $((number - 1))
}

# refuse_writes: each write in turn.
refuse_writes() {
  local number
  [ "$judge" != taken ] || { echo 'no writes'; return; }
  for ((number = 1; ; number++)); do
    once PIECE=$piece REFUSE_WRITE=$number
    [ "$number" -le "$writes" ] || break
    refused[write]=$((refused[write] + 1))
    is_refused 4 'write fault' $((piece * (number - 1))) && [ "$writes" -eq "$number" ] || other "write $number failed"
  done
  is_done || other 'no write failed'
  printf '%d writes\n' $((number - 1))
}

# refuse_threads: each of the first threads in turn, and then all of them.
refuse_threads() {
  local number
  for ((number = 1; number <= most_threads; number++)); do
    once REFUSE_THREAD=$number
    [ "$number" -le "$threads" ] || break
    refused[thread]=$((refused[thread] + 1))
    is_done || other "thread $number refused"
  done
  once REFUSE_THREAD=0
  refused[thread]=$((refused[thread] + threads))
  is_done || other 'all threads refused'
  printf '%s: %d threads refused one by one, and %d in one run\n' "${words[*]}" $((number - 1)) "$threads"
}

# refuse_other_order: of two workers the second goes first where no thread can be made. The application's packet then comes to
# the router a round later, which the report must tell.
refuse_other_order() {
  input=$rows/place_in_a_lane.scn words=(run --workers 2) judge=same
  tail -n +4 "$rows/place_in_a_lane_application_first.threads" > "$work/report"
  report=$work/report
  once REFUSE_THREAD=0
  cp "$work/left" "$work/queues"
  refused[thread]=$((refused[thread] + threads))
  is_done || other 'all threads refused'
}

# most_wanted: the KiB more than at the start, to four of them, that the run takes.
most_wanted() {
  local low=0 high=1048576 middle
  while [ $((high - low)) -gt 4 ]; do
    middle=$(((low + high) / 2))
    once MORE=$middle
    if is_done; then high=$middle; else low=$middle; fi
  done
  echo "$high"
}

# limit_memory: a limit on memory, step by step.
limit_memory() {
  local high step more
  high=$(most_wanted)
  for ((step = 0; step < limits; step++)); do
    more=$((high * step / (limits - 1)))
    once MORE=$more
    if is_refused 1 'no memory' 0; then
      refused[limit]=$((refused[limit] + 1))
    elif ! is_done; then
      other "no more than $more KiB"
    fi
  done
  printf '%s: memory limited in %d steps from what it has at its start to %d KiB more\n' "${words[*]}" "$limits" "$high"
}

capture 40
while read -r line; do
  begin "$line"
  refuse_allocations
  refuse_reads
  refuse_writes
  limit_memory
done < <(list)
while read -r line; do
  begin "$line"
  refuse_threads
done < <(list | grep ' run '; more_in_threads)
refuse_other_order
echo "refused: ${refused[allocation]} allocations, ${refused[thread]} threads; failed: ${refused[read]} reads, ${refused[write]} writes;" \
  "without memory by a limit: ${refused[limit]}; other answers: $others"
[ "$others" -eq 0 ]
