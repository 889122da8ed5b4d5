#!/usr/bin/env bash
# Compares runs in threads with simulations: `measure/threads.sh [PROGRAM [RUNS]]`, the proved program that `rt ci` leaves
# and ten runs of each unless they are given. The scenarios are the mission, that of `gen 500`, and ring.scn, whose eight
# nodes send reliably round a ring. Of each it makes, by turns, a simulation and runs by 1, 2, 4 and 8 workers, and as many
# of each that stop after one round: what reading the scenario takes, opening and closing. It prints the least time of a
# simulation and of a run by one worker, and what a round costs: the least time without that of one which stops so, shared
# out over the other rounds, and the least processor time of all threads likewise. Memory is the most that a run had.
#
# By one worker the parties take their turns in the order of a simulation, so the report must be the same. By more workers
# the order of turns differs each time, and with it the rounds. But what is not sent reliably is sent before the first
# fault, so the run must finish, each application must have taken the same packets, and none may be stale or changed. It
# fails where an answer is wrong; times and memory it only prints.
here=$(cd "$(dirname "${BASH_SOURCE[0]}")" && pwd) || exit 70
program=$(realpath -e -- "${1:-$here/../crates/cspsim/out/cspsim}") || exit 70
runs=${2:-10}
[ -x /usr/bin/time ] || { echo "threads: GNU time is not at /usr/bin/time" >&2; exit 70; }
work=$(mktemp -d) || exit 70
trap 'rm -rf "$work"' EXIT
failed=0
ways=(sim 1 2 4 8) # a simulation, and so many workers
TIMEFORMAT='%U %S'
declare -A least rounds

# text PACKETS: the scenario that `gen PACKETS` runs.
text() {
  local j frame=10 drawn=$1 what=('delay 5' lose 'repeat 1')
  printf '%s\n' 'until 40000' 'node ground 1 buffers 32 seed 65400' 'node relay 2 buffers 32' 'node payload 3 buffers 32' \
    'link radio kiss ground relay' 'link bus can relay payload' 'route ground 0/0 radio' 'route relay 1 radio, 3 bus' \
    'route payload 0/0 bus'
  for ((j = 1; j <= $1 / 20; j++)); do
    drawn=$((drawn * 6364136223846793005 + 1442695040888963407))
    frame=$((frame + 10 + (drawn >> 33 & 0x7fffffff) % 20))
    echo "fault radio ab $frame ${what[j % 3]}"
  done
  printf '%s\n' 'app ground ops' 'connect 0 3 10 crc rdp' "burst 0 $1 100" 'app payload cam' 'bind 10 rdp' "recv 0 $1"
}

# choose WAY: the words of the program for it, in `words`.
choose() { if [ "$1" = sim ]; then words=(sim); else words=(run --workers "$1"); fi; }

# note NAME NUMBER: keeps it as the least of this name, where it is.
note() { [ -n "${least[$1]}" ] && [ "${least[$1]}" -le "$2" ] || least[$1]=$2; }

# once WAY FILE: a run of FILE.scn, whose report stands in FILE.WAY then. It notes the microseconds that it took, and those
# of its threads.
once() {
  local start user system
  choose "$1"
  start=${EPOCHREALTIME/./}
  { time "$program" "${words[@]}" < "$2.scn" > "$2.$1" 2> "$work/said"; } 2> "$work/cost" || { cat "$work/said" >&2; return 1; }
  note "$2 $1" $((${EPOCHREALTIME/./} - start))
  read -r user system < "$work/cost"
  note "$2 $1 cost" $((10#${user/./} * 1000 + 10#${system/./} * 1000))
}

# judge FILE: whether the reports of FILE.scn are what they must be.
judge() {
  local way
  cmp -s "$1.sim" "$1.1" || wrong "$1: the report by one worker is not that of a simulation"
  for way in "${ways[@]}"; do
    choose "$way"
    rounds[$1 $way]=$(sed -n 's/^end finished //p' "$1.$way")
    [ -n "${rounds[$1 $way]}" ] || wrong "$1: ${words[*]} did not finish"
    [ "$(tail -n 2 "$1.$way")" = $'stale 0\npassed 0' ] || wrong "$1: ${words[*]} has stale or changed packets"
    cmp -s <(grep '^took ' "$1.sim" | sort) <(grep '^took ' "$1.$way" | sort) || wrong "$1: ${words[*]} took other packets"
  done
}

wrong() { echo "threads: ${1#"$work"/}" >&2; failed=1; }

# memory FILE: the KiB that a run of it with the chosen words takes at most.
memory() { /usr/bin/time -q -f %M -o "$work/cost" "$program" "${words[@]}" < "$1.scn" > /dev/null 2>&1 && cat "$work/cost"; }

# measure FILE: runs it in each way, by turns, and as it is with one round.
measure() {
  local way
  sed 's/^until .*/until 1/' "$1.scn" > "$1.first.scn"
  for ((run = 0; run < runs; run++)); do
    for way in "${ways[@]}"; do
      once "$way" "$1.first" && once "$way" "$1" || return 1
    done
    judge "$1"
  done
}

# per_round FILE WAY [cost]: the microseconds of a round.
per_round() {
  awk -v all="${least[$1 $2${3:+ $3}]}" -v first="${least[$1.first $2${3:+ $3}]}" -v rounds="${rounds[$1 $2]}" \
    'BEGIN { if (rounds > 1) printf "%.1f", (all - first) / (rounds - 1); else printf "?" }'
}

# tell WHAT FILE: prints what was measured of FILE.scn.
tell() {
  local way
  awk -v what="$1" -v rounds="${rounds[$2 sim]}" -v sim="${least[$2 sim]}" -v one="${least[$2 1]}" 'BEGIN {
    printf "%s, %d rounds: sim %.1f ms, run by one worker %.1f ms, %.2f times\n", what, rounds, sim / 1000, one / 1000, one / sim
  }'
  for way in "${ways[@]}"; do
    choose "$way"
    echo "  ${words[*]}: $(per_round "$2" "$way") us a round, $(per_round "$2" "$way" cost) us of processors, $(memory "$2") KiB"
  done
}

cp "$here/../scenarios/mission.scn" "$work/mission.scn" && cp "$here/ring.scn" "$work/ring.scn" || exit 70
text 500 > "$work/gen.scn"
for name in mission gen ring; do
  measure "$work/$name" || exit 1
done
[ "$(sed -n 2p "$work/gen.sim")" = "$("$program" gen 500 | sed -n 2p)" ] || wrong 'gen: another scenario than that of gen 500'
tell 'the mission' "$work/mission"
tell 'the scenario of gen 500' "$work/gen"
tell 'a ring of eight nodes' "$work/ring"
exit "$failed"
