#!/usr/bin/env bash
# Runs eight nodes in a ring of eight links by the proved program that `rt ci` leaves, or by the one whose path is given:
# without traffic, with raw packets that go half round the ring, and with those for half as many rounds. Beside these it
# runs four_applications.scn, whose node has no link. The runs are made by turns, and the least processor time of each
# counts, less that of reading its scenario. It prints seconds, the time of an entry as a multiple of that of the node
# without a link, and how much longer twice the rounds take; that includes reading from the logs which packets passed.
# It fails where an answer is wrong; times it only prints. It takes under two minutes.
here=$(cd "$(dirname "${BASH_SOURCE[0]}")" && pwd) || exit 70
program=$(realpath -e -- "${1:-$here/../crates/cspsim/out/cspsim}") || exit 70
[ -x /usr/bin/time ] || { echo "links: GNU time is not at /usr/bin/time" >&2; exit 70; }
work=$(mktemp -d) || exit 70
trap 'rm -rf "$work"' EXIT
failed=0
nodes=8
passes=3 # so often each scenario is measured, by turns
times=10 # so many runs are one measurement
declare -A rounds entries best

# ring ROUNDS STEPS: a ring of nodes, each with one application whose steps the function STEPS writes for the node of
# this number. Every packet goes on in one direction until it is where it is to go.
ring() {
  local node
  echo "until $1"
  for node in $(seq $nodes); do echo "node n$node $node buffers 16"; done
  for node in $(seq $nodes); do echo "link l$node kiss n$node n$((node % nodes + 1))"; done
  for node in $(seq $nodes); do echo "route n$node 0/0 l$node"; done
  for node in $(seq $nodes); do
    echo "app n$node a"
    "$2" "$node"
  done
}

# quiet NODE: the steps of an application that waits for ever.
quiet() {
  echo 'recv 0 1'
}

# busy NODE: the steps of an application that sends a packet of 32 bytes to the node on the other side of the ring in
# every fifth round, and is not done in 2,400 rounds.
busy() {
  local to header bytes
  to=$((($1 + nodes / 2 - 1) % nodes + 1))
  header=$(printf '%08x' $((2 << 30 | $1 << 25 | to << 20 | 10 << 14 | 48 << 8)))
  bytes=$(printf '5a%.0s' {1..32})
  for _ in {1..500}; do
    echo "raw $header $bytes"
    echo 'wait 5'
  done
}

# scenario NAME ROUNDS PARTIES: takes the scenario NAME from standard input, which makes so many rounds with so many
# parties, none of which ends, and so eight entries for each in each round. It writes the same with one round, too.
scenario() {
  cat > "$work/$1.scn"
  sed 's/^until .*/until 1/' "$work/$1.scn" > "$work/$1.first.scn"
  rounds[$1]=$2
  entries[$1]=$((8 * $2 * $3))
}

# measured FILE: the processor seconds of some runs of a scenario together.
measured() {
  local user system
  /usr/bin/time -q -f '%U %S' -o "$work/cost" bash -c 'for _ in $(seq "$4"); do "$1" sim < "$2" > "$3" 2> "$3.said" || exit 1; done' \
    - "$program" "$work/$1.scn" "$work/$1.report" $times || { cat "$work/$1.report.said" >&2; return 1; }
  read -r user system < "$work/cost"
  awk -v a="$user" -v b="$system" 'BEGIN { print a + b }'
}

# measure FILE: the least processor seconds of a run so far, those of this call among them.
measure() {
  local now
  now=$(measured "$1") || return 1
  best[$1]=$(awk -v now="$now" -v times="$times" -v best="${best[$1]}" \
    'BEGIN { now /= times; if (best == "" || now < best) best = now; print best }')
}

# check NAME: whether the report of a scenario says that all its rounds were made, and that no application ended.
check() {
  local end
  end=$(sed -n 2p "$work/$1.report")
  if [ "$end" != "end unfinished ${rounds[$1]}" ] || grep -q '^app .* ended$' "$work/$1.report"; then
    failed=1
    echo "  WRONG: $1: '$end', and 'end unfinished ${rounds[$1]}' is wanted, with no application ended"
  fi
}

# seconds NAME: the time of a run without that of reading its scenario.
seconds() {
  awk -v a="${best[$1]}" -v b="${best[$1.first]}" 'BEGIN { print a - b }'
}

# tell NAME WHAT: prints what a run took, and how many packets its interfaces sent, accepted and dropped.
tell() {
  awk -v what="$2" -v seconds="$(seconds "$1")" -v entries="${entries[$1]}" '
    $1 == "iface" { sent += $5; accepted += $7; dropped += $9 + $11 + $13 }
    END {
      printf "%s: %d entries, %.3f seconds, %.0f nanoseconds an entry", what, entries, seconds, seconds / entries * 1e9
      if (sent > 0) printf "; %d packets sent, %d accepted, %d refused", sent, accepted, dropped
      print ""
    }' "$work/$1.report"
}

# ratio WHAT A B: the time of an entry in the run A, as a multiple of that in the run B.
ratio() {
  awk -v what="$1" -v a="$(seconds "$2")" -v na="${entries[$2]}" -v b="$(seconds "$3")" -v nb="${entries[$3]}" \
    'BEGIN { if (a > 0 && b > 0) printf "%s: %.2f\n", what, (a / na) / (b / nb); else print what ": too short to be measured" }'
}

scenario alone 40000 5 < "$here/four_applications.scn"
scenario quiet 5000 $((5 * nodes)) < <(ring 5000 quiet)
scenario busy 2400 $((5 * nodes)) < <(ring 2400 busy)
scenario half 1200 $((5 * nodes)) < <(ring 1200 busy)
for _ in $(seq $passes); do
  for name in alone quiet busy half; do
    measure "$name.first" && measure "$name" || exit 1
  done
done
for name in alone quiet busy half; do check "$name"; done
tell alone 'one node of four applications, without a link'
tell quiet 'a ring of eight nodes without traffic'
tell busy 'the same with raw packets'
tell half 'the same with raw packets, half as many rounds'
ratio 'an entry in the ring without traffic, to one of the node without a link' quiet alone
ratio 'an entry in the ring with raw packets, to one of the node without a link' busy alone
ratio 'an entry in the ring with raw packets, to one in the ring without traffic' busy quiet
awk -v a="$(seconds busy)" -v b="$(seconds half)" \
  'BEGIN { if (b > 0) printf "twice the rounds with raw packets, to once: %.2f\n", a / b; else print "twice the rounds: too short to be measured" }'
exit "$failed"
