#!/usr/bin/env bash
# Runs the scenarios beside it by ./cspsim, or by the program whose path is given. They fill the logs up to the limit
# of entries, up to just under it, and to two fifths of it with four applications and with one. It fails where an
# answer is wrong; times and memory it only prints, and the processor time of an entry in one run as a multiple of
# that in another.
here=$(cd "$(dirname "${BASH_SOURCE[0]}")" && pwd) || exit 70
program=$(realpath -e -- "${1:-$here/../cspsim}") || exit 70
[ -x /usr/bin/time ] || { echo "entries: GNU time is not at /usr/bin/time" >&2; exit 70; }
work=$(mktemp -d) || exit 70
trap 'rm -rf "$work"' EXIT
failed=0
declare -A each # the processor seconds of an entry in each run that was measured

# run NAME ENTRIES STATUS SAID END: runs NAME.scn, whose logs come to ENTRIES entries. It must end with STATUS, say
# the line SAID on standard error, and have END as the second line of its report. Where SAID is empty it must say
# nothing, and where END is empty it must write nothing.
run() {
  local name=$1 entries=$2 status=$3 said=$4 end=$5 got elapsed user system memory wrong=
  /usr/bin/time -q -f '%e %U %S %M' -o "$work/cost" \
    "$program" sim < "$here/$name.scn" > "$work/report" 2> "$work/said"
  got=$?
  read -r elapsed user system memory < "$work/cost"
  printf '%-18s %d entries, status %d, %s seconds, at most %d KiB, %d bytes an entry\n' \
    "$name" "$entries" "$got" "$elapsed" "$memory" $((memory * 1024 / entries))
  [ "$got" = "$status" ] || wrong+=" status $status is wanted;"
  [ "$(grep '^cspsim: ' "$work/said")" = "$said" ] || wrong+=" '$said' is wanted on standard error;"
  [ "$(sed -n 2p "$work/report")" = "$end" ] || wrong+=" '$end' is wanted in the report;"
  [ -n "$end" ] || [ ! -s "$work/report" ] || wrong+=" no report is wanted;"
  if [ -n "$wrong" ]; then
    failed=1
    echo "  WRONG:$wrong"
    sed 's/^/  | /' "$work/said"
  elif grep -q '^(no proved program' "$work/said"; then
    echo "  (a quick build without proofs: its time is not that of the proved program)"
  else
    each[$name]=$(awk -v seconds="$user $system" -v entries="$entries" \
      'BEGIN { split(seconds, of); print (of[1] + of[2]) / entries }')
  fi
}

# ratio WHAT A B: the processor time of an entry in the run A, as a multiple of that in the run B.
ratio() {
  awk -v what="$1" -v a="${each[$2]}" -v b="${each[$3]}" \
    'BEGIN { if (a > 0 && b > 0) printf "%s: %.2f\n", what, a / b; else print what ": not measured" }'
}

run limit 4000000 6 'cspsim: limit Entries 4000000' ''
run under_the_limit 3999960 0 '' 'end unfinished 99999'
run four_applications 1600000 0 '' 'end unfinished 40000'
run one_application 1600000 0 '' 'end unfinished 100000'
ratio 'an entry with four applications, to one with one application' four_applications one_application
ratio 'an entry of a run up to the limit, to one of a run of two fifths of it' under_the_limit four_applications
exit "$failed"
