#!/usr/bin/env bash
# Times the mission of scenarios/mission.scn, and the summary of `gen 500`, by the proved program that `rt ci` leaves or
# by the one whose path is given: `measure/mission.sh [PROGRAM [OTHER..]]`. OTHER is the command of another program that
# prints the same report for the same scenario, as a model in another language; then the mission is run by turns, and the
# ratio of the least processor times is printed besides. It fails where an answer is wrong; times it only prints.
here=$(cd "$(dirname "${BASH_SOURCE[0]}")" && pwd) || exit 70
program=$(realpath -e -- "${1:-$here/../crates/cspsim/out/cspsim}") || exit 70
[ $# -eq 0 ] || shift
[ -x /usr/bin/time ] || { echo "mission: GNU time is not at /usr/bin/time" >&2; exit 70; }
work=$(mktemp -d) || exit 70
trap 'rm -rf "$work"' EXIT
passes=5 # so often each is measured, by turns
times=20 # so many runs of the program are one measurement
others=5 # and so many of the other
scenario=$here/../scenarios/mission.scn
failed=0

# seconds COUNT COMMAND..: the processor time of so many runs of the command on the mission, and checks its report.
seconds() {
  local count=$1
  shift
  /usr/bin/time -f '%U %S' -o "$work/time" bash -c 'for _ in $(seq "$0"); do "${@:2}" < "$1" || exit 1; done > /dev/null' \
    "$count" "$scenario" "$@" || failed=1
  "$@" < "$scenario" | cmp -s - "${scenario%.scn}.report" || { echo "mission: another report by $1" >&2; failed=1; }
  awk '{ print $1 + $2 }' "$work/time"
}

# least A B: the lesser of two numbers, of which the first may be missing.
least() { awk -v a="$1" -v b="$2" 'BEGIN { print (a == "" || b < a) ? b : a }'; }

for _ in $(seq $passes); do
  own=$(least "$own" "$(seconds $times "$program" sim)")
  [ $# -eq 0 ] || other=$(least "$other" "$(seconds $others "$@")")
done
awk -v t="$own" -v n=$times 'BEGIN { printf "mission: %.1f ms a run\n", 1000 * t / n }'
[ $# -eq 0 ] || awk -v t="$own" -v n=$times -v o="$other" -v k=$others 'BEGIN { printf "the other: %.1f ms, %.1f times as much\n", 1000 * o / k, o / k * n / t }'
/usr/bin/time -f 'gen 500: %U s, %M KiB' "$program" gen 500 > "$work/summary" || failed=1
[ "$(wc -l < "$work/summary")" -eq 8 ] || { echo "mission: another summary" >&2; failed=1; }
exit $failed
