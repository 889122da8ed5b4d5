#!/usr/bin/env bash
# Reads frames and streams by the command `tap`, whose bytes and contents are known from outside, and prints what differs: the
# frames of crates/csp_tables/data/kiss.table, by a decoder for real satellites, one by one, all in one stream, and where
# the CRC is to cover the header and does not; and the streams of checks/captures.txt. The program is the proved one that
# `rt ci` leaves, or the one whose path is given.
here=$(cd "$(dirname "${BASH_SOURCE[0]}")/.." && pwd) || exit 70
program=$(realpath -e -- "${1:-$here/crates/cspsim/out/cspsim}") || exit 70
work=$(mktemp -d) || exit 70
trap 'rm -rf "$work"' EXIT
failed=0
runs=0

# bytes HEX: these bytes.
bytes() {
  printf "$(sed 's/../\\x&/g' <<< "$1")"
}

# read_as NAME WORD..: $work/in is read by the words, which must end with status 0, write $work/wanted, and say nothing. Of a
# CRC that belongs there, where `tap --header` names one, nothing is known of these frames: it is left out.
read_as() {
  local name=$1
  shift
  runs=$((runs + 1))
  "$program" "$@" < "$work/in" > "$work/out" 2> "$work/said" && [ ! -s "$work/said" ] || {
    failed=1
    echo "captures: $name, $*: another status, or a line on standard error"
  }
  [ "$keep" = whole ] || sed -i -E 's/^(badcrc [0-9]+ [0-9a-f]{8}) [0-9a-f]{8}$/\1/' "$work/out"
  if ! diff "$work/wanted" "$work/out" > "$work/diff"; then
    failed=1
    echo "captures: $name, $*: the output differs (< is wanted):"
    head -n 10 "$work/diff"
  fi
}

# The frames of the table: `kiss frame HEADER PAYLOAD` and below it `=> FRAME`. All have the header 8222b000, whose parts
# are of the table of headers.
fields='8222b000 pri 2 src 1 dst 2 dport 10 sport 48 flags 00'
keep=front
frames=0
total=0
: > "$work/all"
: > "$work/lines"
while read -r _ _ header payload && read -r _ frame; do
  [ "$header" = 8222b000 ] || { echo "captures: a frame with the header $header"; failed=1; }
  size=$((${#payload} / 2)) # of `-` too
  crc=$(sed -E 's/../& /g; s/db dc/c0/g; s/db dd/db/g; s/ //g; s/.*(.{8})c0$/\1/' <<< "$frame")
  frames=$((frames + 1))
  total=$((total + size))
  bytes "$frame" > "$work/in"
  cat "$work/in" >> "$work/all"
  echo "packet $frames $fields len $size $payload" >> "$work/lines"
  printf '%s\n' 'csp-tap 1' "packet 1 $fields len $size $payload" "talk 1 2 10 48 packets 1 bytes $size" 'end 1' > "$work/wanted"
  read_as "frame $frames" tap
  printf '%s\n' 'csp-tap 1' "badcrc 1 $crc" 'end 1' > "$work/wanted"
  read_as "frame $frames" tap --header
done < <(sed -n '/^kiss frame [0-9a-f]* [0-9a-f-]*$/{N;p}' "$here/crates/csp_tables/data/kiss.table")
[ "$frames" -gt 30 ] || { echo "captures: only $frames frames"; failed=1; }
cp "$work/all" "$work/in"
{ echo 'csp-tap 1'; cat "$work/lines"; printf '%s\n' "talk 1 2 10 48 packets $frames bytes $total" "end $frames"; } > "$work/wanted"
read_as 'all frames' tap

# The streams of captures.txt.
keep=whole
for command in tap header; do
  words=(tap)
  [ "$command" = tap ] || words=(tap --header)
  name=
  while read -r kind rest; do
    case $kind in
      stream)
        [ ! -s "$work/wanted" ] || [ -z "$name" ] || read_as "$name" "${words[@]}"
        name=$rest
        : > "$work/wanted"
        ;;
      bytes) bytes "$rest" > "$work/in" ;;
      "$command") echo "$rest" >> "$work/wanted" ;;
    esac
  done < <(cat "$here/checks/captures.txt" && echo stream)
done

[ $failed -ne 0 ] || echo "captures: $runs runs, all as they should be"
exit $failed
