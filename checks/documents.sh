#!/usr/bin/env bash
# Compares the documents with the code, and prints what is missing. Each definition of specs/ has a comment, and
# docs/definitions.md is the index that checks/definitions makes of those that public contracts cite. Every crate
# stands in docs/map.md, with a link to its page, and has a section in docs/proved.md, in one order. Each file and folder
# that a document names is there. The README's limits are those of the constants, and its logic that of the kit.
cd "$(dirname "$0")/.." || exit 70
work=$(mktemp -d) || exit 70
trap 'rm -rf "$work"' EXIT
failed=0

# Prints the lines of a file, if it has any, under a heading.
complain() {
  if [ -s "$2" ]; then
    failed=1
    echo "documents: $1:"
    sed 's/^/  /' "$2"
  fi
}

# The definitions: their comments, and the index of those that clauses cite.
bash checks/definitions --without > "$work/uncommented"
complain 'definitions without a comment above them' "$work/uncommented"
bash checks/definitions --cited > "$work/cited"
bash checks/definitions | diff docs/definitions.md - > "$work/index"
complain 'docs/definitions.md is not what checks/definitions prints (> is that)' "$work/index"
[ -s "$work/cited" ] || echo 'no clause was found' > "$work/none"
touch "$work/none"
complain 'no public contract' "$work/none"

# The crates: those of crates.txt, in the order of the map, each with its page.
sed -nE 's/^([a-z_]+)( [^:]*)?:.*/\1/p' crates.txt | sort > "$work/crates"
sed -nE 's/^\| (csp[a-z_]*) \|.*/\1/p' docs/map.md > "$work/mapped"
sort "$work/mapped" | comm -3 "$work/crates" - > "$work/unmapped"
complain 'a crate that only one of crates.txt and docs/map.md has' "$work/unmapped"
grep -E '^\| csp[a-z_]* \|' docs/map.md | grep -vE '\]\([a-zA-Z_]+\.md(#[a-z-]+)?\) \|$' > "$work/unlinked"
complain 'a row of docs/map.md whose last cell has no link to a page' "$work/unlinked"
sed -nE 's/^### (csp[a-z_]*)$/\1/p' docs/proved.md > "$work/proved"
diff "$work/mapped" "$work/proved" > "$work/order"
complain 'docs/proved.md has not a section for each crate in the order of docs/map.md (< is the map)' "$work/order"

# Whether a word of a document is a file or folder, from the top or from where the documents name things from: the
# folder of the document, crates/, a crate, its src/ or its specs/.
is_there() {
  local from
  for from in '' "$2/" crates/ 'crates/*/' 'crates/*/src/' 'crates/*/specs/'; do
    compgen -G "$from$1" > /dev/null && return 0
  done
  return 1
}

# FILE WORD, for each word in backquotes with a slash or the ending of a file, and for each link to a file. What out/ has
# is made by a run, a word of digits is no path, and one in capitals stands for a name.
named() {
  local file
  for file in README.md docs/*.md scenarios/*.md; do
    { grep -o '`[^`]*`' "$file" | tr -d '`' | tr ' ' '\n'
      grep -oE '\]\([^):]*\)' "$file" | sed -E 's/^\]\(//; s/(#.*)?\)$//'; } \
      | grep -E '^\.?[A-Za-z_.*][A-Za-z0-9_.*/-]*$' | grep -E '[a-z]/|\.(md|sh|scn|report|antt|rt)$|^\./' \
      | grep -vE '(^|/)out(/|$)|NAME' | sort -u | sed "s|^|$file |"
  done
}

named | while read -r file word; do
  is_there "$word" "$(dirname "$file")" || echo "$file: $word"
done > "$work/lost"
complain 'files and folders that a document names, and that are not there' "$work/lost"

# The scenarios: each has a row of scenarios/README.md, and a report.
sed -nE 's/^\| `([a-z_]+)` \|.*/\1/p' scenarios/README.md | sort > "$work/listed"
for kind in scn report; do
  printf '%s\n' scenarios/*."$kind" | sed -E 's|.*/(.*)\..*|\1|' | sort | comm -3 "$work/listed" -
done > "$work/unlisted"
complain 'scenarios that only one of scenarios/README.md and the folder has, with their reports' "$work/unlisted"

# NAME VALUE, for each constant of a crate. A value may name other constants, so all of them are variables first.
constants() {
  sed -nE 's/^(pub )?const ([A-Z_]+): [a-z0-9]+ = ([^;]*);.*/\2 \3/p' "$@" \
    | sed -E 's/ as [a-z0-9]+//g; s/([0-9])_([0-9])/\1\2/g; s/([0-9])_([0-9])/\1\2/g'
}

while read -r name value; do
  [[ $value =~ ^[A-Z0-9_\ +*()-]+$ ]] && declare "$name=$value"
done < <(constants crates/*/src/*.rt)

# limit WHAT CRATE.NAME..: the numbers in the README's row of this name are the constants, in order.
limit() {
  local what=$1 wanted='' found one value
  shift
  for one in "$@"; do
    value=$(constants "crates/${one%.*}"/src/*.rt | sed -n "s/^${one#*.} //p" | head -n 1)
    wanted+="$((value)) "
  done
  found=$(sed -nE "s/^\| $what \| (.*) \|$/\1/p" README.md | tr -d ',' | grep -oE '[0-9]+' | tr '\n' ' ')
  [ "$found" = "$wanted" ] || echo "$what: $found in the README, and $wanted by the constants"
}

{
  limit 'nodes and bridges; links, hubs among them; nodes of a hub' csp_scene.MAX_NODES csp_scene.MAX_LINKS csp_log.LINK_ENDS
  limit 'applications of a node; steps and slots of each' csp_base.MAX_APPS csp_scene.MAX_STEPS csp_base.SLOTS
  limit 'buffers of a node, at most and at least' csp_base.MAX_BUFFERS csp_scene.MIN_BUFFERS
  limit 'bytes of a payload; sent on a connection; of a frame' csp_base.MAX_PAYLOAD csp_log.MAX_DATA csp_base.MAX_FRAME
  limit 'window of a reliable connection, in packets' csp_rdp_header.MAX_WINDOW
  limit 'faults; rounds; weight of all entries' csp_scene.MAX_FAULTS csp_scene.MAX_UNTIL csp_world.MAX_ENTRIES
  limit 'bytes of a scenario; of a line' csp_bench.MAX_SCENARIO csp_scene.MAX_LINE
} > "$work/limits"
complain 'limits of the README that are not the constants' "$work/limits"

# printed FILE FIRST: the lines that the README shows from the line FIRST on are lines of the file.
printed() {
  sed -n "/^    $2\$/,/^\$/p" README.md | sed -n 's/^    //p' > "$work/shown"
  [ -s "$work/shown" ] || echo "no line $2"
  grep -vxFf "$1" "$work/shown"
}

{ printed scenarios/mission.scn 'until 20000'; printed scenarios/mission.report 'csp-report 2'; } > "$work/printed"
complain 'lines that the README shows, and that the mission or its report has not' "$work/printed"

# The logic of the kit, by which a proof counts with any kit that has it.
if command -v rt > /dev/null; then
  logic=$(rt version | sed -n 's/.*logic \([0-9a-f]*\).*/\1/p')
  grep -q "logic $logic" README.md || echo "the kit has the logic $logic" > "$work/logic"
fi
touch "$work/logic"
complain 'the README names another logic' "$work/logic"

[ "$failed" -ne 0 ] || echo "documents: $(wc -l < "$work/cited") definitions that contracts cite, and all crates, are in them"
exit "$failed"
