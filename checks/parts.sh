# What `.ci/run` runs its parts by: one alone (`part`), or beside the others as soon as fewer are at work than there are processors
# (`begin`, then `end_all`); what each wrote is shown, and the numbers of its last line are added. `measure` and `tell` make the page.
set -u
passed=0
failed=0
begun=0
room=$(mktemp -d)
trap 'rm -rf "$room"' EXIT
processors=$(nproc)
rows=()
names=()
took=0
unit=0

# Puts into `took` the seconds of a processor that the children of this shell took so far.
take() {
  times >"$room/times"
  took=$(tail -n 1 "$room/times" | tr 'ms' '  ' | awk '{ print int($1 * 60 + $2 + $3 * 60 + $4) }')
}

# Makes the verdict of a small crate the unit of what all takes, since a minute of a processor differs by machine.
measure() {
  (cd crates/sk_record && rt verdict) >"$room/verdict" 2>&1 || { cat "$room/verdict"; failed=$((failed + 1)); }
  take
  unit=$took
}

# What a part is called: its command, with the word behind it where that is no path.
named() {
  case ${2-} in
    '' | */* | build) echo "$1" ;;
    *) echo "$1 $2" ;;
  esac
}

# Begins a part beside the others.
begin() {
  begun=$((begun + 1))
  while [ "$(jobs -rp | wc -l)" -ge "$processors" ]; do wait -n; done
  { "$@" >"$room/$begun" 2>&1; echo "$?" >"$room/$begun.status"; } &
  names[begun]=$(named "$@")
}

# Waits for the parts that were begun, and shows and adds them in their order.
end_all() {
  local at
  wait
  for ((at = 1; at <= begun; at++)); do
    cat "$room/$at"
    add "${names[at]}" "$room/$at" "$(cat "$room/$at.status")"
  done
  begun=0
}

# Runs one part alone, and shows what it writes as it comes.
part() {
  "$@" 2>&1 | tee "$room/alone"
  add "$(named "$@")" "$room/alone" "${PIPESTATUS[0]}"
}

# Adds the numbers of the last line that a part wrote.
add() {
  local name=$1 written=$2 status=$3 last had=$passed lacked=$failed
  last=$(tail -n 1 "$written" | sed -nE 's/^(.*[^0-9])?([0-9]+) passed, ([0-9]+) failed$/\2 \3/p')
  if [ -n "$last" ]; then
    passed=$((passed + ${last% *}))
    failed=$((failed + ${last#* }))
    [ "$status" = 0 ] || [ "${last#* }" != 0 ] || failed=$((failed + 1))
  else
    echo "$name ended without its line of numbers"
    failed=$((failed + 1))
  fi
  rows+=("| $name | $((passed - had)) | $((failed - lacked)) | $SECONDS |")
}

# Writes what passed and what it took, where $1 is what the proofs wrote.
tell() {
  take
  mkdir -p build
  {
    printf '# What the whole test took and said\n\n| | |\n|---|---|\n'
    printf '| date, commit | %s, %s |\n| kit | %s |\n' "$(date -u +%F)" "$(git rev-parse --short HEAD)" "$(rt version)"
    printf '| processors; seconds of wall | %s; %s |\n' "$processors" "$SECONDS"
    printf '| seconds of a processor; of the verdict of sk_record alone; by that | %s; %s; %s |\n' "$took" "$unit" "$((took / (unit > 0 ? unit : 1)))"
    printf '| the proofs | %s |\n\n' "$(grep '^rt: ok' "$1" | tail -n 1)"
    printf '| part | passed | failed | ended at second |\n|---|---|---|---|\n'
    printf '%s\n' "${rows[@]}"
  } >build/GATE.md
}
