#!/usr/bin/env bash
# Edits that the checker must refuse before any proof, as a token that is copied or let go. Each file of
# must-not-compile/ names a crate, a file of it, a text that stands there once, what replaces it, and the
# name of the error that has to come. Nothing is written outside a scratch copy. It gives way to all else that runs.
#   checks/must-not-compile.sh [NAME..]
set -u
renice -n 19 $$ >/dev/null
here=$(cd "$(dirname "$0")" && pwd)
top=$(dirname "$here")
scratch=$(mktemp -d)
trap 'rm -rf "$scratch"' EXIT
cp "$top/crates.txt" "$top/HANDLES" "$scratch/"
mkdir "$scratch/crates"
tar -C "$top/crates" --exclude=out -cf - . | tar -C "$scratch/crates" -xf -

field() { sed -n "s/^$1: //p" "$2"; }

# Puts the new text in the place of the old one, which has to stand in the file once.
edited() {
    OLD=$(field old "$1") NEW=$(field new "$1") python3 - "$2" <<'PYTHON'
import os, sys
path = sys.argv[1]
text = open(path, encoding="utf-8").read()
old, new = os.environ["OLD"], os.environ["NEW"]
if not old or text.count(old) != 1:
    sys.exit(f"the old text stands {text.count(old)} times in {path}")
open(path, "w", encoding="utf-8").write(text.replace(old, new))
PYTHON
}

passed=0
failed=0
for edit in "$here"/must-not-compile/*.edit; do
    name=$(basename "$edit" .edit)
    if [ $# -gt 0 ] && [[ " $* " != *" $name "* ]]; then continue; fi
    crate=$(field crate "$edit") file=$(field file "$edit") error=$(field error "$edit")
    path="$scratch/crates/$crate/$file"
    cp "$path" "$scratch/kept"
    if [ -z "$error" ]; then
        answer="names no error"
    elif ! edited "$edit" "$path"; then
        answer="does not apply"
    elif (cd "$scratch/crates/$crate" && rt check) >"$scratch/log" 2>&1; then
        answer="was accepted"
    elif ! grep -qF "error[$error]" "$scratch/log"; then
        answer="was refused, but not by $error: $(grep -m1 'error' "$scratch/log")"
    else
        answer=
    fi
    cp "$scratch/kept" "$path"
    if [ -z "$answer" ]; then
        passed=$((passed + 1))
        echo "$name: refused by $error"
    else
        failed=$((failed + 1))
        echo "$name: $answer"
    fi
done
echo "$passed passed, $failed failed"
[ "$failed" -eq 0 ] && [ "$passed" -gt 0 ]
