#!/usr/bin/env bash
# Writes wrong-bodies.md, the list of the wrong bodies that the gate tries, from crates/*/must-fail/*.edit.
# With --check it writes nothing, and ends with status 1 where the page is not what it would write.
# An edit may carry the line '# refused by: CLAUSE', written by whoever tried it.
set -euo pipefail
export LC_ALL=C
cd "$(dirname "$0")/.."

# One row for an edit: what it does, its file, the function that it stands in, and the clause that refuses it.
row() {
  awk -v edit="$1" -v crate="$(dirname "$(dirname "$1")")" '
    function name_of(path) {
      sub(/.*\//, "", path); sub(/\.edit$/, "", path); gsub(/_/, " ", path)
      return path
    }
    # The item of a line of code that the line begins, with its kind taken off; empty where it begins none.
    function item_of(line) {
      if (match(line, /(^|[ \t])fn [A-Za-z0-9_]+/)) {
        line = substr(line, RSTART, RLENGTH); sub(/.*fn /, "", line)
        return line
      }
      if (match(line, /^[ \t]*(pub(\([a-z]+\))? )?(const|static) [A-Z0-9_]+:/)) {
        line = substr(line, RSTART, RLENGTH - 1); sub(/.* /, "", line)
        return line
      }
      return ""
    }
    # The definition that a line of a specification begins.
    function definition_of(line) {
      sub(/^[ \t]*/, "", line)
      while (line ~ /^(pub|abbrev|record|data) /) sub(/^[a-z]+ +/, "", line)
      if (match(line, /^[^ (){}]+ .*:/)) { sub(/ .*/, "", line); return line }
      return ""
    }
    # The type of an impl block.
    function type_of(line) {
      sub(/ *\{? *$/, "", line)
      if (line ~ / for /) sub(/.* for /, "", line); else { sub(/^impl(<[^>]*>)? */, "", line) }
      sub(/<.*/, "", line); sub(/ where .*/, "", line)
      return line
    }
    # The name of what the text stands in, found by looking upward from it.
    function home_of(file, text,    n, at, i, lines, found, line) {
      n = 0
      while ((getline line < file) > 0) lines[++n] = line
      close(file)
      for (at = 1; at <= n; at++) if (index(lines[at], text)) break
      if (at > n) return ""
      for (i = at; i >= 1; i--) {
        found = file ~ /\.rt$/ ? item_of(lines[i]) : definition_of(lines[i])
        if (found != "") break
      }
      if (found == "") return ""
      if (file ~ /\.rt$/) {
        for (; i >= 1 && lines[i] !~ /^\}/; i--)
          if (lines[i] ~ /^impl/) return type_of(lines[i]) "::" found
      }
      return found
    }
    { sub(/\r$/, "") }
    /^file: / { path = substr($0, 7); sub(/ +$/, "", path); if (!(path in seen)) { seen[path] = 1; files = files (files == "" ? "" : ", ") "`" path "`" } }
    /^old: / {
      home = home_of(crate "/" path, substr($0, 6))
      if (home != "" && !(home in stands)) { stands[home] = 1; homes = homes (homes == "" ? "" : ", ") "`" home "`" }
    }
    /^(# )?refused by: / { clause = $0; sub(/^(# )?refused by: */, "", clause); gsub(/\|/, "\\|", clause) }
    END { printf "| %s | %s | %s | %s |\n", name_of(edit), files, homes, clause }
  ' "$1"
}

page() {
  cat <<'END'
# Wrong bodies

Each line is a change of the code that the check refuses, and that the gate tries: what the program would do, where the change
stands, and the clause that refuses it. Where the last column is empty, the clause has not been written down.
`docs/wrong-bodies.sh` writes this page from the files in `crates/*/must-fail/`.
END
  local crate edit
  sed -n 's/^\([a-z0-9_]*\)\( staticlib\)\{0,1\}:.*/\1/p' crates.txt | while read -r crate; do
    compgen -G "crates/$crate/must-fail/*.edit" >/dev/null || continue
    printf '\n## %s\n\n| Wrong body | File | Stands in | Refused by |\n|---|---|---|---|\n' "$crate"
    for edit in "crates/$crate/must-fail/"*.edit; do
      row "$edit"
    done
  done
}

case "${1-}" in
  "") page >docs/wrong-bodies.md ;;
  --check)
    if ! page | cmp -s - docs/wrong-bodies.md; then
      echo "docs/wrong-bodies.md is not what docs/wrong-bodies.sh writes: run it" >&2
      exit 1
    fi
    ;;
  *)
    echo "usage: docs/wrong-bodies.sh [--check]" >&2
    exit 2
    ;;
esac
