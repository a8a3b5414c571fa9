#!/usr/bin/env bash
# wrong-bodies.sh [CRATE..]: has the prover try the wrong bodies of bench/wrong-bodies, which the gate leaves to a change of their
# crate; those of all crates that have such, where none is named.
# wrong-bodies.sh --changed [REV]: those of the crates whose src, specs or proofs differ from a revision (the last commit, where
# none is named), and of the crates above those whose src or specs differ. Files that aren't committed count.
# It works in a copy of the work tree, proves what `rt ci` hasn't proved on this machine, and ends with its line `N passed, 0 failed`.
set -eu
top=$(git rev-parse --show-toplevel)
cd "$top"

# of the crates named before `--`, and of those that stand on one that is named behind it, the ones with wrong bodies in bench/wrong-bodies
touched() {
    awk -v named=" $* " '
        BEGIN { at = index(named, " -- "); itself = substr(named, 1, at); below = substr(named, at + 3) }
        { split($0, parts, ":"); name = parts[1]; n = split(parts[2], on, " "); moved = index(below, " " name " ") > 0
          for (i = 1; i <= n; i++) if (on[i] in found) moved = 1
          if (moved) found[name] = 1
          if ((moved || index(itself, " " name " ")) && system("test -d bench/wrong-bodies/" name) == 0) print name }' crates.txt
}

if [ "${1:-}" = --changed ]; then
    rev=${2:-HEAD}
    files=$({ git diff --name-only "$rev"; git ls-files -o --exclude-standard; } | sort -u)
    crates_of() { printf '%s\n' "$files" | sed -nE "s#^crates/([a-z0-9_]+)/($1)/.*#\1#p" | sort -u | tr '\n' ' '; }
    # shellcheck disable=SC2046,SC2086
    set -- $(touched $(crates_of 'src|specs|proofs') -- $(crates_of 'src|specs'))
    [ $# -gt 0 ] || { echo 'no crate with wrong bodies has changed'; exit 0; }
fi
[ $# -gt 0 ] || set -- $(ls bench/wrong-bodies)

copy=$(mktemp -d)
trap 'rm -rf "$copy"' EXIT
git clone -q "$top" "$copy"
{ git diff --name-only HEAD; git ls-files -o --exclude-standard; } | while IFS= read -r file; do
    case $file in
    crates/* | crates.txt | bench/wrong-bodies/*)
        if [ -e "$file" ]; then mkdir -p "$copy/$(dirname "$file")"; cp "$file" "$copy/$file"; else rm -f "$copy/$file"; fi ;;
    esac
done
cd "$copy"
for crate; do
    mkdir -p "crates/$crate/must-fail"
    cp "bench/wrong-bodies/$crate/"*.edit "crates/$crate/must-fail/"
done
git add -A
git -c user.name=bench -c user.email=bench@localhost commit -q -m 'wrong bodies'
rt ci "$@"
