#!/usr/bin/env bash
# Tests a packager's output in continuous integration: whether its MPD and its multivariant playlist (master) say the same (`check`),
# whether the MPD has the decode times of the media files (`agree`), and whether each version of each live playlist is a valid update
# (`reload`). The versions are files that were fetched: <versions> has a directory for each playlist, in which names sort by time. The
# directory <reports> gets log.txt, with a line for each step and what a reviewer needs if one failed, and junit.xml. The status is 0 if
# each step passed, 1 if one didn't, 2 on a system error. In the directory served at the base URL, with all of these below it:
#   verify.sh <base> <mpd> <master> <reports> [<versions>]
set -euo pipefail
base=$1 mpd=$2 master=$3 reports=$4 versions=${5:-}
mkdir -p "$reports"
: > "$reports/log.txt"
: > "$reports/cases"
steps=0 failed=0 worst=0

escaped() { sed 's/&/\&amp;/g; s/</\&lt;/g; s/>/\&gt;/g; s/"/\&quot;/g' | tr -d '\000-\010\013-\037'; }

# What a reviewer needs: the bytes at the error, the lines in which two versions differ, or what both manifests have.
look() {
    local command=$1 line=$2
    shift 2
    if [[ $line =~ ^refused\ ([^ ]+)\ .*\ at\ ([0-9]+) ]]; then
        echo "${BASH_REMATCH[1]} from byte ${BASH_REMATCH[2]} on:"
        tail -c "+$((BASH_REMATCH[2] + 1))" "${BASH_REMATCH[1]}" | head -c 160
        echo
    elif [ "$command" = reload ]; then
        diff -U 1 "$@" || true
    else
        for file; do bridge show "$file" --base="$base" || true; done
    fi
}

step() {
    local command=$1 line status=0 more=
    line=$(bridge "$@" --base="$base") || status=$?
    steps=$((steps + 1))
    printf '%s\t%s\t%s\n' "$status" "$*" "$line" | tee -a "$reports/log.txt"
    if [ "$status" != 0 ]; then
        failed=$((failed + 1))
        case $status in 1 | 6) [ "$worst" = 2 ] || worst=1 ;; *) worst=2 ;; esac
        more=$(look "$command" "$line" "${@:2}")
        printf '%s\n' "$more" | sed 's/^/    /' >> "$reports/log.txt"
        more="<failure message=\"$(escaped <<< "$line")\">$(escaped <<< "$more")</failure>"
    fi
    printf '<testcase classname="%s" name="%s">%s</testcase>\n' "$command" "$(escaped <<< "$*")" "$more" >> "$reports/cases"
}

step check "$mpd" "$master"
step agree "$mpd"
for playlist in ${versions:+"$versions"/*/}; do
    former=
    for version in "$playlist"*; do
        [ -z "$former" ] || step reload "$former" "$version"
        former=$version
    done
done
{
    echo "<testsuite name=\"manifests\" tests=\"$steps\" failures=\"$failed\">"
    cat "$reports/cases"
    echo '</testsuite>'
} > "$reports/junit.xml"
rm "$reports/cases"
echo "$steps steps, $failed failed"
exit "$worst"
