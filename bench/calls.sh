#!/bin/sh
# Counts the calls of the system that one more send costs, by the file that they are made on.
#
# usage: bench/calls.sh [-n SENDS] [FOLDER]
#
# Two sites are made in new folders under FOLDER (a new temporary folder, where none is given), and a drill of 100 sends
# runs over the one, and of 100 and SENDS more over the other, both under strace. A line is printed for each call and
# file of which the second made more: how many more, for each of the SENDS. What opening the site costs isn't in it.
#
# The status is 0 where a send costs two writes and two syncs of the journal, one write of its reply, and nothing more
# but reads of the input and memory, and where opening has synced each file and the folder; 1 where it isn't so; and 2
# where it couldn't be counted.
set -u
top=$(cd "$(dirname -- "$0")/.." && pwd) || exit 2
sends=1000

usage() {
    echo "usage: bench/calls.sh [-n SENDS] [FOLDER]" >&2
    exit 2
}

while getopts n: option; do
    case $option in
    n) sends=$OPTARG ;;
    *) usage ;;
    esac
done
shift $((OPTIND - 1))
[ "$#" -le 1 ] || usage
command -v strace >/dev/null || { echo "calls: there is no strace" >&2; exit 2; }

if [ "$#" -eq 1 ]; then
    work=$1
else
    work=$(mktemp -d) || exit 2
fi
[ -d "$work" ] || { echo "calls: no folder $work" >&2; exit 2; }

# The calls of a drill of so many sends over a new site: how often, which, and on which file.
count_calls() {
    site=$work/counted
    rm -rf "$site"
    mkdir "$site" && "$top/qcd" "$site" init <"$top/examples/orders.toml" || return 2
    yes '{"at":0,"do":"send","app":"Orders","component":"Order","calls":[["Place","bolt",4]]}' |
        head -n "$1" >"$work/lines"
    strace -f -y -o "$work/trace" "$top/crates/qcd/out/qcd" "$site" drill <"$work/lines" >"$work/replies" || return 2
    [ "$(grep -c '^sent ' "$work/replies")" -eq "$1" ] || return 2
    sed -n 's/^[0-9]* *\([a-z0-9_]*\)(\(.*\)$/\1 \2/p' "$work/trace" |
        awk '{
                file = "-"
                if (match($0, /<[^>]*>/)) { file = substr($0, RSTART + 1, RLENGTH - 2); sub(/.*\//, "", file) }
                count[$1 " " file]++
            }
            END { for (call in count) print count[call], call }'
    rm -rf "$site" "$work/lines" "$work/trace" "$work/replies"
}

few=$(count_calls 100) || { echo "calls: no drill could be counted" >&2; exit 2; }
many=$(count_calls $((sends + 100))) || { echo "calls: no drill could be counted" >&2; exit 2; }
printf '%s\n--\n%s\n' "$few" "$many" | awk -v sends="$sends" '
    BEGIN {
        wanted["pwrite64 journal"] = wanted["fdatasync journal"] = 2
        wanted["write replies"] = 1
        # What input and memory cost, by chunks.
        free["read lines"] = free["brk -"] = free["mmap -"] = free["munmap -"] = free["mremap -"] = 1
        split("journal crmlog snap", files)
        for (at in files) opening["fsync " files[at]] = opening["fadvise64 " files[at]] = 1
        opening["fsync counted"] = 1
    }
    $1 == "--" { second = 1; next }
    !second { few[$2 " " $3] = $1; next }
    { many[$2 " " $3] = $1 }
    END {
        for (call in opening) if (!few[call]) { print "opening lacks " call; bad = 1 }
        for (call in few) if (!(call in many)) many[call] = 0
        for (call in many) {
            more = (many[call] - few[call]) / sends
            if (more == 0) continue
            printf "%.3f %s\n", more, call
            if (!(call in free) && more != wanted[call]) bad = 1
        }
        for (call in wanted) if ((many[call] - few[call]) / sends != wanted[call]) bad = 1
        exit bad
    }'
status=$?
[ "$#" -eq 1 ] || rmdir "$work"
exit "$status"
