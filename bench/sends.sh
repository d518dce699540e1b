#!/bin/sh
# Times durable sends beside appends of the same bytes.
#
# usage: bench/sends.sh [-n SENDS] [-r ROUNDS] [FOLDER]
#
# Each round makes a site in a new folder under FOLDER (a new temporary folder, where none is given), and times one
# `./qcd SITE drill` of SENDS sends. Beside it the bytes that this drill added to the journal are appended to a file in
# the same folder, in SENDS pieces with one fdatasync behind each. The time of a drill without lines, which opens the
# site that was made, is printed too and not taken off. The last lines have the median of each, and the ratio. A send
# makes two syncs, so 2 is what the disk alone would give. Take a FOLDER on the disk that counts: where the temporary
# folder is in memory, a sync costs nothing.
#
# The status is 0, or 2 where a round couldn't be made. The appends are timed by python3.
set -u
top=$(cd "$(dirname -- "$0")/.." && pwd) || exit 2
sends=2000
rounds=5

usage() {
    echo "usage: bench/sends.sh [-n SENDS] [-r ROUNDS] [FOLDER]" >&2
    exit 2
}

while getopts n:r: option; do
    case $option in
    n) sends=$OPTARG ;;
    r) rounds=$OPTARG ;;
    *) usage ;;
    esac
done
shift $((OPTIND - 1))
[ "$#" -le 1 ] || usage
command -v python3 >/dev/null || { echo "sends: there is no python3" >&2; exit 2; }

if [ "$#" -eq 1 ]; then
    work=$1
else
    work=$(mktemp -d) || exit 2
fi
[ -d "$work" ] || { echo "sends: no folder $work" >&2; exit 2; }
site=$work/site
lines=$work/lines
# The program itself, which the first `init` of ./qcd has built.
program=$top/crates/qcd/out/qcd

# The seconds that a drill on these lines takes.
drill_seconds() {
    began=$(date +%s.%N)
    "$program" "$site" drill <"$1" >"$work/replies" || return 1
    ended=$(date +%s.%N)
    awk -v began="$began" -v ended="$ended" 'BEGIN { printf "%.3f\n", ended - began }'
}

# The seconds that the appends of the journal's last bytes take, from where it ended when it was made.
append_seconds() {
    python3 - "$site/journal" "$1" "$sends" "$work/appended" <<'PYTHON'
import os, sys, time
journal, made, count, path = sys.argv[1], int(sys.argv[2]), int(sys.argv[3]), sys.argv[4]
with open(journal, "rb") as file:
    added = file.read()[made:]
size, left = divmod(len(added), count)
if size == 0 or left != 0:
    sys.exit(f"sends: {len(added)} bytes were added, which are not {count} groups of one size")
pieces = [added[at * size:(at + 1) * size] for at in range(count)]
file = os.open(path, os.O_WRONLY | os.O_CREAT | os.O_TRUNC | os.O_APPEND)
began = time.monotonic()
for piece in pieces:
    if os.write(file, piece) != len(piece):
        sys.exit("sends: an append was cut short")
    os.fdatasync(file)
print(f"{time.monotonic() - began:.3f}")
PYTHON
}

median() {
    sort -n "$1" | awk '{ at[NR] = $1 } END { print at[int((NR + 1) / 2)] }'
}

yes '{"at":0,"do":"send","app":"Orders","component":"Order","calls":[["Place","bolt",4]]}' | head -n "$sends" >"$lines"
: >"$work/drills" && : >"$work/appends" || exit 2
echo "sends: $rounds rounds of $sends sends in $work"
round=0
while [ "$round" -lt "$rounds" ]; do
    round=$((round + 1))
    rm -rf "$site" && mkdir "$site" || exit 2
    "$top/qcd" "$site" init <"$top/examples/orders.toml" || exit 2
    empty=$(drill_seconds /dev/null) || exit 2
    made=$(wc -c <"$site/journal") || exit 2
    drill=$(drill_seconds "$lines") || exit 2
    [ "$(grep -c '^sent ' "$work/replies")" -eq "$sends" ] || { echo "sends: not each line was sent" >&2; exit 2; }
    append=$(append_seconds "$made") || exit 2
    echo "$drill" >>"$work/drills"
    echo "$append" >>"$work/appends"
    echo "round $round: drill $drill s, appends $append s, a drill without lines $empty s"
done
awk -v drill="$(median "$work/drills")" -v append="$(median "$work/appends")" -v n="$sends" \
    'BEGIN { printf "median: drill %s s, appends %s s, ratio %.2f, %.0f sends a second\n",
        drill, append, drill / append, n / drill }'
rm -rf "$site" "$lines" "$work/replies" "$work/appended" "$work/drills" "$work/appends"
[ "$#" -eq 1 ] || rmdir "$work" || exit 2
