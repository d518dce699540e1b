#!/bin/sh
# Times the opening of a folder by the number of its messages, and takes its memory.
#
# usage: bench/opening.sh [-r ROUNDS] [FOLDER [MESSAGES ..]]
#
# For each number of messages (1,000, 10,000 and 100,000, where none is given) a site is made in a new folder under
# FOLDER (a new temporary folder, where none is given), and so many messages are sent. Then a drill without lines opens
# it ROUNDS times. A line is printed for each number: the length of the journal, the median of the time and of the
# processor time, and the most memory that a drill held. Each send syncs twice, so take a FOLDER in memory where the
# messages alone are wanted: `/dev/shm`.
#
# The status is 0, or 2 where a site couldn't be made or opened. The drills are timed by python3. How the time grows is
# for the reader to see: nothing is compared.
set -u
top=$(cd "$(dirname -- "$0")/.." && pwd) || exit 2
rounds=5

usage() {
    echo "usage: bench/opening.sh [-r ROUNDS] [FOLDER [MESSAGES ..]]" >&2
    exit 2
}

while getopts r: option; do
    case $option in
    r) rounds=$OPTARG ;;
    *) usage ;;
    esac
done
shift $((OPTIND - 1))
command -v python3 >/dev/null || { echo "opening: there is no python3" >&2; exit 2; }

made=
if [ "$#" -ge 1 ]; then
    work=$1
    shift
else
    work=$(mktemp -d) || exit 2
    made=1
fi
[ -d "$work" ] || { echo "opening: no folder $work" >&2; exit 2; }
[ "$#" -ge 1 ] || set -- 1000 10000 100000
site=$work/opened

# The program itself, which a drill of ./qcd has built by now.
time_opening() {
    python3 - "$top/crates/qcd/out/qcd" "$site" "$rounds" <<'PYTHON'
import os, statistics, subprocess, sys, time
program, site, rounds = sys.argv[1], sys.argv[2], int(sys.argv[3])
times, processor, memory = [], [], []
for _ in range(rounds):
    began = time.monotonic()
    drill = subprocess.Popen([program, site, "drill"], stdin=subprocess.DEVNULL)
    _, status, usage = os.wait4(drill.pid, 0)
    times.append(time.monotonic() - began)
    if status != 0:
        sys.exit(f"opening: a drill ended with status {status}")
    processor.append(usage.ru_utime + usage.ru_stime)
    memory.append(usage.ru_maxrss)
print(f"{statistics.median(times):.3f} s, {statistics.median(processor):.3f} s of processor time, "
      f"{max(memory) / 1024:.1f} MB")
PYTHON
}

for messages in "$@"; do
    rm -rf "$site"
    mkdir "$site" && "$top/qcd" "$site" init <"$top/examples/orders.toml" || exit 2
    yes '{"at":0,"do":"send","app":"Orders","component":"Order","calls":[["Place","bolt",4]]}' | head -n "$messages" |
        "$top/qcd" "$site" drill >"$work/replies" || exit 2
    [ "$(grep -c '^sent ' "$work/replies")" -eq "$messages" ] || { echo "opening: not each line was sent" >&2; exit 2; }
    took=$(time_opening) || exit 2
    echo "$messages messages, $(wc -c <"$site/journal") bytes of journal: $took"
done
rm -rf "$site" "$work/replies"
[ -z "$made" ] || rmdir "$work"
