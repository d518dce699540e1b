#!/bin/sh
# Kills a drill of many sends at random moments, and looks whether what was acknowledged is there.
#
# usage: bench/kills.sh [-r ROUNDS] [-n SENDS] [-s SEED] [FOLDER]
#
# Each round makes a site in a new folder under FOLDER (a new temporary folder, where none is given), starts
# `./qcd SITE drill` on SENDS sends, waits until a random share of the replies was written, and kills it with signal 9
# (which keeps what the system has in its memory: a power cut is another matter).
# The next drill has to open the site with status 0. Its listing has to have each message whose whole reply line was
# written, each id once, and no message past the one that was being sent. A line is printed for each round.
#
# The status is 0 where all rounds went so, 1 where one did not (its folder is kept), and 2 where a round could not be
# made.
set -u
top=$(cd "$(dirname -- "$0")/.." && pwd) || exit 2
rounds=20
sends=10000
seed=$(date +%s)

usage() {
    echo "usage: bench/kills.sh [-r ROUNDS] [-n SENDS] [-s SEED] [FOLDER]" >&2
    exit 2
}

while getopts r:n:s: option; do
    case $option in
    r) rounds=$OPTARG ;;
    n) sends=$OPTARG ;;
    s) seed=$OPTARG ;;
    *) usage ;;
    esac
done
shift $((OPTIND - 1))
[ "$#" -le 1 ] || usage

if [ "$#" -eq 1 ]; then
    work=$1
else
    work=$(mktemp -d) || exit 2
fi
[ -d "$work" ] || { echo "kills: no folder $work" >&2; exit 2; }
lines=$work/lines
drill=
trap '[ -z "$drill" ] || kill -9 "$drill" 2>/dev/null' EXIT
trap 'exit 2' HUP INT TERM

# Whole numbers from 1 to N - 1, one a round.
random_numbers() {
    awk -v seed="$seed" -v rounds="$rounds" -v n="$sends" \
        'BEGIN { srand(seed); for (i = 0; i < rounds; i++) print 1 + int(rand() * (n - 1)) }'
}

# The ids of the listing of the only application, one a line: `ID/TRIES/DUE` in a queue, `ID` in the dead queue.
listed_ids() {
    sed 's/; consumed .*//' | tr ';,' '[\n*]' | sed 's/^ *//' |
        awk '{ id = $NF; sub(/\/.*/, "", id); if (id ~ /^[0-9]+$/) print id }'
}

# Says why the listing of a killed drill is wrong, or nothing. Awk reads the replies first and then the listed ids.
fault_of() {
    awk '
        FILENAME == ARGV[1] {
            count++
            if ($1 != "sent" || $2 != count) { print "reply " count " is: " $0; bad = 1; exit }
            next
        }
        listed[$1]++ { print "message " $1 " is listed twice"; bad = 1; exit }
        $1 > count + 1 { print "message " $1 " is listed, and " count " were acknowledged"; bad = 1; exit }
        END {
            if (bad) exit
            for (id = 1; id <= count; id++)
                if (!(id in listed)) { print "message " id " was acknowledged and is lost"; exit }
        }' "$1" "$2"
}

# Waits until there are so many replies. The status is 1 where the drill has ended before.
await_replies() {
    while [ "$(wc -l <"$1")" -lt "$2" ]; do
        kill -0 "$drill" 2>/dev/null || return 1
        sleep 0.005
    done
}

kill_once() {
    site=$work/site.$1
    mkdir "$site" || return 2
    "$top/qcd" "$site" init <"$top/examples/orders.toml" || return 2
    : >"$site/replies.part"
    "$top/qcd" "$site" drill <"$lines" >"$site/replies.part" &
    drill=$!
    await_replies "$site/replies.part" "$2" && kill -9 "$drill" 2>/dev/null
    wait "$drill" 2>/dev/null
    status=$?
    drill=
    if [ "$status" -ne 137 ]; then
        echo "the drill ended with status $status before it was killed"
        return 1
    fi
    # Only a line with its newline was read as a reply.
    head -n "$(wc -l <"$site/replies.part")" "$site/replies.part" >"$site/replies"
    echo '{"at":0,"do":"queues","app":"Orders"}' | "$top/qcd" "$site" drill >"$site/listing"
    status=$?
    if [ "$status" -ne 0 ]; then
        echo "the drill after the kill ended with status $status"
        return 1
    fi
    listed_ids <"$site/listing" >"$site/ids"
    fault=$(fault_of "$site/replies" "$site/ids")
    if [ -n "$fault" ]; then
        echo "$fault"
        return 1
    fi
    echo "acknowledged $(wc -l <"$site/replies"), listed $(wc -l <"$site/ids")"
    rm -rf "$site"
}

yes '{"at":0,"do":"send","app":"Orders","component":"Order","calls":[["Place","bolt",4]]}' | head -n "$sends" >"$lines"
echo "kills: $rounds rounds of $sends sends in $work, seed $seed"
round=0
bad=0
for replies in $(random_numbers); do
    round=$((round + 1))
    # The round is no subshell, since its process has to be known here.
    kill_once "$round" "$replies" >"$work/said"
    result=$?
    echo "round $round, killed behind $replies replies: $(cat "$work/said")"
    [ "$result" -ne 2 ] || exit 2
    [ "$result" -eq 0 ] || bad=1
done
rm -f "$work/said" "$lines"
[ "$#" -eq 1 ] || [ "$bad" -ne 0 ] || rmdir "$work"
exit "$bad"
