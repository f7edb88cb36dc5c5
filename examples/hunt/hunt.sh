#!/bin/sh
# Hunts the fault of queue.c, from the top of the repository:
#
#   examples/hunt/hunt.sh              records runs by threads until one comes to a wrong sum
#   examples/hunt/hunt.sh --kept       takes the run that is kept here
#   examples/hunt/hunt.sh --count N    records N runs, and counts the wrong ones
#
# With the wrong run it then loses a piece of the log, finds it again, replays the run, and views the write by which an item was
# lost. WREPLAY names the program.
set -eu

wreplay=${WREPLAY:-crates/wreplay/out/wreplay}
here=examples/hunt
module=$here/queue.wasm
plan=$here/queue.plan
right=303
folder=$(mktemp -d)
trap 'rm -rf "$folder"' EXIT

# Records a run. What the third thread answers, by the listing of the run, is its sum.
record_run() {
    "$wreplay" record $module $plan --threads --size 16 > "$folder/night.pieces"
    "$wreplay" gather < "$folder/night.pieces" > "$folder/listing"
    sum=$(sed -n 's/^2 end steps=[0-9]* places=[0-9]* i32 //p' "$folder/listing")
}

# Records until a sum is wrong.
record_until_wrong() {
    "$wreplay" hunt $module $plan --threads --runs 1000000000 --unless "thread 2 i32 $right" --size 16 \
        > "$folder/night.pieces" 2> "$folder/caught"
    "$wreplay" replay $module $plan "$folder/night.pieces" > "$folder/report"
    echo "$(cat "$folder/caught"): $(tail -n 1 "$folder/report"), and $right is right"
}

# Records so many runs, and counts the wrong sums.
count_wrong() {
    runs=0
    wrong=0
    while [ $runs -lt "$1" ]; do
        runs=$((runs + 1))
        record_run
        [ "$sum" = $right ] || wrong=$((wrong + 1))
    done
    echo "of $runs runs $wrong came to a wrong sum"
}

# Keeps each second line of the log on one machine, the others on another.
keep() {
    awk 'NR % 2 == 1' "$folder/night.pieces" > "$folder/east.pieces"
    awk 'NR % 2 == 0' "$folder/night.pieces" > "$folder/west.pieces"
}

# Says how a command ended that may be refused.
tell() {
    "$@" || echo "exit $?"
}

# Where a place of the queue, objects 39 to 77, was written a second time.
second_write() {
    sed -En 's/^([0-9.]+) access w(39|[4-6][0-9]|7[0-7])@1\/.*/\1 \2/p' "$folder/listing" | head -n 1
}

# Shows what stands in the place of the queue where a break holds.
view_place() {
    "$wreplay" view $module $plan "$folder/come.pieces" "$@" --from "$from" --len 16 --names
}

case ${1-} in
    --count)
        count_wrong "$2"
        exit
        ;;
    --kept)
        cp $here/east.pieces $here/west.pieces "$folder"
        ;;
    *)
        record_until_wrong
        keep
        ;;
esac

echo "== the second piece of the second machine is lost on its way"
(cat "$folder/east.pieces"; sed 2d "$folder/west.pieces") > "$folder/come.pieces"
"$wreplay" gather < "$folder/come.pieces" | tail -n 1
tell "$wreplay" replay $module $plan "$folder/come.pieces" 2>&1

echo "== the second machine sends all that it has once more"
cat "$folder/west.pieces" >> "$folder/come.pieces"
"$wreplay" gather < "$folder/come.pieces" > "$folder/listing"
tail -n 1 "$folder/listing"
"$wreplay" replay $module $plan "$folder/come.pieces" > "$folder/report"
grep thread "$folder/report"

echo "== the write by which an item was lost"
second_write > "$folder/second"
if ! read -r event object < "$folder/second"; then
    echo "no place was written twice: the length of the queue was set back"
    exit
fi
from=$(((object - 1) / 2 * 64))
grep "^$event " "$folder/listing"
echo "== behind the first write of that place in the queue"
view_place --write "$from+8"
echo "== behind the second"
view_place --place "${event%.*}.$((${event#*.} + 1))"
