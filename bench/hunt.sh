#!/usr/bin/env bash
# Seeds a second of hunts that find nothing, by 1, 2 and 4 workers, the least time of three: bench/hunt.sh [PROGRAM [SEEDS]]
set -eu
cd "$(dirname "${BASH_SOURCE[0]}")/.."
program=${1:-./warp}
seeds=${2:-6000}
for load in "broken-lock.ioa got(7,false)" "lcr.ioa leader(3)" "peterson.ioa crit(7)"; do
    source=${load%% *}
    action=${load#* }
    for workers in 1 2 4; do
        least=
        for _ in 1 2 3; do
            start=$(date +%s%N)
            "$program" hunt "examples/$source" "$action" --seeds "1..$seeds" --workers "$workers" >/dev/null || [ $? -eq 4 ]
            time=$((($(date +%s%N) - start) / 1000))
            if [ -z "$least" ] || [ "$time" -lt "$least" ]; then least=$time; fi
        done
        echo "$source $action by $workers: $((seeds * 1000000 / least)) seeds a second"
    done
done
