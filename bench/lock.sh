#!/usr/bin/env bash
# Times 4 threads that add 250,000 numbers each to one list, under a FrontLock, under std's Mutex in the same program,
# and, where rustc is there, under the Mutex of Rust's std. Prints the least time of five runs of each, and fails where
# the FrontLock takes more than 3 times as long as std's Mutex.
set -euo pipefail
each=${1:-250000}
top=$(cd "$(dirname "$0")/.." && pwd)
. "$top/bench/timing.sh"
clock=%R
needs rt
[ -x "$top/crates/lock_bench/out/lock_bench" ] || (cd "$top/crates/lock_bench" && rt run <stdin >/dev/null 2>&1) || { echo "lock_bench does not run"; exit 1; }
program=$top/crates/lock_bench/out/lock_bench

# least COMMAND..: the least of five times, in milliseconds
least() {
    seconds 5 /dev/null "$@" | awk '{ printf "%d", $1 * 1000 }'
}

run() { echo "$1 $each" | "$program"; }

mutex=$(least run mutex)
lock=$(least run lock)
echo "std's Mutex: $mutex ms"
echo "FrontLock: $lock ms"
if command -v rustc >/dev/null; then
    cat >"$folder/mutex.rs" <<'END'
use std::sync::Mutex;

fn main() {
    let each: u64 = std::env::args().nth(1).unwrap().parse().unwrap();
    let list = Mutex::new(Vec::new());
    std::thread::scope(|scope| {
        for thread in 0..4 {
            let list = &list;
            scope.spawn(move || {
                for k in 0..each {
                    list.lock().unwrap().push(thread * each + k);
                }
            });
        }
    });
    println!("{}", list.into_inner().unwrap().len());
}
END
    rustc -O -o "$folder/mutex" "$folder/mutex.rs"
    echo "Rust's Mutex: $(least "$folder/mutex" "$each") ms"
else
    echo "Rust's Mutex: skipped, no rustc"
fi
[ "$lock" -le $((3 * (mutex + 1))) ] || { echo "slower than 3 times std's Mutex"; exit 1; }
