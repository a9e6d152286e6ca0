#!/bin/sh
# The programs at scale, outside the gate: 100,000 sheets and 100,000 lists of calls, held to the models, and the models to the Rust; and covers
# in 400,000 orders.
# usage: tools/oracle/at-scale.sh FOLDER [SEED]
# FOLDER holds the originals, as for build.sh.
set -eu
[ $# -ge 1 ] && [ -d "$1" ] || { echo 'usage: tools/oracle/at-scale.sh FOLDER [SEED]' >&2; exit 2; }
folder=$(cd "$1" && pwd)
cd "$(dirname "$0")/../.."
seed=${2:-1}
# each is proved and built here where it is missing or older than its sources
for name in statement replay; do
    tools/run "$name" </dev/null >/dev/null
done
tools/oracle/build.sh --no-rattle "$folder"
oracle=target/oracle/oracle-no-rattle
"$oracle" sheets-rust "$seed" 50
"$oracle" scripts-rust "$seed" 100
"$oracle" sheets-check "$seed" 50 crates/statement/out/statement
"$oracle" scripts-check "$seed" 100 crates/replay/out/replay
"$oracle" orders-check "$seed" 100 crates/replay/out/replay
