#!/bin/sh
# Every host test. HOST_LIB, if set, is the folder of libboundary.a, which is then
# set against the plain implementation. RECORDS, if set, is document 01's program,
# whose lines are then compared too. AMOUNT is how many records are compared.
set -eu
cd "$(dirname "$0")"

cmp ../samples/first.records ../crates/records/stdin
cmp ../samples/first.lines ../crates/records/stdout

cargo test --offline --release --quiet
cargo build --offline --release --quiet
make --silent
make --silent target/example "HOST_LIB=${HOST_LIB:-target/lean-boundary}"
target/example | cmp - example.out

bin=target/release
while read -r parameters; do
    # The parameters are words of their own.
    # shellcheck disable=SC2086
    $bin/streams $parameters >target/stream
    $bin/play lean <target/stream >target/lines
    target/lean-records <target/stream | cmp - target/lines
    if [ -n "${RECORDS:-}" ]; then
        "$RECORDS" <target/stream | cmp - target/lines
    fi
done <<END
--records 200000 --seed 1
--records 200000 --seed 2 --databases 4 --jobs 40 --left-over 1
--records 30000 --seed 3 --least-width 16 --greatest-width 16 --jobs 33 --left-over 2
--records 400000 --seed 4 --databases 3 --greatest-width 1 --jobs 3 --kept 2 --left-over 3
--records 0 --left-over 3
--records 0
END
echo "the programs print the same lines"

$bin/differential --records "${AMOUNT:-1000000}"
