#!/bin/sh
# Times how the program reads a table of 1,000,000 rows and 6 columns, against a plain split of the same bytes.
# Prints the seconds of both, their ratio, and the peak memory of the program for each byte of the file.
# The program is `anyk` at the top of the repository, or what ANYK names. Needs rustc, awk and GNU time.
set -eu

here=$(cd "$(dirname "$0")" && pwd)
anyk=${ANYK:-$(dirname "$here")/anyk}
work=$(mktemp -d)
trap 'rm -rf "$work"' EXIT
cd "$work"

# Five columns of 10,001 values and a weight below 1,000: fields of 9 bytes that repeat, as in columns that are joined.
awk 'BEGIN {
    print "a,b,c,d,e,w"
    x = 1
    for (row = 0; row < 1000000; row++) {
        line = ""
        for (column = 0; column < 5; column++) {
            x = (x * 16807) % 2147483647
            line = line sprintf("item%05d,", x % 10001)
        }
        x = (x * 16807) % 2147483647
        printf "%s%09d\n", line, x % 1000
    }
}' > T.csv
# No row passes, so that what is timed is reading and one comparison a row, and no list of answers.
printf "select T.a from T where T.a = '' limit 0\n" > query.sql
rustc -O -o split "$here/split.rs"

# seconds and kilobytes of a command, the best of three runs
measure() {
    name=$1
    shift
    for _ in 1 2 3; do
        /usr/bin/time -a -o "$name" -f '%e %M' "$@" > /dev/null 2> errors || { cat errors >&2; exit 1; }
    done
    sort -n "$name" | head -n 1
}

plain=$(measure plain ./split T.csv)
read=$(measure read "$anyk" run query.sql T=T.csv)
bytes=$(wc -c < T.csv)
echo "$plain $read $bytes" | awk '{
    printf "split   %.2f s\nanyk    %.2f s\nratio   %.1f\n", $1, $3, $3 / $1
    printf "memory  %.1f bytes for each byte of the file, the file itself among them\n", $4 * 1024 / $5
}'
