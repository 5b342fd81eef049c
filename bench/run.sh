#!/usr/bin/env bash
# Times whole runs of the built program:
#
#     bench/run.sh
#
# The designs are 1,000 signals with 50 transactions each, all at the same 50 times; and 30,000 signals with one
# transaction each, at 45 times. Prints for each the seconds, and how many lines its journal has. What is timed is a call
# of ./vhpisim, with its output to a file. Ends with status 1 where a run fails or its journal isn't as long as it has to
# be.
set -u

here=$(cd -- "$(dirname -- "$(readlink -f -- "${BASH_SOURCE[0]}")")/.." && pwd)
folder=$(mktemp -d) || exit 1
trap 'rm -rf -- "$folder"' EXIT

# 1,000 signals: '1' and '0' in turn, 1 ns apart.
busy() {
    awk 'BEGIN {
        print "entity top is end;"
        print "architecture a of top is"
        for (n = 0; n < 1000; n++) print "signal s" n ":bit;"
        print "begin"
        for (n = 0; n < 1000; n++) {
            line = "s" n "<="
            for (k = 0; k < 50; k++) line = line (k ? "," : "") "\047" (k + 1) % 2 "\047 after " k + 1 " ns"
            print line ";"
        }
        print "end;"
    }'
}

# 30,000 signals, with names of three bytes and little else, since a file has at most 1,048,576 bytes.
wide() {
    awk 'BEGIN {
        split("abs all and bus end for map mod new nor not out rem rol ror sla sll sra srl use xor bit sec min", words, " ")
        for (n in words) taken[words[n]] = 1
        split("fs ps ns us ms", units, " ")
        digits = "abcdefghijklmnopqrstuvwxyz0123456789"
        for (n = 0; count < 30000; n++) {
            name = substr(digits, 1 + int(n / 1296), 1) substr(digits, 1 + int(n / 36) % 36, 1) substr(digits, 1 + n % 36, 1)
            if (!(name in taken)) names[count++] = name
        }
        print "entity top is end;architecture a of top is"
        for (n = 0; n < count; n++) printf "%s", "signal " names[n] ":bit;" (n % 50 == 49 ? "\n" : "")
        print "begin"
        for (n = 0; n < count; n++)
            printf "%s", names[n] "<=\0471\047after " 1 + n % 9 " " units[1 + int(n / 9) % 5] ";" (n % 50 == 49 ? "\n" : "")
        print "end;"
    }'
}

# Runs a design, and wants a journal of so many lines.
run() {
    local name=$1 file=$2 lines=$3 began ended status got
    began=$(date +%s%N)
    "$here/vhpisim" run "$file" 10000000 >"$folder/journal"
    status=$?
    ended=$(date +%s%N)
    got=$(wc -l <"$folder/journal")
    awk -v ns=$((ended - began)) -v name="$name" -v got="$got" 'BEGIN { printf "%8.3f s  %s: %d lines\n", ns / 1e9, name, got }'
    if [ "$status" -ne 0 ] || [ "$got" -ne "$lines" ]; then
        echo "bench/run.sh: the status was $status, and $lines lines were wanted" >&2
        return 1
    fi
}

busy >"$folder/busy.vhd"
wide >"$folder/wide.vhd"

# A short run, so that no build is timed.
"$here/vhpisim" run "$here/examples/pulse.vhd" 1 >/dev/null || exit 1

# A cycle has a line, an event has one, and the end has one.
run '1,000 signals with 50 transactions each' "$folder/busy.vhd" $((50 + 1000 * 50 + 1)) || exit 1
run '30,000 signals with one transaction each' "$folder/wide.vhd" $((45 + 30000 + 1)) || exit 1
