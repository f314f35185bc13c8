#!/usr/bin/env bash
# What ./thawhazel does where reading or writing goes wrong. A shim (tests/faults/shim.c) before the C library's read and write
# makes each call of a run fail, be interrupted or move one byte only. A run so disturbed must print what the undisturbed run
# prints, with status 0, or a front of it, a line on standard error and status 2; one whose calls were only interrupted or short
# must print what the undisturbed run prints.
#
# Exit status 77, where no program can be preloaded on this machine: not counted.
set -eu
cd "$(dirname "$0")/.."
root=$PWD
made=$root/target/faults
rm -rf "$made"
mkdir -p "$made"
tools=$(dirname "$(rt doc)")/toolchain
bad=0
tried=0

wrong() {
    echo "faults: $1"
    bad=1
}

# ---- without the shim

# said NAME WHY: the last run printed nothing, said which stream failed and why, and ended with status 2
said() {
    tried=$((tried + 1))
    [ "$status" -eq 2 ] && [ ! -s "$made/out" ] && grep -qxF "thawhazel: $2" "$made/err" || wrong "$1: status $status, $(head -c 200 "$made/out" "$made/err")"
}

for words in "" replay batch "show 0" "show 0 replay"; do
    status=0 && ./thawhazel $words <examples >"$made/out" 2>"$made/err" || status=$?
    said "$words on a folder" "standard input: Is a directory"
    status=0 && ./thawhazel $words <&- >"$made/out" 2>"$made/err" || status=$?
    said "$words without standard input" "standard input: Bad file descriptor"
done
: >"$made/out"
for words in "" "show 0" "show 0 replay"; do
    status=0 && ./thawhazel $words <examples/C.log >/dev/full 2>"$made/err" || status=$?
    said "$words on a full disk" "standard output: No space left on device"
    status=0 && ./thawhazel $words <examples/C.log >&- 2>"$made/err" || status=$?
    said "$words without standard output" "standard output: Bad file descriptor"
done

status=0 && ./thawhazel replay <examples/L.log >/dev/full 2>"$made/err" || status=$?
said "replay on a full disk" "standard output: No space left on device"
status=0 && ./thawhazel replay <examples/C.log >"$made/out" 2>/dev/full || status=$?
tried=$((tried + 1))
[ "$status" -eq 2 ] || wrong "replay, its verdict on a full disk: status $status"

# an input that never ends: its line comes at once, and a signal to the launcher ends the program too
exec 7< <(exec ./thawhazel </dev/zero 2>"$made/err")
endless=$!
line=
IFS= read -r -t 60 line <&7 || true
kill "$endless"
status=0 && wait "$endless" || status=$?
exec 7<&-
tried=$((tried + 1))
[ "$line" = "refused 1 0" ] && [ "$status" -eq 2 ] || wrong "an endless input: '$line', status $status"

# ---- with the shim

# A kit of which only the loader is another: it preloads the shim. So the launcher is the one that is used, and its own commands
# are left alone.
loader=$made/kit/toolchain/lib/ld-linux-x86-64.so.2
mkdir -p "$(dirname "$loader")" "$made/bin"
cat >"$loader" <<END
#!/bin/sh
exec "$tools/lib/ld-linux-x86-64.so.2" --preload "$made/shim.so" --library-path "$tools/lib" "\$3" "\$4" "\$5"
END
cat >"$made/bin/rt" <<END
#!/bin/sh
echo "$made/kit/START-HERE.md"
END
chmod +x "$loader" "$made/bin/rt"

"$tools/bin/clang" --target=x86_64-unknown-linux-gnu -std=c11 -O2 -Wall -Wextra -Werror -fPIC -fno-builtin -nostdinc -c tests/faults/shim.c -o "$made/shim.o"
"$tools/bin/ld.lld" -shared -o "$made/shim.so" "$made/shim.o"

# run FAULT WORDS INPUT: leaves out, err and status
run() {
    status=0
    FAULT=$1 PATH=$made/bin:$PATH ./thawhazel $2 <"$3" >"$made/out" 2>"$made/err" || status=$?
}

# the last run printed what the undisturbed run printed
undisturbed() { [ "$status" -eq "$status0" ] && cmp -s "$made/out" "$made/out0" && cmp -s "$made/err" "$made/err0"; }

# the last run printed a front of that, and said why it went no further
stopped() {
    [ "$status" -eq 2 ] && grep -q '^thawhazel: ' "$made/err" && cmp -s "$made/out" <(head -c "$(stat -c %s "$made/out")" "$made/out0")
}

# the calls of an undisturbed run, as "READS WRITES"
counted() {
    PATH=$made/bin:$PATH COUNT=8 ./thawhazel $1 <"$2" 8>"$made/count" >"$made/out0" 2>"$made/err0" && status0=0 || status0=$?
    read -r reads writes <"$made/count" || return 1
}

# disturb NAME WORDS INPUT: every call of the run goes wrong in every way
disturb() {
    local kind n last error errors
    counted "$2" "$3" || return 1
    [ "$status0" -eq 0 ] || wrong "$1, undisturbed: status $status0"
    for kind in read write; do
        if [ $kind = read ]; then last=$reads && errors="5"; else last=$writes && errors="5 28"; fi
        for ((n = 1; n <= last; n++)); do
            for error in $errors; do
                run "$kind $n $error" "$2" "$3"
                tried=$((tried + 1))
                undisturbed || stopped || wrong "$1, $kind $n fails ($error): status $status, $(head -c 200 "$made/out" "$made/err")"
                # of a log that was not read whole nothing is told
                [ "$kind $status" != "read 2" ] || [ "$2" = batch ] || [ ! -s "$made/out" ] || wrong "$1, $kind $n fails ($error): a verdict all the same"
            done
        done
        for ((n = 0; n <= last; n++)); do
            for error in intr one; do
                run "$kind $n $error" "$2" "$3"
                tried=$((tried + 1))
                undisturbed || wrong "$1, $kind $n ($error): status $status, $(head -c 200 "$made/out" "$made/err")"
            done
        done
    done
}

# ---- the logs: empty, document 01's case C, the longest that has fields of one length only, and one that is too long
python3 - "$made" <<'END'
import struct, sys

made = sys.argv[1]
constant = bytes([8, 6, 0, 0, 16, 1, 0, 0, 0])
case_c = open("examples/C.log", "rb").read()


def store(name, data):
    with open(f"{made}/{name}", "wb") as file:
        file.write(data)


def record(log):
    return struct.pack("<I", len(log)) + log


store("empty", b"")
store("large", constant * 4096)
store("long", constant * 6000)
store("records", record(case_c) + record(b"") + record(constant * 600) + record(constant * 6000) + record(case_c))
store("cut", record(case_c) + record(case_c)[:-1])
END

if ! counted "" "$made/empty"; then
    echo "faults: no program can be preloaded on this machine, so no call was disturbed; the rest holds ($tried runs)"
    [ "$bad" -eq 0 ] || exit 1
    exit 77
fi

for log in "$made/empty" examples/C.log "$made/large" "$made/long"; do
    disturb "$(basename "$log")" "" "$log"
done
disturb "replay of L" replay examples/L.log
disturb "replay of a large log" replay "$made/large"
disturb "show" "show 3" examples/C.log
disturb "show of the replay" "show 3 replay" examples/L.log
disturb "batch" batch "$made/records"
disturb "batch of a cut input" batch "$made/cut"

# That this can fail: a read that wrongly says that the input has ended gives another answer.
counted "" examples/C.log
run "read 1 end" "" examples/C.log
if undisturbed || stopped; then wrong "a planted fault was not found"; fi

[ "$bad" -eq 0 ] || exit 1
echo "faults: $tried runs where reading or writing went wrong gave the whole answer, or status 2 and a line that says why"
