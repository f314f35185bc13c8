#!/bin/sh
# Links the C programs tests/capi/example.c and tests/capi/show.c with the C interface, and compares what they print with
# tests/capi/expected and tests/capi/show.expected.
#   tests/capi.sh        by the machine's C compiler where it is x86-64 and has one, else by the kit's
#   tests/capi.sh kit    by the kit's clang, with the few headers of tests/capi/headers
# The archive is x86-64 code, and so are the kit's tools.
set -eu
cd "$(dirname "$0")/.."
made=target/capi
archive=crates/capi/out/libcapi.a
strict='-std=c11 -O2 -Wall -Wextra -Werror -pedantic'
mkdir -p "$made"
(cd crates/capi && rt lib) > "$made/log" 2>&1 || { tail -n 20 "$made/log"; echo 'capi: rt lib failed in crates/capi'; exit 1; }

by_host() {
    cc $strict -Iinclude "tests/capi/$1.c" "$archive" -o "$made/$1"
    "$made/$1" > "$made/printed"
}

by_kit() {
    kit=$(dirname "$(rt doc)")
    tools=$kit/toolchain/bin
    lib=$kit/toolchain/lib
    "$tools/clang" --target=x86_64-unknown-linux-gnu $strict -fPIC -nostdinc -Itests/capi/headers -Iinclude \
        -c "tests/capi/$1.c" -o "$made/$1.o"
    "$tools/ld.lld" -pie -dynamic-linker /lib64/ld-linux-x86-64.so.2 -o "$made/$1" \
        "$lib/Scrt1.o" "$lib/crti.o" "$lib/crtbeginS.o" "$made/$1.o" "$archive" \
        "$lib/libc.so.6" "$lib/libc_nonshared.a" "$lib/libgcc.a" "$lib/crtendS.o" "$lib/crtn.o"
    "$lib/ld-linux-x86-64.so.2" --library-path "$lib" "$made/$1" > "$made/printed"
}

if [ "${1:-}" != kit ] && [ "$(uname -m)" = x86_64 ] && command -v cc > /dev/null; then
    how="the machine's C compiler"
    by=by_host
else
    how="the kit's clang"
    by=by_kit
fi

# $1: the program, $2: what it must print
compare() {
    "$by" "$1"
    if ! diff "tests/capi/$2" "$made/printed"; then
        echo "capi: the C program $1, built by $how, printed something else"
        exit 1
    fi
}

compare example expected
compare show show.expected
echo "capi: the C programs, built by $how, printed what document 01 says"
