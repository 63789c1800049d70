#!/usr/bin/env bash
# Builds the library and the three C programs with the kit's own clang and linker, and runs them: desk_checks counts its checks, desk_stack
# walks every example on threads with the stack that ladrukhi.h names, and desk walks every example to its end and back, held to what the
# second program's `run` and `start` print. Last line: 'desk: K checks passed'.
# It needs `rt` and second/target/release/second. On Arm the programs run under the kit's emulator.
set -Eeuo pipefail
cd "$(dirname "${BASH_SOURCE[0]}")/.."
kit=$(dirname "$(rt doc)")
tools=$kit/toolchain
second=$PWD/second/target/release/second
room=$(mktemp -d)
trap 'rm -rf "$room"' EXIT

(cd crates/desk_c && rt lib) >"$room/said" 2>&1 || { cat "$room/said"; exit 1; }
cp crates/desk_c/out/libdesk_c.a "$room/libdesk.a"

# the kit's clang brings no headers of its own: the few declarations that the programs use
mkdir "$room/std"
cat >"$room/std/stddef.h" <<'H'
#pragma once
typedef __SIZE_TYPE__ size_t;
#define NULL ((void *)0)
#define offsetof(type, field) __builtin_offsetof(type, field)
H
cat >"$room/std/stdint.h" <<'H'
#pragma once
typedef __UINT8_TYPE__ uint8_t;
typedef __UINT16_TYPE__ uint16_t;
typedef __UINT32_TYPE__ uint32_t;
typedef __INT32_TYPE__ int32_t;
H
cat >"$room/std/stdio.h" <<'H'
#pragma once
#include <stddef.h>
typedef struct file FILE;
extern FILE *stdin;
int printf(const char *, ...);
size_t fread(void *, size_t, size_t, FILE *);
FILE *fopen(const char *, const char *);
int fclose(FILE *);
H
cat >"$room/std/pthread.h" <<'H'
#pragma once
#include <stddef.h>
typedef unsigned long pthread_t;
typedef union { char bytes[56]; long aligned; } pthread_attr_t;
int pthread_attr_init(pthread_attr_t *);
int pthread_attr_setstack(pthread_attr_t *, void *, size_t);
int pthread_create(pthread_t *, const pthread_attr_t *, void *(*)(void *), void *);
int pthread_join(pthread_t, void **);
H
cat >"$room/std/string.h" <<'H'
#pragma once
#include <stddef.h>
void *memcpy(void *, const void *, size_t);
void *memset(void *, int, size_t);
int memcmp(const void *, const void *, size_t);
H

build() {
    "$tools/bin/clang" --target=x86_64-unknown-linux-gnu -std=c11 -O2 -fPIC -Wall -Wextra -Werror -nostdinc -isystem "$room/std" -Iinclude -c "examples/$1.c" -o "$room/$1.o"
    "$kit/bin/rattle-link" --target x86_64-unknown-linux-gnu --toolchain "$tools" -o "$room/$1" "$room/$1.o" "$room/libdesk.a" 2>"$room/said" || { cat "$room/said"; exit 1; }
}
emulator=
if [ -x "$tools/bin/qemu-x86_64" ]; then emulator=$tools/bin/qemu-x86_64; fi
run() {
    local program=$room/$1
    shift
    ${emulator:+"$emulator"} "$tools/lib/ld-linux-x86-64.so.2" --library-path "$tools/lib" "$program" "$@"
}

build desk
build desk_checks
build desk_stack
run desk_checks | tee "$room/checks"
checks=$(sed -n 's/^desk: \([0-9]*\) checks passed$/\1/p' "$room/checks")

# the stack is what the processor's own code takes: nothing is measured under the emulator
if [ -z "$emulator" ]; then
    "$second" sized 32768 >"$room/large"
    run desk_stack examples/*.janus "$room/large" | tee "$room/stack"
    checks=$((checks + $(sed -n 's/^desk: \([0-9]*\) programs walked$/\1/p' "$room/stack")))
fi

# what `run` prints, then as many steps back, refused with 30 at the start, with every cell 0
for file in examples/*.janus; do
    "$second" run <"$file" >"$room/expect"
    steps=$(sed -n '1s/^steps \([0-9]*\) .*/\1/p' "$room/expect")
    { printf 'steps %s stop 30\n' "$steps"; "$second" start "$file" "$room/session"; } >>"$room/expect"
    run desk <"$file" >"$room/wrote"
    cmp "$room/wrote" "$room/expect"
    checks=$((checks + 1))
done
"$second" run <examples/README.md >"$room/expect"
run desk <examples/README.md >"$room/wrote"
cmp "$room/wrote" "$room/expect"
printf 'desk: %s checks passed\n' "$((checks + 1))"
