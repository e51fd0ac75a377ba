#!/bin/sh
# Counts the memory that the program asks for when a short file claims many items: each count of a list, of a name, of
# values and of a rank in turn. Each case may ask for little more than a file of no bytes does.
# Use: bench/memory.sh [PROGRAM]. PROGRAM answers `PROGRAM check FILE`; by default one is built from
# the header reader.
set -eu
limit=65536
. "$(dirname "$0")/common.sh"
make_folder
program=${1:-$("$top/bench/reader.sh" "$folder")}

# A library that stands before the C library, and tells at the end how many bytes were asked for, in all and at most.
cat > "$folder/count.c" <<'C'
#define _GNU_SOURCE
#include <dlfcn.h>
#include <errno.h>
#include <stdio.h>
#include <stdlib.h>

static size_t total, most;

static void note(size_t size) {
    total += size;
    if (size > most) {
        most = size;
    }
}

extern void *__libc_malloc(size_t size);
extern void *__libc_calloc(size_t count, size_t size);
extern void *__libc_realloc(void *old, size_t size);
extern void *__libc_memalign(size_t align, size_t size);

void *malloc(size_t size) {
    note(size);
    return __libc_malloc(size);
}

void *calloc(size_t count, size_t size) {
    note(count * size);
    return __libc_calloc(count, size);
}

void *realloc(void *old, size_t size) {
    note(size);
    return __libc_realloc(old, size);
}

void *aligned_alloc(size_t align, size_t size) {
    note(size);
    return __libc_memalign(align, size);
}

int posix_memalign(void **place, size_t align, size_t size) {
    note(size);
    *place = __libc_memalign(align, size);
    return *place == NULL ? ENOMEM : 0;
}

__attribute__((destructor)) static void tell(void) {
    fprintf(stderr, "asked %zu %zu\n", total, most);
}
C
cc -shared -fPIC -O2 -o "$folder/count.so" "$folder/count.c"

# asked FILE: the bytes that were asked for in all.
asked() {
    LD_PRELOAD="$folder/count.so" "$program" check "$1" 2>&1 > /dev/null | sed -n 's/^asked \([0-9]*\) .*/\1/p'
}

# bytes WORDS..: the words of four bytes, as hexadecimal digits.
bytes() {
    printf '%s' "$*" | tr -d ' ' | xxd -r -p
}

head='43444601 00000000'
: > "$folder/empty.nc"
start=$(asked "$folder/empty.nc")
status=0
while read -r what words; do
    bytes "$words" > "$folder/case.nc"
    more=$(($(asked "$folder/case.nc") - start))
    echo "$what: $(wc -c < "$folder/case.nc") bytes of file, $more bytes asked for"
    if [ "$more" -gt "$limit" ]; then
        status=1
    fi
done << CASES
dimensions $head 0000000a 7fffffff 00000001 61000000 00000005 0000
attributes $head 00000000 00000000 0000000c 7fffffff 00000001 61000000
variables $head 00000000 00000000 00000000 00000000 0000000b 7fffffff 00000001 61000000
name $head 0000000a 00000001 7fffffff 61000000
values $head 00000000 00000000 0000000c 00000001 00000001 61000000 00000006 7fffffff 00000000
rank $head 00000000 00000000 00000000 00000000 0000000b 00000001 00000001 61000000 7fffffff 00000000
CASES
exit $status
