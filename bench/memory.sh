#!/usr/bin/env bash
# bench/memory.sh [PROGRAM]: each allocation of a run fails in turn, one at a time. The run must then end by status 6 with the line
# `no memory`, having written a beginning of its text (of `check` a beginning that ends with a line), or end as if none had failed.
# Commands: order, plain, table, cover, check, demo, ical and agenda on an order of one place, set on one of two.
# Prints for each how many allocations there were and how often each end came. Exits with 1 if a run ended otherwise.
# The allocations are failed by a library that gcc makes and the loader puts before the C library's; skipped where gcc is missing.
set -euo pipefail
top=$(cd "$(dirname "$0")/.." && pwd)
program=${1:-$top/built/timetable}
command -v gcc >/dev/null || { echo "skipped: gcc is missing"; exit 0; }
work=$(mktemp -d)
trap 'rm -rf "$work"' EXIT

cat >"$work/fail.c" <<'END'
#define _GNU_SOURCE
#include <dlfcn.h>
#include <errno.h>
#include <stdatomic.h>
#include <stddef.h>
#include <fcntl.h>
#include <stdlib.h>
#include <sys/mman.h>
#include <unistd.h>
static void *(*next_malloc)(size_t), *(*next_realloc)(void *, size_t), *(*next_aligned)(size_t, size_t), *(*next_calloc)(size_t, size_t);
static int (*next_posix)(void **, size_t, size_t);
// the count stands in a file that is shared, since a program may end without its last calls
static atomic_long own_count, *count = &own_count;
static long failing = -1;
__attribute__((constructor)) static void begin(void) {
    next_malloc = dlsym(RTLD_NEXT, "malloc");
    next_realloc = dlsym(RTLD_NEXT, "realloc");
    next_aligned = dlsym(RTLD_NEXT, "aligned_alloc");
    next_calloc = dlsym(RTLD_NEXT, "calloc");
    next_posix = dlsym(RTLD_NEXT, "posix_memalign");
    const char *said = getenv("FAIL_AT"), *file = getenv("FAIL_COUNT");
    int out = file ? open(file, O_RDWR | O_CREAT | O_TRUNC, 0600) : -1;
    if (out >= 0 && ftruncate(out, sizeof *count) == 0) {
        void *shared = mmap(NULL, sizeof *count, PROT_READ | PROT_WRITE, MAP_SHARED, out, 0);
        if (shared != MAP_FAILED) count = shared;
    }
    failing = said ? atol(said) : 0;
}
static int fails(void) { return failing >= 0 && atomic_fetch_add(count, 1) + 1 == failing; }
void *malloc(size_t n) {
    if (!next_malloc) next_malloc = dlsym(RTLD_NEXT, "malloc");
    if (fails()) { errno = ENOMEM; return NULL; }
    return next_malloc(n);
}
void *realloc(void *p, size_t n) {
    if (!next_realloc) next_realloc = dlsym(RTLD_NEXT, "realloc");
    if (fails()) { errno = ENOMEM; return NULL; }
    return next_realloc(p, n);
}
void *aligned_alloc(size_t a, size_t n) {
    if (!next_aligned) next_aligned = dlsym(RTLD_NEXT, "aligned_alloc");
    if (fails()) { errno = ENOMEM; return NULL; }
    return next_aligned(a, n);
}
int posix_memalign(void **to, size_t a, size_t n) {
    if (!next_posix) next_posix = dlsym(RTLD_NEXT, "posix_memalign");
    if (fails()) return ENOMEM;
    return next_posix(to, a, n);
}
END
gcc -shared -fPIC -O1 -o "$work/fail.so" "$work/fail.c" -ldl

cat >"$work/order" <<'END'
{"from":"2025-03-01","days":2,"method":"mwl","asr":"standard","zone":180,"district":{"type":"Polygon","coordinates":[[[39.8,21.4],[39.8,21.4],[39.8,21.4],[39.8,21.4]]]}}
END
cat >"$work/set" <<'END'
{"from":"2025-03-01","days":1,"method":"mwl","asr":"standard","zone":180,"district":{"type":"FeatureCollection","features":[{"type":"Feature","geometry":{"type":"Polygon","coordinates":[[[39.8,21.4],[39.8,21.4],[39.8,21.4],[39.8,21.4]]]}},{"type":"Feature","geometry":{"type":"Polygon","coordinates":[[[39.9,21.4],[39.9,21.4],[39.9,21.4],[39.9,21.4]]]}}]}}
END
"$program" cover <"$work/order" >"$work/covering"

cat >"$work/each.py" <<'END'
import os, subprocess, sys
program, shim, given, *words = sys.argv[1:]
text = open(given, 'rb').read()
counted = shim + '.count'


def run(at):
    env = dict(os.environ, LD_PRELOAD=shim, FAIL_AT=str(at), FAIL_COUNT=counted)
    done = subprocess.run([program, *words], input=text, capture_output=True, env=env, timeout=60)
    return done.returncode, done.stdout, done.stderr


whole = run(0)
if whole[0] not in (0, 1):
    sys.exit('status %d with no failure: %s' % (whole[0], ' '.join(words)))
count = int.from_bytes(open(counted, 'rb').read(), 'little')
none, same = 0, 0
for at in range(1, count + 1):
    ended = run(at)
    if ended == whole:
        same += 1
    elif ended[0] == 6 and ended[2] in (b'no memory\n', b'') and whole[1].startswith(ended[1]):
        none += 1
    else:
        sys.exit('allocation %d of %s: status %d, %d bytes, %r' % (at, ' '.join(words), ended[0], len(ended[1]), ended[2]))
print('%s: %d allocations; no memory %d, ended as without %d' % (' '.join(words), count, none, same))
END

try() { python3 "$work/each.py" "$program" "$work/fail.so" "$@"; }
try "$work/order" order
try "$work/order" plain
try "$work/order" table --workers 2
try "$work/order" cover
try "$work/order" cover --form 1
try "$work/covering" check
try "$work/order" demo --number 3
"$program" ical <"$work/order" >"$work/calendar"
try "$work/order" ical
try "$work/calendar" agenda
try "$work/set" set
