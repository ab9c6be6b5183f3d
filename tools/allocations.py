"""Refuses one allocation of a program: a small library, built by `cc`,
takes the calls before the C library's allocator and counts them."""

import os
import re
import subprocess

COUNTS = r"""
#define _GNU_SOURCE
#include <dlfcn.h>
#include <stdio.h>
#include <stdlib.h>
#include <unistd.h>

static void *(*take)(size_t);
static void *(*grow)(void *, size_t);
static unsigned long calls, refused;

__attribute__((constructor)) static void begin(void) {
    char *at = getenv("REFUSED");
    take = dlsym(RTLD_NEXT, "malloc");
    grow = dlsym(RTLD_NEXT, "realloc");
    refused = at ? strtoul(at, 0, 10) : 0;
    calls = 0;
}

__attribute__((destructor)) static void end(void) {
    char said[64];
    int length = snprintf(said, sizeof said, "allocations: %lu\n", calls);
    if (!refused && write(2, said, length) != length) _exit(1);
}

void *malloc(size_t size) {
    if (!take) take = dlsym(RTLD_NEXT, "malloc");
    return ++calls == refused ? 0 : take(size);
}

void *realloc(void *old, size_t size) {
    if (!grow) grow = dlsym(RTLD_NEXT, "realloc");
    return ++calls == refused ? 0 : grow(old, size);
}
"""


def library(folder):
    """Builds the library that counts."""
    source, made = os.path.join(folder, "counts.c"), os.path.join(folder, "counts.so")
    with open(source, "w", encoding="utf-8") as it:
        it.write(COUNTS)
    subprocess.run(["cc", "-shared", "-fPIC", "-O1", "-o", made, source, "-ldl"], check=True)
    return made


def run(words, counts, refused, given=b""):
    """Runs a program on this input with this allocation refused, or none if it is 0."""
    settings = {**os.environ, "LD_PRELOAD": counts, "REFUSED": str(refused)}
    return subprocess.run(words, input=given, env=settings, capture_output=True, timeout=600, check=False)


def count(whole):
    """How many allocations a run made in which none was refused; nothing if it did not say."""
    found = re.search(rb"allocations: (\d+)", whole.stderr)
    return int(found[1]) if found else None
