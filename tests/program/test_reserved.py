"""The calls which append in existing capacity allocate nothing.

They are found by their names: every public function of the crates that ends in `_reserved`, and those that play one character, which begin with
`feed_beyond_ascii`. Each must be reached by a command of the program, or by lib/c/tests/refused, which counts the allocations of the C library.
The program plays raw bytes with a library that counts its allocations: after the first read none of its commands makes one. Needs gcc.
"""
import os
import re
import subprocess
import tempfile

import pytest
from samples import RAW, TOP

# The commands that reach each call, or the call of the C library.
REACHED = {
    "feed_reserved": ["text", "reports", "repaint", "status", "show", "picture"],
    "text_reserved": ["text", "log"],
    "show_reserved": ["show"],
    "picture_reserved": ["picture"],
    "repaint_reserved": ["repaint"],
    "repaint_items_reserved": ["vt220_repaint"],
    "repaint_first_reserved": ["vt220_repaint"],
    "repaint_placed_reserved": ["vt220_repaint"],
    "repaint_xterm_reserved": ["vt220_repaint"],
    "feed_log_reserved": ["log", "vt220_feed_log"],
    "line_off_reserved": ["vt220_feed_log"],
    "row_text_reserved": ["log"],
    "trace_reserved": ["trace"],
    "trace_utf8_reserved": ["trace --encoding utf-8"],
    "trace_xterm_reserved": ["trace --terminal xterm"],
    "report_reserved": ["trace"],
    "update_reserved": ["vt220_update"],
    "draw_reserved": ["vt220_draw"],
    "draw_from_reserved": ["vt220_draw"],
    "repaint_changes_reserved": ["vt220_update"],
    "feed_xterm_reserved": ["vt220_feed"],
    "feed_xterm_log_reserved": ["vt220_feed_log"],
    "feed_beyond_ascii": ["vt220_feed"],
    "feed_beyond_ascii_log": ["vt220_feed_log"],
    "feed_utf8_reserved": ["vt220_feed"],
    "feed_utf8_log_reserved": ["vt220_feed_log"],
}
COUNTING = r"""
#define _GNU_SOURCE
#include <dlfcn.h>
#include <stdio.h>
#include <stdlib.h>
#include <unistd.h>

extern void *__libc_malloc(size_t), *__libc_realloc(void *, size_t);
static unsigned long reads, before, after;

static void count(void) { *(reads > 0 ? &after : &before) += 1; }
void *malloc(size_t size) { count(); return __libc_malloc(size); }
void *realloc(void *at, size_t size) { count(); return __libc_realloc(at, size); }

ssize_t read(int file, void *to, size_t size) {
    static ssize_t (*real)(int, void *, size_t);
    if (real == NULL) real = (ssize_t (*)(int, void *, size_t))dlsym(RTLD_NEXT, "read");
    if (file == 0) reads++;
    return real(file, to, size);
}

__attribute__((destructor)) static void report(void) {
    char line[100];
    unsigned long now[3] = {before, after, reads};
    int len = snprintf(line, sizeof line, "%lu %lu %lu\n", now[0], now[1], now[2]);
    FILE *file = fopen(getenv("ALLOCATIONS"), "w");
    if (file != NULL && len > 0) fputs(line, file), fclose(file);
}
"""
WORDS = {word for words in REACHED.values() for word in words}
CALLS = {word for word in WORDS if word.startswith("vt220_")}


def test_each_call_is_listed():
    sources = (path.read_text() for path in (TOP / "crates").glob("vt*/src/**/*.rt"))
    assert {name for source in sources for name in re.findall(r"\bpub fn (\w+_reserved|feed_beyond_ascii\w*)\b", source)} == set(REACHED)


@pytest.mark.parametrize("call", sorted(CALLS))
def test_call_of_the_library_is_counted(call):
    assert f"{call}(" in (TOP / "lib/c/tests/refused.c").read_text()


@pytest.fixture(scope="session")
def counting():
    """The library that counts allocations."""
    with tempfile.TemporaryDirectory() as room:
        library = f"{room}/counting.so"
        subprocess.run(["gcc", "-O2", "-shared", "-fPIC", "-o", library, "-x", "c", "-", "-ldl"], input=COUNTING, text=True, check=True)
        yield library


@pytest.mark.parametrize("recording", RAW)
@pytest.mark.parametrize("command", sorted(WORDS - CALLS))
def test_command_allocates_nothing(program, counting, tmp_path, command, recording):
    environment = {**os.environ, "LD_PRELOAD": counting, "ALLOCATIONS": str(tmp_path / "count")}
    with open(recording, "rb") as file:
        done = subprocess.run([program, *command.split(), "--format", "raw", "--quiet", "--piece", "4096"], stdin=file, stdout=subprocess.DEVNULL, env=environment)
    before, after, reads = map(int, (tmp_path / "count").read_text().split())
    assert before > 0 and reads > 1 and (done.returncode == 0 or (command, done.returncode) == ("repaint", 3))
    assert after == 0
