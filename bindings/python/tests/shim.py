"""Build the package with a C part that watches itself.

It aborts if a slot is in two calls at the same time, sleeps a moment now and then, so that calls meet, and refuses a chosen
allocation.
"""
import os
import pathlib
import re
import shutil
import subprocess
import sysconfig

import folugben
from checkout import ROOT

PACKAGE = pathlib.Path(folugben.__file__).resolve().parent
SOURCES = ROOT / "bindings" / "python" / "core"
ARCHIVE = pathlib.Path(os.environ.get("FOLUGBEN_ARCHIVE") or ROOT / "bindings" / "out" / "libfolugben.a")
HEADER = ROOT / "include" / "folugben.h"
INCLUDE = sysconfig.get_path("include")

BEGIN = """#include <pthread.h>
#include <stdio.h>
#include <stdlib.h>
#include <unistd.h>
#include "folugben.h"
#define OPEN __attribute__((visibility("default")))
static pthread_mutex_t lock = PTHREAD_MUTEX_INITIALIZER;
static const void *in[256];
static int count;
static unsigned long calls;
static __thread long refused;
OPEN void shim_refuse(long number) { refused = number; }
OPEN long shim_left(void) { return refused; }
static int is_refused(void) { return refused > 0 && --refused == 0; }
void *__real_malloc(size_t size);
void *__real_realloc(void *at, size_t size);
void *__wrap_malloc(size_t size) { return is_refused() ? NULL : __real_malloc(size); }
void *__wrap_realloc(void *at, size_t size) { return is_refused() ? NULL : __real_realloc(at, size); }
static void enter(const void *slot, const char *name) {
    pthread_mutex_lock(&lock);
    for (int k = 0; k < count; k++)
        if (in[k] == slot) {
            fprintf(stderr, "shim: %s on a slot that is in a call\\n", name);
            abort();
        }
    in[count++] = slot;
    pthread_mutex_unlock(&lock);
    if (__atomic_add_fetch(&calls, 1, __ATOMIC_RELAXED) % 64 == 0) usleep(calls % 100);
}
static void leave(const void *slot) {
    pthread_mutex_lock(&lock);
    for (int k = 0; k < count; k++)
        if (in[k] == slot) { in[k] = in[--count]; break; }
    pthread_mutex_unlock(&lock);
}
"""


def wrapper(result: str, name: str, words: str) -> str:
    """Return a wrapper of a call that has slots; empty for another call."""
    names = [re.findall(r"\w+", word)[-1] for word in words.split(",")]
    slots = [own for own, word in zip(names, words.split(",")) if re.search(r"asm_slot \*", word)]
    if not slots:
        return ""
    # A call that is passed a slot twice refuses it.
    arguments = [f"{slot}" if k == 0 else f"{slot} == {slots[0]} ? NULL : (void *){slot}" for k, slot in enumerate(slots)]
    lines = [f"{result} __real_{name}({words});", f"{result} __wrap_{name}({words}) {{"]
    lines += [f'    if ({it}) enter({it}, "{name}");' for it in (f"({own})" for own in arguments)]
    call = f"__real_{name}({', '.join(names)})"
    lines.append(f"    {call};" if result == "void" else f"    {result} code_ = {call};")
    lines += [f"    if ({it}) leave({it});" for it in (f"({own})" for own in arguments)]
    lines += ["}"] if result == "void" else ["    return code_;", "}"]
    return "\n".join(lines)


def can_build() -> bool:
    return bool(shutil.which("cc")) and SOURCES.is_dir() and ARCHIVE.is_file() and (pathlib.Path(INCLUDE) / "Python.h").is_file()


def build(room: pathlib.Path) -> None:
    """Put the package into a folder."""
    package = room / "folugben"
    shutil.copytree(PACKAGE, package, ignore=shutil.ignore_patterns("*.so", "__pycache__"))
    text = re.sub(r"/\*.*?\*/", "", HEADER.read_text(), flags=re.S).replace("FOLUGBEN_NODISCARD ", "")
    found = re.findall(r"^(int32_t|uint32_t|uint64_t|void) (asm_\w+)\(([^)]*)\);", text, re.M)
    wrapped = {name: source for result, name, words in found if (source := wrapper(result, name, words))}
    (room / "shim.c").write_text(BEGIN + "\n".join(wrapped.values()) + "\n")
    subprocess.run(
        ["cc", "-shared", "-fPIC", "-O1", "-std=gnu11", "-fvisibility=hidden", f"-I{HEADER.parent}", f"-I{INCLUDE}", "-o",
         package / "_core.abi3.so", *SOURCES.glob("*.c"), room / "shim.c", ARCHIVE, "-Wl,--exclude-libs,ALL", "-pthread",
         *(f"-Wl,--wrap={name}" for name in (*wrapped, "malloc", "realloc"))],
        check=True,
    )
