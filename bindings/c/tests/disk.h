/* A disk that keeps only what was flushed. After a power failure each file that wasn't flushed has
 * any bytes, and each name by itself leads to what it led to at some moment since the folder was
 * flushed. */
#ifndef DISK_H
#define DISK_H

#include "runs.h"

enum { NAMES = 16, FILES = 64, ENTRIES = 40 };

typedef struct file {
    text text;
    bool is_flushed;
} file;

/* A name, the place of its file or -1, and where it led since the folder was flushed. */
typedef struct entry {
    char name[NAME_ROOM];
    int to, former[ENTRIES];
    unsigned formers;
} entry;

typedef struct disk {
    file files[FILES];
    int count;
    entry entries[NAMES];
    unsigned names;
} disk;

static inline entry *entry_of(disk *it, const char *name) {
    for (unsigned i = 0; i < it->names; i++)
        if (!strcmp(it->entries[i].name, name))
            return &it->entries[i];
    REQUIRE(it->names < NAMES && strlen(name) < NAME_ROOM);
    entry *made = &it->entries[it->names++];
    *made = (entry){.to = -1};
    strcpy(made->name, name);
    return made;
}

static inline void lead(disk *it, const char *name, int to) {
    entry *at = entry_of(it, name);
    REQUIRE(at->formers < ENTRIES);
    at->former[at->formers++] = at->to;
    at->to = to;
}

/* Does what was asked for. */
static inline void do_on(disk *it, int32_t request, const char *name, text written) {
    int to = entry_of(it, "new")->to;
    switch (request) {
    case ASM_REMOVE_NEW: lead(it, "new", -1); break;
    case ASM_CREATE_NEW:
        REQUIRE(it->count < FILES && to < 0);
        it->files[it->count] = (file){{NULL, 0}, false};
        lead(it, "new", it->count++);
        break;
    case ASM_WRITE_NEW: it->files[to] = (file){written, false}; break;
    case ASM_FLUSH_NEW: it->files[to].is_flushed = true; break;
    case ASM_RENAME_NEW:
        lead(it, name, to);
        lead(it, "new", -1);
        break;
    case ASM_REMOVE_OLDEST: lead(it, name, -1); break;
    default:
        REQUIRE(request == ASM_FLUSH_FOLDER);
        for (unsigned i = 0; i < it->names; i++)
            it->entries[i].formers = 0;
    }
}

/* What is left of bytes that weren't flushed: all, none, the first ones, or others. */
static inline text torn(text was) {
    static uint8_t rubbish[4][LONGEST];
    static unsigned next;
    switch (below(4)) {
    case 0: return was;
    case 1: return (text){was.at, 0};
    case 2: return (text){was.at, below((unsigned)was.len + 1)};
    default: break;
    }
    uint8_t *made = rubbish[next++ % 4];
    size_t len = was.len < LONGEST ? was.len : LONGEST;
    if (len)
        memcpy(made, was.at, len), made[below((unsigned)len)] ^= (uint8_t)(1 + below(255));
    return (text){made, len};
}

static inline void fail_power(disk *it) {
    for (int i = 0; i < it->count; i++)
        if (!it->files[i].is_flushed)
            it->files[i] = (file){torn(it->files[i].text), true};
    for (unsigned i = 0; i < it->names; i++) {
        entry *at = &it->entries[i];
        unsigned chosen = below(at->formers + 1);
        at->to = chosen < at->formers ? at->former[chosen] : at->to;
        at->formers = 0;
    }
}

#endif
