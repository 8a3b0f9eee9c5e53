/* A run in a folder: eight threads count, and what they did is saved. The next time the run goes
 * on: folder PATH. */
#define _DEFAULT_SOURCE
#include "folugben.h"

#include <dirent.h>
#include <errno.h>
#include <fcntl.h>
#include <inttypes.h>
#include <pthread.h>
#include <stdio.h>
#include <stdlib.h>
#include <string.h>
#include <sys/file.h>
#include <sys/stat.h>
#include <unistd.h>

enum { AGENTS = 8, TIMES = 100, ROOM = 1 << 20 };
#define TEXT(text) (const uint8_t *)(text), strlen(text)
#define DONE(call) require((call) == ASM_DONE, #call)

static struct asm_run run;
static struct asm_storage storage;
static struct asm_agent agents[AGENTS];
static uint8_t text[ROOM];
static size_t len;
static int folder, file;

static void require(bool holds, const char *what) {
    if (!holds)
        exit((perror(what), 1));
}

/* Makes the call of the system that the run asks for. */
static bool make(int32_t request, const char *name) {
    switch (request) {
    case ASM_REMOVE_NEW: return unlink("new") == 0 || errno == ENOENT;
    case ASM_CREATE_NEW: return (file = open("new", O_WRONLY | O_CREAT | O_EXCL, 0600)) >= 0;
    case ASM_WRITE_NEW: return write(file, text, len) == (ssize_t)len;
    case ASM_FLUSH_NEW: return fsync(file) == 0 && close(file) == 0;
    case ASM_RENAME_NEW: return rename("new", name) == 0;
    default: return fsync(folder) == 0; /* nothing is dropped here */
    }
}

/* Saves the journal of the storage, which has a line for each event and one before them. */
static void save(void) {
    char name[256] = "";
    uint32_t missing, moves;
    uint64_t lines = 0;
    int32_t request;
    DONE(asm_close(&storage, &missing));
    DONE(asm_moves(&storage, &moves));
    DONE(asm_journal(&storage, text, ROOM, &len));
    for (size_t i = 0; i < len; i++)
        lines += text[i] == '\n';
    DONE(asm_run_hand(&run, moves, lines - 1, text, len, (uint8_t *)name, 255, &(size_t){0}));
    for (; asm_run_request(&run, &request) == ASM_DONE && request != ASM_REST;
         DONE(asm_run_done(&run)))
        require(make(request, name) || asm_run_failed(&run) != ASM_DONE, "save");
}

static int is_segment(const struct dirent *it) { return strstr(it->d_name, ".journal") != NULL; }

/* Reads the segments, and returns how many there are. */
static int read_all(void) {
    struct dirent **names;
    int count = scandir(".", &names, is_segment, alphasort);
    for (int i = 0; i < count; free(names[i++])) {
        require((file = open(names[i]->d_name, O_RDONLY)) >= 0, names[i]->d_name);
        len = (size_t)read(file, text, ROOM);
        DONE(asm_run_name(&run, TEXT(names[i]->d_name), len, &(asm_segment){0}));
        DONE(asm_run_text(&run, text, len));
        DONE(asm_run_end(&run, &(asm_audit_numbers){0}));
        close(file);
    }
    free(names);
    DONE(asm_run_read(&run));
    return count;
}

static void *work(void *agent) {
    asm_numbers numbers;
    for (int i = 0; i < TIMES; i++)
        DONE(asm_try_fire(agent, TEXT("{\"fire\":[[\"inc\",[\"count\"],1]],\"reads\":[]}"),
                          &numbers));
    return NULL;
}

/* Plays a part: eight agents, each on its thread. */
static void play(void) {
    pthread_t threads[AGENTS];
    DONE(asm_agents(&storage, agents, AGENTS));
    for (int i = 0; i < AGENTS; i++)
        require(pthread_create(&threads[i], NULL, work, &agents[i]) == 0, "thread");
    for (int i = 0; i < AGENTS; i++) {
        require(pthread_join(threads[i], NULL) == 0, "thread");
        DONE(asm_give(&storage, &agents[i]));
    }
}

int main(int count, char **words) {
    asm_run_numbers saved;
    uint8_t digest[64];
    int above, lock;
    require(count == 2 && (mkdir(words[1], 0700) == 0 || errno == EEXIST), "folder PATH");
    require(chdir(words[1]) == 0 && (folder = open(".", O_RDONLY)) >= 0, words[1]);
    require((lock = open("lock", O_RDWR | O_CREAT, 0600)) >= 0, "lock");
    require(flock(lock, LOCK_EX | LOCK_NB) == 0, "lock");
    DONE(asm_run_open(&run));
    require((above = open("..", O_RDONLY)) >= 0 && fsync(folder) + fsync(above) == 0, "flush");
    bool is_new = read_all() == 0;
    if (is_new)
        len = (size_t)sprintf((char *)text, "[[[\"count\"],0]]");
    else
        DONE(asm_run_state(&run, text, ROOM, &len));
    DONE(asm_open(text, len, AGENTS * TIMES, &storage));
    if (is_new)
        save(); /* segment 0 has the opening state alone */
    play();
    save();
    DONE(asm_run_saved(&run, &saved, digest, sizeof digest, &(size_t){0}));
    printf("%" PRIu64 " moves in %" PRIu64 " segments\n", saved.moves, saved.segments);
    asm_free_storage(&storage);
    asm_free_run(&run);
}
