/* Loaded before the C library: notes in the file SHIM_LOG each call that makes, writes, names, removes or flushes in the folder
 * SHIM_ROOT, a line a call. The call SHIM_DIE kills its process, and from the flush SHIM_FAIL of the folder on each fails. */
#define _GNU_SOURCE
#include <dlfcn.h>
#include <errno.h>
#include <fcntl.h>
#include <pthread.h>
#include <signal.h>
#include <stdarg.h>
#include <stdio.h>
#include <stdlib.h>
#include <string.h>
#include <sys/stat.h>
#include <unistd.h>

#define REAL(name) ((__typeof__(&name))dlsym(RTLD_NEXT, #name))

static pthread_mutex_t lock = PTHREAD_MUTEX_INITIALIZER;
static char names[1024][256];
static long calls, flushes;

static long number(const char *name) {
    const char *value = getenv(name);
    return value ? atol(value) : -1;
}

static void note(const char *call, const char *one, const char *other) {
    const char *path = getenv("SHIM_LOG");
    pthread_mutex_lock(&lock);
    int fd = path ? REAL(open)(path, O_WRONLY | O_APPEND | O_CREAT | O_CLOEXEC, 0600) : -1;
    if (fd >= 0) {
        dprintf(fd, "%s %s %s\n", call, one, other);
        REAL(close)(fd);
    }
    if (++calls == number("SHIM_DIE")) kill(getpid(), SIGKILL);
    pthread_mutex_unlock(&lock);
}

/* The name of a path in the folder; "" of the folder itself, ".." of the one above. */
static const char *inside(const char *path) {
    const char *root = getenv("SHIM_ROOT");
    size_t length = root ? strlen(root) : 0;
    if (!root) return NULL;
    if (!strncmp(path, root, length) && path[length] == '/') return path + length + 1;
    if (!strcmp(path, root)) return "";
    return !strncmp(path, root, strlen(path)) && root[strlen(path)] == '/' && !strchr(root + strlen(path) + 1, '/') ? ".." : NULL;
}

static int opened(int fd, const char *path, int flags) {
    const char *name = inside(path);
    if (fd >= 0 && fd < 1024) snprintf(names[fd], sizeof names[fd], "%s", !name ? "-" : *name ? name : ".");
    if (fd >= 0 && name && flags & O_EXCL) note("create", name, "");
    return fd;
}

int open(const char *path, int flags, ...) {
    va_list more;
    va_start(more, flags);
    int mode = va_arg(more, int);
    va_end(more);
    return opened(REAL(open)(path, flags, mode), path, flags);
}

int open64(const char *path, int flags, ...) {
    va_list more;
    va_start(more, flags);
    int mode = va_arg(more, int);
    va_end(more);
    return opened(REAL(open64)(path, flags, mode), path, flags);
}

static const char *name_of(int fd) { return fd >= 0 && fd < 1024 && names[fd][0] && names[fd][0] != '-' ? names[fd] : NULL; }

int close(int fd) {
    if (fd >= 0 && fd < 1024) names[fd][0] = 0;
    return REAL(close)(fd);
}

ssize_t write(int fd, const void *data, size_t length) {
    ssize_t count = REAL(write)(fd, data, length);
    char size[32];
    snprintf(size, sizeof size, "%zd", count);
    if (count > 0 && name_of(fd)) note("write", name_of(fd), size);
    return count;
}

int fsync(int fd) {
    const char *name = name_of(fd);
    if (name && !strcmp(name, ".") && ++flushes >= number("SHIM_FAIL") && number("SHIM_FAIL") > 0) {
        errno = EIO;
        return -1;
    }
    int result = REAL(fsync)(fd);
    if (name && !result) note("flush", name, "");
    return result;
}

int rename(const char *from, const char *to) {
    int result = REAL(rename)(from, to);
    if (!result && inside(from) && inside(to)) note("rename", inside(from), inside(to));
    return result;
}

int unlink(const char *path) {
    int result = REAL(unlink)(path);
    if (!result && inside(path)) note("unlink", inside(path), "");
    return result;
}

int mkdir(const char *path, mode_t mode) {
    int result = REAL(mkdir)(path, mode);
    if (!result && inside(path)) note("mkdir", ".", "");
    return result;
}
