/*
 * Stands between a program and the C library, counts its calls of one kind, and refuses one of them.
 *
 * KIND names the kind. REFUSED is the number of the call that is refused, counted from 1; with 0 none is. Where LASTING is
 * there, each later call of the kind for the same file is refused too. A refused call of the kinds "short read" and "short
 * write" moves one byte. One of the kinds "interrupted read", "interrupted write" and "interrupted open" is told to be tried
 * again. One of the kinds "open without memory", "read without memory" and "write without memory" fails as the system does when it has
 * no memory. One of the kind "busy move" is a move to a place that is in use. The kind "followed link" is a look or an open by a path
 * that is a link: it is refused as another user's link in a sticky folder is. BESIDES names a kind of which every call is refused,
 * whatever KIND says.
 * When the program ends, the file that REPORT names gets one line: how many calls of the kind there were, how many writes
 * standard error took, how many writes to it were to end within a line, how often the file of the refused call had been opened by
 * then (for a look by a path: to be read), and what that call was for: '<' or '>' and the name of a file that was opened to read or to write, '>' and the place of a
 * file that was to be moved, or ">&2" for standard error. Each further line names a file that was to be made where none may be, in
 * order, up to the refused call.
 */
#define _GNU_SOURCE
#include <dlfcn.h>
#include <errno.h>
#include <fcntl.h>
#include <stdarg.h>
#include <stdio.h>
#include <stdlib.h>
#include <string.h>
#include <sys/stat.h>
#include <sys/types.h>
#include <unistd.h>

#define FILES 64
#define OPENS 256

static const char *kind = "", *besides = "";
static long refused, calls, told, torn;
static int lasting;
static char files[FILES][512] = {"<&0", ">&1", ">&2"};
static char struck[512];
static char opens[OPENS][512], made[FILES][512];
static int opened_count, made_count, struck_opens, struck_made = -1;

#define REAL(name, result, ...) \
    static result (*real)(__VA_ARGS__); \
    if (!real) *(void **)&real = dlsym(RTLD_NEXT, name)

__attribute__((constructor)) static void begin(void) {
    refused = getenv("REFUSED") ? atol(getenv("REFUSED")) : 0;
    lasting = getenv("LASTING") != NULL;
    kind = getenv("KIND") ? getenv("KIND") : "";
    besides = getenv("BESIDES") ? getenv("BESIDES") : "";
}

__attribute__((destructor)) static void end(void) {
    const char *name = getenv("REPORT");
    FILE *file;
    kind = besides = "";
    file = name ? fopen(name, "w") : NULL;
    if (file) {
        fprintf(file, "%ld %ld %ld %d %s\n", calls, told, torn, struck_opens, struck);
        for (int at = 0; at < (struck_made < 0 ? made_count : struck_made); at++) fprintf(file, "%s\n", made[at]);
        fclose(file);
    }
}

/* Keeps which call is refused, and what came before it. */
static void strike(const char *file) {
    snprintf(struck, sizeof struck, "%s", file);
    for (int at = 0; at < opened_count; at++) struck_opens += !strcmp(opens[at], file) || (*opens[at] == '<' && !strcmp(opens[at] + 1, file));
    struck_made = made_count;
}

/* Counts a call of this kind. The answer is whether it is refused. */
static int is_refused(const char *name, const char *file) {
    if (!strcmp(besides, name)) return 1;
    if (strcmp(kind, name)) return 0;
    calls += 1;
    if (calls == refused) strike(file);
    return refused && (calls == refused || (lasting && calls > refused && !strcmp(struck, file)));
}

static const char *file_of(int file) { return file >= 0 && file < FILES ? files[file] : "?"; }

static int opened(int file, const char *path, int flags) {
    if (file >= 0 && file < FILES)
        snprintf(files[file], sizeof files[file], "%c%s", (flags & O_ACCMODE) == O_RDONLY ? '<' : '>', path);
    return file;
}

/* Counts an open. The answer is the error of one that is refused, or 0. */
static int open_fault(const char *path, int flags) {
    char file[512];
    snprintf(file, sizeof file, "%c%s", (flags & O_ACCMODE) == O_RDONLY ? '<' : '>', path);
    if (opened_count < OPENS) strcpy(opens[opened_count++], file);
    if (flags & O_EXCL && made_count < FILES) snprintf(made[made_count++], sizeof made[0], "%s", path);
    return is_refused("open", file) ? EIO : is_refused("interrupted open", file) ? EINTR : is_refused("open without memory", file) ? ENOMEM : 0;
}

/* Whether the system may not follow the link at this path, if it is one. */
static int is_follow_refused(const char *path) {
    struct stat found;
    return !lstat(path, &found) && S_ISLNK(found.st_mode) && is_refused("followed link", path);
}

void *malloc(size_t size) {
    REAL("malloc", void *, size_t);
    if (is_refused("growth", "")) return errno = ENOMEM, NULL;
    return real(size);
}

void *realloc(void *old, size_t size) {
    REAL("realloc", void *, void *, size_t);
    if (is_refused("growth", "")) return errno = ENOMEM, NULL;
    return real(old, size);
}

int open(const char *path, int flags, ...) {
    va_list more;
    mode_t mode;
    int fault;
    REAL("open", int, const char *, int, ...);
    va_start(more, flags);
    mode = flags & O_CREAT ? va_arg(more, mode_t) : 0;
    va_end(more);
    fault = open_fault(path, flags);
    if (fault) return errno = fault, -1;
    if (!(flags & O_EXCL) && is_follow_refused(path)) return errno = EACCES, -1;
    return opened(real(path, flags, mode), path, flags);
}

int open64(const char *path, int flags, ...) {
    va_list more;
    mode_t mode;
    va_start(more, flags);
    mode = flags & O_CREAT ? va_arg(more, mode_t) : 0;
    va_end(more);
    return open(path, flags, mode);
}

int statx(int folder, const char *path, int flags, unsigned mask, struct statx *told) {
    REAL("statx", int, int, const char *, int, unsigned, struct statx *);
    if (is_refused("look", *path ? path : file_of(folder))) return errno = EIO, -1;
    if (*path && !(flags & AT_SYMLINK_NOFOLLOW) && is_follow_refused(path)) return errno = EACCES, -1;
    return real(folder, path, flags, mask, told);
}

ssize_t read(int file, void *bytes, size_t count) {
    REAL("read", ssize_t, int, void *, size_t);
    if (is_refused("read", file_of(file))) return errno = EIO, -1;
    if (is_refused("interrupted read", file_of(file))) return errno = EINTR, -1;
    if (is_refused("read without memory", file_of(file))) return errno = ENOMEM, -1;
    if (is_refused("short read", file_of(file)) && count) count = 1;
    return real(file, bytes, count);
}

ssize_t write(int file, const void *bytes, size_t count) {
    REAL("write", ssize_t, int, const void *, size_t);
    torn += file == 2 && count && ((const char *)bytes)[count - 1] != '\n';
    if (is_refused("write", file_of(file))) return errno = ENOSPC, -1;
    if (is_refused("interrupted write", file_of(file))) return errno = EINTR, -1;
    if (is_refused("write without memory", file_of(file))) return errno = ENOMEM, -1;
    if (is_refused("short write", file_of(file)) && count) count = 1;
    told += file == 2;
    return real(file, bytes, count);
}

ssize_t __write(int file, const void *bytes, size_t count) { return write(file, bytes, count); }

int close(int file) {
    int is_struck = is_refused("close", file_of(file));
    REAL("close", int, int);
    if (real(file)) return -1;
    return is_struck ? (errno = EIO, -1) : 0;
}

int fsync(int file) {
    REAL("fsync", int, int);
    if (is_refused("sync", file_of(file))) return errno = EIO, -1;
    return real(file);
}

int fdatasync(int file) {
    REAL("fdatasync", int, int);
    if (is_refused("sync", file_of(file))) return errno = EIO, -1;
    return real(file);
}

int fchmod(int file, mode_t mode) {
    REAL("fchmod", int, int, mode_t);
    if (is_refused("mode", file_of(file))) return errno = EIO, -1;
    return real(file, mode);
}

ssize_t readlink(const char *path, char *target, size_t room) {
    REAL("readlink", ssize_t, const char *, char *, size_t);
    if (is_refused("link", path)) return errno = EIO, -1;
    return real(path, target, room);
}

int rename(const char *path, const char *place) {
    char file[512];
    REAL("rename", int, const char *, const char *);
    snprintf(file, sizeof file, ">%s", place);
    if (is_refused("move", file)) return errno = EIO, -1;
    if (is_refused("busy move", file)) return errno = EBUSY, -1;
    return real(path, place);
}

int unlink(const char *path) {
    REAL("unlink", int, const char *);
    if (is_refused("removal", path)) return errno = EIO, -1;
    return real(path);
}
