/* Loaded before a program by LD_PRELOAD: lists the files that the program opens, reads, creates, writes and syncs, and refuses
 * what is planned, requests for memory too. tests/lib/watching.py compiles it, and reads the list; docs/CASES.md has the requests.
 *
 * WATCH_LIST is the path of the list: a line `watched`, and a line for each request, but for memory only if it is refused, or, as
 * `granted` and its number, if it is the last that is not. WATCH_PLAN has three lines for each plan: `refuse`, the request, and a line
 * that is not looked at; or `refuse`, `memory`, and the number of the request for memory from which on all are refused; or `read` or
 * `write`, the name of a file, and after how many bytes that fails. Names are as the program gives them; those of its streams are stdin,
 * stdout and stderr.
 */
#define _GNU_SOURCE
#include <errno.h>
#include <fcntl.h>
#include <stdarg.h>
#include <stdio.h>
#include <stdlib.h>
#include <string.h>
#include <sys/stat.h>
#include <sys/syscall.h>
#include <sys/uio.h>
#include <unistd.h>

enum { FILES = 2048, NAME = 4200 };

/* an open file: its name, whether it was written, and how many bytes were moved */
struct file {
    char name[NAME];
    int is_written;
    size_t read, written;
};

static struct file files[FILES] = {{.name = "stdin"}, {.name = "stdout"}, {.name = "stderr"}};
static const char *plan = "";
static int list = -1;
/* the requests for memory so far */
static size_t requests;

static void say(const char *text, size_t size)
{
    syscall(SYS_write, list, text, size);
}

__attribute__((constructor)) static void begin(void)
{
    const char *path = getenv("WATCH_LIST");
    if (getenv("WATCH_PLAN"))
        plan = getenv("WATCH_PLAN");
    if (!path)
        return;
    /* a script that starts the program is watched before it, so the list begins anew */
    int opened = syscall(SYS_openat, AT_FDCWD, path, O_WRONLY | O_CREAT | O_TRUNC | O_CLOEXEC, 0600);
    list = syscall(SYS_fcntl, opened, F_DUPFD_CLOEXEC, FILES);
    if (list < 0)
        list = opened;
    else
        syscall(SYS_close, opened);
    say("watched\n", 8);
    requests = 0;
}

/* the next line of the plan, with its length, or null */
static const char *next_line(const char **rest, size_t *size)
{
    const char *line = *rest;
    if (!*line)
        return NULL;
    *size = strcspn(line, "\n");
    *rest = line + *size + (line[*size] == '\n');
    return line;
}

/* what is planned for this word and name: the third line, or null */
static const char *planned(const char *word, const char *name)
{
    const char *rest = plan, *found = NULL, *lines[3];
    size_t sizes[3];
    while (1) {
        for (int i = 0; i < 3; i++)
            if (!(lines[i] = next_line(&rest, &sizes[i])))
                return found;
        if (sizes[0] == strlen(word) && !memcmp(lines[0], word, sizes[0]) && sizes[1] == strlen(name) && !memcmp(lines[1], name, sizes[1]))
            found = lines[2];
    }
}

/* lists a request: whether it is refused */
static int ask(const char *word, const char *name)
{
    char request[NAME + 20];
    size_t size = strlen(word);
    memcpy(request, word, size);
    request[size++] = ' ';
    strncpy(request + size, name, NAME);
    request[size + NAME] = 0;
    size += strlen(request + size);
    int is_refused = planned("refuse", request) != NULL;
    request[size++] = '\n';
    say(request, size);
    if (is_refused)
        errno = EACCES;
    return is_refused;
}

/* the number that digits begin with */
static size_t number_at(const char *digits)
{
    size_t number = 0;
    for (; *digits >= '0' && *digits <= '9'; digits++)
        number = 10 * number + (*digits - '0');
    return number;
}

/* counts a request for memory: whether it is refused */
static int asks_memory(void)
{
    char request[32];
    if (list < 0)
        return 0;
    snprintf(request, sizeof request, "memory %zu", ++requests);
    const char *digits = planned("refuse", "memory");
    size_t first = digits ? number_at(digits) : 0;
    int is_refused = planned("refuse", request) || (first && requests >= first);
    if (is_refused || requests + 1 == first)
        say(request, snprintf(request, sizeof request, "%s %zu\n", is_refused ? "memory" : "granted", requests));
    if (is_refused)
        errno = ENOMEM;
    return is_refused;
}

void *__libc_malloc(size_t);
void *__libc_calloc(size_t, size_t);
void *__libc_realloc(void *, size_t);

void *malloc(size_t size)
{
    return asks_memory() ? NULL : __libc_malloc(size);
}

void *calloc(size_t count, size_t size)
{
    return asks_memory() ? NULL : __libc_calloc(count, size);
}

void *realloc(void *old, size_t size)
{
    return asks_memory() ? NULL : __libc_realloc(old, size);
}

/* of so many bytes, how many may be moved after those that were */
static size_t allowed(const char *word, const char *name, size_t moved, size_t count)
{
    const char *digits = planned(word, name);
    if (!digits)
        return count;
    size_t limit = number_at(digits);
    size_t left = limit > moved ? limit - moved : 0;
    return left < count ? left : count;
}

static struct file *file_of(int descriptor)
{
    return descriptor >= 0 && descriptor < FILES && files[descriptor].name[0] ? &files[descriptor] : NULL;
}

int openat(int folder, const char *path, int flags, ...)
{
    va_list arguments;
    va_start(arguments, flags);
    int mode = flags & O_CREAT ? va_arg(arguments, int) : 0;
    va_end(arguments);
    if (list >= 0 && ask(flags & O_CREAT ? "create" : "open", path))
        return -1;
    int descriptor = syscall(SYS_openat, folder, path, flags, mode);
    if (descriptor >= 0 && descriptor < FILES) {
        memset(&files[descriptor], 0, sizeof files[descriptor]);
        strncpy(files[descriptor].name, path, NAME - 1);
    }
    return descriptor;
}

int open(const char *path, int flags, ...)
{
    va_list arguments;
    va_start(arguments, flags);
    int mode = flags & O_CREAT ? va_arg(arguments, int) : 0;
    va_end(arguments);
    return openat(AT_FDCWD, path, flags, mode);
}

/* listed only if it is refused */
int statx(int folder, const char *path, int flags, unsigned mask, struct statx *about)
{
    char request[NAME];
    snprintf(request, sizeof request, "look %s", path);
    if (list >= 0 && planned("refuse", request) && ask("look", path))
        return -1;
    return syscall(SYS_statx, folder, path, flags, mask, about);
}

ssize_t read(int descriptor, void *room, size_t count)
{
    struct file *file = file_of(descriptor);
    if (list < 0 || !file)
        return syscall(SYS_read, descriptor, room, count);
    if (ask("read", file->name))
        return -1;
    size_t some = allowed("read", file->name, file->read, count);
    /* at the limit the end of the file is a failure too */
    if (some == 0 && count > 0) {
        errno = EIO;
        return -1;
    }
    ssize_t moved = syscall(SYS_read, descriptor, room, some);
    if (moved > 0)
        file->read += moved;
    return moved;
}

ssize_t write(int descriptor, const void *bytes, size_t count)
{
    struct file *file = file_of(descriptor);
    if (list < 0 || !file)
        return syscall(SYS_write, descriptor, bytes, count);
    int is_more = descriptor > 2 && file->is_written;
    file->is_written = 1;
    if (ask(is_more ? "write more" : "write", file->name))
        return -1;
    size_t some = allowed("write", file->name, file->written, count);
    if (some == 0 && count > 0) {
        errno = EIO;
        return -1;
    }
    ssize_t moved = syscall(SYS_write, descriptor, bytes, some);
    if (moved > 0)
        file->written += moved;
    return moved;
}

ssize_t writev(int descriptor, const struct iovec *pieces, int count)
{
    for (int i = 0; i < count; i++)
        if (pieces[i].iov_len)
            return write(descriptor, pieces[i].iov_base, pieces[i].iov_len);
    return 0;
}

int fdatasync(int descriptor)
{
    struct file *file = file_of(descriptor);
    if (list >= 0 && file && ask("sync", file->name))
        return -1;
    return syscall(SYS_fdatasync, descriptor);
}

/* other names of the same calls */
int open64(const char *, int, ...) __attribute__((alias("open")));
int openat64(int, const char *, int, ...) __attribute__((alias("openat")));
