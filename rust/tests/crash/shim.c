// Stands between a program and the C library, and lets it crash or its calls fail.
// Counted are the calls that open, read, write, sync, close, rename or remove a file; standard streams are none.
// The variable SHIM says what happens:
//   kill K     the program is killed before call K, counted from 0
//   half K     the same, but a write first gets half of its bytes through
//   lose K     as kill, and what was not synced is lost: the bytes of the new file, and a rename whose folder was not synced
//   fail K E   call K fails with error number E
//   dead K E   call K and every later one fails so
//   rival K E  as fail, but first another session takes book.new
//   short N    a write takes N bytes at most
//   full N     writes take N bytes in all, then fail for want of space
//   list       the names of the calls go to standard error, and `say` where something is written to standard output
#define _GNU_SOURCE
#include <errno.h>
#include <fcntl.h>
#include <signal.h>
#include <stdarg.h>
#include <stdio.h>
#include <stdlib.h>
#include <string.h>
#include <sys/stat.h>
#include <sys/syscall.h>
#include <unistd.h>

static char mode[8];
static long number;
static int error_number;
static long calls;
static long room;
// The file that was written and not yet synced, or -1.
static int unsynced = -1;
// The rename whose folder is not yet synced: the file's name, and whether there was one before, which then has the name beside.
static char renamed[4096];
static int replaced;
static const char *kept = "kept-by-the-shim";

__attribute__((constructor)) static void begin(void)
{
    const char *words = getenv("SHIM");
    if (words)
        sscanf(words, "%7s %ld %d", mode, &number, &error_number);
    room = number;
}

static int is(const char *word) { return strcmp(mode, word) == 0; }

static void lose(void)
{
    if (unsynced >= 0)
        syscall(SYS_ftruncate, unsynced, 0);
    if (renamed[0] && replaced)
        syscall(SYS_rename, kept, renamed);
    else if (renamed[0])
        syscall(SYS_unlink, renamed);
    renamed[0] = 0;
}

static void die(void)
{
    if (is("lose"))
        lose();
    syscall(SYS_kill, getpid(), SIGKILL);
}

// A program that ends by itself has lost what it did not sync, too.
__attribute__((destructor)) static void end(void)
{
    if (is("lose"))
        lose();
}

// Counts a call: 1 if it has to fail.
static int comes(const char *name)
{
    long k = calls++;
    if (is("list"))
        dprintf(2, "%s\n", name);
    if ((is("kill") || is("lose")) && k == number)
        die();
    if (is("half") && k == number && strcmp(name, "write") != 0)
        die();
    if (is("rival") && k == number)
        syscall(SYS_close, syscall(SYS_openat, AT_FDCWD, "book.new", O_WRONLY | O_CREAT | O_EXCL, 0666));
    if (((is("fail") || is("rival")) && k == number) || (is("dead") && k >= number)) {
        errno = error_number;
        return 1;
    }
    return 0;
}

static ssize_t put(int fd, const void *bytes, size_t count)
{
    if (unsynced < 0)
        unsynced = syscall(SYS_dup, fd);
    return syscall(SYS_write, fd, bytes, count);
}

ssize_t write(int fd, const void *bytes, size_t count)
{
    if (fd == 1 && is("list"))
        dprintf(2, "say\n");
    if (fd <= 2)
        return syscall(SYS_write, fd, bytes, count);
    if (comes("write"))
        return -1;
    if (is("half") && calls == number + 1) {
        put(fd, bytes, count / 2);
        die();
    }
    if (is("short") && (long)count > number)
        count = number;
    if (is("full")) {
        if (room == 0) {
            errno = ENOSPC;
            return -1;
        }
        if ((long)count > room)
            count = room;
        room -= count;
    }
    return put(fd, bytes, count);
}

ssize_t read(int fd, void *bytes, size_t count)
{
    if (fd > 2 && comes("read"))
        return -1;
    return syscall(SYS_read, fd, bytes, count);
}

int open(const char *path, int flags, ...)
{
    va_list rest;
    va_start(rest, flags);
    int permissions = flags & (O_CREAT | O_TMPFILE) ? va_arg(rest, int) : 0;
    va_end(rest);
    if (comes(flags & O_CREAT ? "create" : "open"))
        return -1;
    return syscall(SYS_openat, AT_FDCWD, path, flags, permissions);
}

int fsync(int fd)
{
    struct stat known;
    int folder = fstat(fd, &known) == 0 && S_ISDIR(known.st_mode);
    if (comes(folder ? "fsync folder" : "fsync"))
        return -1;
    int result = syscall(SYS_fsync, fd);
    if (result == 0 && folder) {
        syscall(SYS_unlink, kept);
        renamed[0] = 0;
    } else if (result == 0 && unsynced >= 0) {
        syscall(SYS_close, unsynced);
        unsynced = -1;
    }
    return result;
}

int close(int fd)
{
    if (fd <= 2)
        return syscall(SYS_close, fd);
    return comes("close") ? -1 : syscall(SYS_close, fd);
}

int rename(const char *from, const char *to)
{
    if (comes("rename"))
        return -1;
    if (is("lose")) {
        replaced = syscall(SYS_link, to, kept) == 0;
        snprintf(renamed, sizeof renamed, "%s", to);
    }
    return syscall(SYS_rename, from, to);
}

int unlink(const char *path)
{
    return comes("unlink") ? -1 : syscall(SYS_unlink, path);
}
