/* Loaded before the program under test: one call on a file is made to fail or to end the process.
 * FAULT names the call and what happens: write-full, write-kill, sync-fail, rename-fail, rename-kill. */
#define _GNU_SOURCE
#include <errno.h>
#include <signal.h>
#include <stdlib.h>
#include <string.h>
#include <sys/syscall.h>
#include <unistd.h>

static int wanted(const char *fault)
{
    const char *name = getenv("FAULT");
    return name != NULL && strcmp(name, fault) == 0;
}

static int fail(int number)
{
    errno = number;
    return -1;
}

/* Half of the bytes are written first, then the process ends or the disk is full. */
ssize_t write(int file, const void *bytes, size_t count)
{
    if (file > 2 && wanted("write-kill")) {
        syscall(SYS_write, file, bytes, count / 2);
        kill(getpid(), SIGKILL);
    }
    if (file > 2 && wanted("write-full"))
        return fail(ENOSPC);
    return syscall(SYS_write, file, bytes, count);
}

int fsync(int file)
{
    return wanted("sync-fail") ? fail(EIO) : (int)syscall(SYS_fsync, file);
}

int rename(const char *from, const char *to)
{
    if (wanted("rename-kill"))
        kill(getpid(), SIGKILL);
    return wanted("rename-fail") ? fail(EACCES) : (int)syscall(SYS_rename, from, to);
}
