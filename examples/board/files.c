// What programs ask of a system, answered by one that has no files but its input and its two outputs, no other process, and no
// clock. A program may have each function otherwise. `read` is in input.c.
#include <errno.h>
#include <signal.h>
#include <stddef.h>
#include <sys/stat.h>
#include <sys/time.h>
#include <sys/types.h>
#include <time.h>
#include <unistd.h>

#include "ecall.h"

#pragma GCC diagnostic ignored "-Wunused-parameter"
#define WEAK __attribute__((weak))
#define FAILS(why, name, ...) WEAK int name(__VA_ARGS__) { errno = why; return -1; }

enum { FILES = 3 };     // the input and the two outputs

static int failed(int why) {
    errno = why;
    return -1;
}

static int is_open(int file) {
    return 0 <= file && file < FILES;
}

WEAK ssize_t write(int file, const void *bytes, size_t count) {
    return file == 1 || file == 2 ? call(WRITE, file, (long)bytes, (long)count) : failed(EBADF);
}

WEAK int fstat(int file, struct stat *stat) {
    if (!is_open(file))
        return failed(EBADF);
    *stat = (struct stat){.st_mode = S_IFIFO | 0600, .st_nlink = 1};
    return 0;
}

WEAK int close(int file) { return is_open(file) ? 0 : failed(EBADF); }
WEAK off_t lseek(int file, off_t offset, int whence) { return failed(is_open(file) ? ESPIPE : EBADF); }
WEAK int isatty(int file) { return failed(is_open(file) ? ENOTTY : EBADF), 0; }
WEAK int fsync(int file) { return close(file); }
WEAK int fcntl(int file, int command, ...) { return close(file); }
WEAK int ftruncate(int file, off_t length) { return failed(is_open(file) ? EINVAL : EBADF); }
WEAK char *getcwd(char *path, size_t size) { return failed(ENOENT), NULL; }
WEAK mode_t umask(mode_t mode) { return 0; }

FAILS(ENOENT, open, const char *path, int flags, ...)
FAILS(ENOENT, stat, const char *restrict path, struct stat *restrict stat)
FAILS(ENOENT, lstat, const char *restrict path, struct stat *restrict stat)
FAILS(ENOENT, access, const char *path, int mode)
FAILS(ENOENT, chdir, const char *path)
FAILS(ENOENT, chmod, const char *path, mode_t mode)
FAILS(ENOENT, chown, const char *path, uid_t owner, gid_t group)
FAILS(ENOENT, link, const char *old, const char *new)
FAILS(ENOENT, readlink, const char *restrict path, char *restrict bytes, size_t size)
FAILS(ENOENT, rename, const char *old, const char *new)
FAILS(ENOENT, rmdir, const char *path)
FAILS(ENOENT, truncate, const char *path, off_t length)
FAILS(ENOENT, unlink, const char *path)
FAILS(ENOENT, utime, const char *path, const void *times)
FAILS(ENOENT, utimes, const char *path, const struct timeval times[2])
FAILS(EROFS, mkdir, const char *path, mode_t mode)
FAILS(EROFS, symlink, const char *old, const char *new)
FAILS(EMFILE, dup, int file)
FAILS(EMFILE, dup2, int file, int other)
FAILS(EMFILE, pipe, int files[2])

FAILS(ENOSYS, fork, void)
FAILS(ENOSYS, vfork, void)
FAILS(ENOENT, execv, const char *path, char *const *arguments)
FAILS(ENOENT, execve, const char *path, char *const *arguments, char *const *environment)
FAILS(ENOENT, execvp, const char *name, char *const *arguments)
FAILS(ECHILD, wait, int *status)
FAILS(ECHILD, waitpid, pid_t process, int *status, int options)
FAILS(ENOSYS, getentropy, void *bytes, size_t count)
FAILS(ENOSYS, getrusage, int who, void *usage)
FAILS(ENOSYS, sigaction, int signal, const struct sigaction *restrict new, struct sigaction *restrict old)
WEAK int sigprocmask(int how, const sigset_t *restrict set, sigset_t *restrict old) {
    if (old)
        *old = 0;
    return 0;
}
WEAK void *popen(const char *command, const char *mode) { return failed(ENOSYS), NULL; }
FAILS(ECHILD, pclose, void *file)
WEAK long sysconf(int name) { return failed(EINVAL); }
WEAK pid_t getppid(void) { return 0; }
WEAK uid_t getuid(void) { return 0; }
WEAK uid_t geteuid(void) { return 0; }
WEAK gid_t getgid(void) { return 0; }
WEAK gid_t getegid(void) { return 0; }

FAILS(EINVAL, clock_gettime, clockid_t clock, struct timespec *now)
FAILS(EINVAL, clock_getres, clockid_t clock, struct timespec *step)
WEAK unsigned alarm(unsigned seconds) { return 0; }
WEAK unsigned sleep(unsigned seconds) { return 0; }
WEAK int usleep(useconds_t microseconds) { return 0; }
WEAK int nanosleep(const struct timespec *wanted, struct timespec *left) { return 0; }
