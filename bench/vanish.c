/* Loaded before the C library, this has a file vanish while the program reads it. It makes the link that the environment's VANISHING
   names, to a file of /proc that belongs to a process of its own and is longer than one read can give. Once the program has opened
   the link and has read from it as often as READS says, it ends that process, and with it the file: each later read fails. All this
   is done within the program's own calls, so that nothing depends on time. */
#define _GNU_SOURCE
#include <dlfcn.h>
#include <signal.h>
#include <stdarg.h>
#include <stdio.h>
#include <stdlib.h>
#include <string.h>
#include <sys/mman.h>
#include <sys/prctl.h>
#include <sys/wait.h>
#include <unistd.h>

enum { PAGE = 4096, PAGES = 4000 };

static const char *link_name = NULL;
static pid_t process = -1;
static int vanishing = -1;
static long reads = 0;

static void __attribute__((constructor)) begin(void)
{
    char file[64];
    char *room;
    link_name = getenv("VANISHING");
    if (!link_name)
        return;
    reads = getenv("READS") ? strtol(getenv("READS"), NULL, 10) : 0;
    /* Each mapping is a line of the file. */
    room = mmap(NULL, PAGES * PAGE, PROT_NONE, MAP_PRIVATE | MAP_ANONYMOUS, -1, 0);
    for (int i = 0; room != MAP_FAILED && i < PAGES; i += 2)
        mprotect(room + i * PAGE, PAGE, PROT_READ);
    process = fork();
    if (process == 0) {
        prctl(PR_SET_PDEATHSIG, SIGKILL);
        for (;;)
            pause();
    }
    snprintf(file, sizeof file, "/proc/%d/maps", (int)process);
    if (room == MAP_FAILED || munmap(room, PAGES * PAGE) != 0 || process < 0 || symlink(file, link_name) != 0)
        _exit(99);
}

/* Ends the process where the file was read often enough. */
static void end_after_reads(void)
{
    if (reads-- > 0)
        return;
    kill(process, SIGKILL);
    waitpid(process, NULL, 0);
    vanishing = -1;
}

int open(const char *name, int flags, ...)
{
    static int (*next)(const char *, int, ...);
    va_list rest;
    int mode;
    int file;
    va_start(rest, flags);
    mode = va_arg(rest, int);
    va_end(rest);
    if (!next)
        next = dlsym(RTLD_NEXT, "open");
    file = next(name, flags, mode);
    if (link_name && file >= 0 && strcmp(name, link_name) == 0) {
        vanishing = file;
        end_after_reads();
    }
    return file;
}

ssize_t read(int file, void *room, size_t size)
{
    static ssize_t (*next)(int, void *, size_t);
    ssize_t taken;
    if (!next)
        next = dlsym(RTLD_NEXT, "read");
    taken = next(file, room, size);
    if (file == vanishing)
        end_after_reads();
    return taken;
}
