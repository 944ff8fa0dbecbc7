/* Preloaded into a program, it asks for huge pages for each piece of memory of 2 MiB or more that the
   program maps. The system gives them where it leaves the choice to programs (`madvise`).

     cc -shared -fPIC -O2 -o huge_pages.so huge_pages.c && LD_PRELOAD=./huge_pages.so PROGRAM */
#define _GNU_SOURCE
#include <sys/mman.h>
#include <sys/syscall.h>
#include <unistd.h>

void *mmap(void *at, size_t size, int protection, int flags, int file, off_t from)
{
    void *got = (void *)syscall(SYS_mmap, at, size, protection, flags, file, from);
    if (got != MAP_FAILED && (flags & MAP_ANONYMOUS) && size >= 1 << 21)
        madvise(got, size, MADV_HUGEPAGE);
    return got;
}

void *mmap64(void *at, size_t size, int protection, int flags, int file, off_t from)
{
    return mmap(at, size, protection, flags, file, from);
}
