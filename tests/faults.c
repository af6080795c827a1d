/* Preloaded into the program by tests/preloaded.py: fails some calls that the program itself makes.

   FAULTS_KIND   what fails: memory, open, read, output (writes to 1) or errors (writes to 2)
   FAULTS_NTH    the first call that fails, from 1
   FAULTS_COUNT  how many fail from there on; 0 for all
   FAULTS_HOW    the number of the error; or "short", if one byte is moved, or "none", if none is
   FAULTS_SEEN   a file that is made when the first one fails

   Calls of the C library and of the loader are not counted: their place of return is not in the program. */
#define _GNU_SOURCE
#include <elf.h>
#include <errno.h>
#include <fcntl.h>
#include <link.h>
#include <stdarg.h>
#include <stddef.h>
#include <stdint.h>
#include <stdlib.h>
#include <string.h>
#include <sys/auxv.h>
#include <sys/syscall.h>
#include <unistd.h>

void *__libc_malloc(size_t);
void *__libc_realloc(void *, size_t);

static const char *kind;
static const char *how;
static unsigned long nth, count, calls;
static uintptr_t first, last;
static int is_ready;

__attribute__((constructor)) static void begin(void) {
    const ElfW(Phdr) *header = (const ElfW(Phdr) *)getauxval(AT_PHDR);
    unsigned long headers = getauxval(AT_PHNUM);
    uintptr_t base = 0;
    kind = getenv("FAULTS_KIND");
    how = getenv("FAULTS_HOW");
    if (kind == NULL || how == NULL || getenv("FAULTS_NTH") == NULL || getenv("FAULTS_COUNT") == NULL) return;
    nth = strtoul(getenv("FAULTS_NTH"), NULL, 10);
    count = strtoul(getenv("FAULTS_COUNT"), NULL, 10);
    for (unsigned long i = 0; i < headers; i++)
        if (header[i].p_type == PT_PHDR) base = (uintptr_t)header - header[i].p_vaddr;
    for (unsigned long i = 0; i < headers; i++)
        if (header[i].p_type == PT_LOAD && (header[i].p_flags & PF_X)) {
            first = base + header[i].p_vaddr;
            last = first + header[i].p_memsz;
        }
    is_ready = 1;
}

/* Whether this call, of this kind, is one that fails. */
static int fails(const char *its, void *place) {
    const char *seen;
    if (!is_ready || (uintptr_t)place < first || (uintptr_t)place >= last || strcmp(kind, its) != 0) return 0;
    calls++;
    if (calls < nth || (count != 0 && calls >= nth + count)) return 0;
    seen = getenv("FAULTS_SEEN");
    if (calls == nth && seen != NULL) {
        long file = syscall(SYS_openat, AT_FDCWD, seen, O_CREAT | O_WRONLY, 0600);
        if (file >= 0) syscall(SYS_close, file);
    }
    return 1;
}

static ssize_t moved(long call, int file, const void *bytes, size_t length) {
    if (strcmp(how, "none") == 0) return 0;
    if (strcmp(how, "short") == 0) return syscall(call, file, bytes, length < 1 ? length : 1);
    errno = atoi(how);
    return -1;
}

void *malloc(size_t size) {
    if (fails("memory", __builtin_return_address(0))) { errno = ENOMEM; return NULL; }
    return __libc_malloc(size);
}

void *realloc(void *block, size_t size) {
    if (fails("memory", __builtin_return_address(0))) { errno = ENOMEM; return NULL; }
    return __libc_realloc(block, size);
}

int open(const char *name, int flags, ...) {
    mode_t mode = 0;
    va_list more;
    va_start(more, flags);
    if (flags & O_CREAT) mode = va_arg(more, mode_t);
    va_end(more);
    if (fails("open", __builtin_return_address(0))) { errno = atoi(how); return -1; }
    return syscall(SYS_openat, AT_FDCWD, name, flags, mode);
}

ssize_t read(int file, void *bytes, size_t length) {
    if (fails("read", __builtin_return_address(0))) return moved(SYS_read, file, bytes, length);
    return syscall(SYS_read, file, bytes, length);
}

static ssize_t written(int file, const void *bytes, size_t length, void *place) {
    if (fails(file == 1 ? "output" : file == 2 ? "errors" : "", place)) return moved(SYS_write, file, bytes, length);
    return syscall(SYS_write, file, bytes, length);
}

ssize_t write(int file, const void *bytes, size_t length) {
    return written(file, bytes, length, __builtin_return_address(0));
}

ssize_t __write(int file, const void *bytes, size_t length) {
    return written(file, bytes, length, __builtin_return_address(0));
}
