/* What the programs textwrap and hyphenate ask of Linux, for x86-64 Windows, over its C library: calls by the
 * convention of Linux, with Linux's numbers in them. tools/dist puts `linux_` before the name of a call that Windows
 * may have too. What is needed only for the replacing of files fails: neither program does that.
 *
 * That these calls do what those of Linux do is tested, not proved. */
#include <errno.h>
#include <fcntl.h>
#include <io.h>
#include <stddef.h>
#include <stdint.h>
#include <stdlib.h>
#include <sys/stat.h>
#include <windows.h>

#include <shellapi.h>

#include "../c/textwrap_heap.h"

/* ---- Arguments */

/* The status of a program that has a fault. */
enum { FAULT = 2 };

/* An argument in UTF-8. Half a pair that stands alone has none; so the program gets a byte that is no UTF-8 either,
 * and refuses it. */
static char *narrow(const wchar_t *wide) {
    int size = WideCharToMultiByte(CP_UTF8, WC_ERR_INVALID_CHARS, wide, -1, NULL, 0, NULL, NULL);
    if (size == 0) return "\xff";
    char *argument = malloc((size_t)size);
    if (argument == NULL) exit(FAULT);
    WideCharToMultiByte(CP_UTF8, WC_ERR_INVALID_CHARS, wide, -1, argument, size, NULL, NULL);
    return argument;
}

static void make_streams_binary(void) {
    for (int stream = 0; stream < 3; stream++) _setmode(stream, _O_BINARY);
}

/* The arguments in UTF-8, and their number; `main` calls this before all else. */
char **windows_arguments(int *number) {
    make_streams_binary();
    wchar_t **wide = CommandLineToArgvW(GetCommandLineW(), number);
    char **arguments = wide == NULL ? NULL : calloc((size_t)*number + 1, sizeof *arguments);
    if (arguments == NULL) exit(FAULT);
    for (int i = 0; i < *number; i++) arguments[i] = narrow(wide[i]);
    return arguments;
}

/* ---- Errors */

/* Linux's numbers, where Windows has others. Those up to 34 are alike. */
enum { LINUX_EDEADLK = 35, LINUX_ENAMETOOLONG, LINUX_ENOLCK, LINUX_ENOSYS, LINUX_ENOTEMPTY, LINUX_ELOOP, LINUX_EILSEQ = 84 };

static int linux_error(int error) {
    switch (error) {
    case EDEADLK: return LINUX_EDEADLK;
    case ENAMETOOLONG: return LINUX_ENAMETOOLONG;
    case ENOLCK: return LINUX_ENOLCK;
    case ENOSYS: return LINUX_ENOSYS;
    case ENOTEMPTY: return LINUX_ENOTEMPTY;
    case ELOOP: return LINUX_ELOOP;
    case EILSEQ: return LINUX_EILSEQ;
    default: return error;
    }
}

/* What a call answers, after which `errno` is Linux's number. */
static int64_t answered(int64_t answer) {
    if (answer < 0) errno = linux_error(errno);
    return answer;
}

static int refused(int error) {
    errno = error;
    return (int)answered(-1);
}

/* ---- Reading and writing */

/* What one call moves at most; a console refuses more than twice that. */
enum { PORTION = 1 << 15 };

static unsigned portion(size_t size) { return size < PORTION ? (unsigned)size : PORTION; }

RATTLE_CALL int64_t linux_read(int32_t file, void *room, size_t size) {
    return answered(_read(file, room, portion(size)));
}

RATTLE_CALL int64_t linux_write(int32_t file, const void *bytes, size_t size) {
    int written = _write(file, bytes, portion(size));
    /* So Windows, and wine, say that nobody reads a pipe any more. */
    if (written < 0 && (_doserrno == ERROR_NO_DATA || _doserrno == ERROR_PIPE_NOT_CONNECTED)) errno = EPIPE;
    return answered(written);
}

RATTLE_CALL int64_t __write(int32_t file, const void *bytes, size_t size) { return linux_write(file, bytes, size); }

/* Windows also takes a pipe, and moves nothing. */
RATTLE_CALL int64_t linux_lseek(int32_t file, int64_t offset, int32_t from) {
    if (GetFileType((HANDLE)_get_osfhandle(file)) != FILE_TYPE_DISK) return refused(ESPIPE);
    return answered(_lseeki64(file, offset, from));
}

/* ---- Files */

/* The longest path, with the 0 at its end, and the flags by which a file is written. */
enum { LINUX_PATH_MAX = 4096, LINUX_WRITES = 3 };

static bool is_folder(const wchar_t *path) {
    DWORD attributes = GetFileAttributesW(path);
    return attributes != INVALID_FILE_ATTRIBUTES && (attributes & FILE_ATTRIBUTE_DIRECTORY) != 0;
}

/* Linux opens a folder too, and here that fails, by the name of what is wrong. */
RATTLE_CALL int32_t linux_open(const char *path, int32_t flags) {
    if ((flags & LINUX_WRITES) != 0) return refused(ENOSYS);
    wchar_t wide[LINUX_PATH_MAX];
    if (MultiByteToWideChar(CP_UTF8, MB_ERR_INVALID_CHARS, path, -1, wide, LINUX_PATH_MAX) == 0) return refused(ENOENT);
    if (is_folder(wide)) return refused(EISDIR);
    int file = _wopen(wide, _O_RDONLY | _O_BINARY | _O_NOINHERIT);
    /* A name that no file can have here, such as one with a colon. */
    if (file < 0 && _doserrno == ERROR_INVALID_NAME) errno = ENOENT;
    return (int32_t)answered(file);
}

RATTLE_CALL int32_t linux_close(int32_t file) { return (int32_t)answered(_close(file)); }

/* As in Linux's linux/stat.h. */
struct linux_status {
    uint32_t filled, block_size;
    uint64_t attributes;
    uint32_t links, owner, group;
    uint16_t mode, spare;
    uint64_t number, size;
    uint8_t more[208];
};

_Static_assert(sizeof(struct linux_status) == 256 && offsetof(struct linux_status, size) == 40, "as on Linux");

enum { LINUX_TYPE_AND_SIZE = 0x201 };

/* The kind and the size of an open file, which has an empty path. The numbers of the kinds are Linux's. */
RATTLE_CALL int32_t linux_statx(int32_t file, const char *path, int32_t flags, uint32_t asked, struct linux_status *answer) {
    (void)flags, (void)asked;
    struct _stat64 found;
    if (*path != 0) return refused(ENOSYS);
    if (_fstat64(file, &found) < 0) return (int32_t)answered(-1);
    answer->filled = LINUX_TYPE_AND_SIZE;
    answer->mode = found.st_mode;
    answer->size = (uint64_t)found.st_size;
    return 0;
}

/* ---- What Windows has not */

/* Windows sends no signal for a write that nobody reads, so that none is to be ignored. */
RATTLE_CALL void *__sysv_signal(void) { return NULL; }

/* These leave what they are called with unread. */
#define REFUSED(name) RATTLE_CALL int32_t linux_##name(void) { return refused(ENOSYS); }

REFUSED(fchmod)
REFUSED(fchown)
REFUSED(fdatasync)
REFUSED(flock)
REFUSED(fsync)
REFUSED(ftruncate)
REFUSED(rename)
REFUSED(unlink)

RATTLE_CALL char *linux_realpath(void) {
    refused(ENOSYS);
    return NULL;
}
