/* What the proved programs ask of the machine beside the C library and the heap (../c/heap.c): their arguments
 * and `errno`, and under musl, or an old glibc, what only a later glibc has by these names. What Windows has
 * otherwise is in os_windows.c.
 *
 * The assembly in dist/ calls these; the contracts that it relies on stand in the crate `os` of the Rattle kit.
 * That this file meets them is tested, not proved. */
#define _GNU_SOURCE
#include <errno.h>
#include <stddef.h>
#include <stdint.h>
#include <string.h>

#include "../c/textwrap_heap.h"

#ifdef _WIN32
char **windows_arguments(int *number);
#endif

/* The `main` of a program in Rattle, which takes no arguments. */
int32_t proved_main(void);

static size_t count;
static char **arguments;

int main(int argc, char **argv) {
#ifdef _WIN32
    argv = windows_arguments(&argc);
#endif
    count = (size_t)argc;
    arguments = argv;
    return proved_main();
}

enum { NO_ARGUMENT = -1, TOO_LONG = -2 };

/* Puts an argument, of which the name of the program is the first, at the start of the room, and returns its
 * length. One that is too long fills the room. */
RATTLE_CALL ptrdiff_t rattle_arg(size_t number, uint8_t *room, size_t size) {
    if (number >= count) return NO_ARGUMENT;
    size_t length = strlen(arguments[number]);
    if (length > size) {
        memcpy(room, arguments[number], size);
        return TOO_LONG;
    }
    memcpy(room, arguments[number], length);
    return (ptrdiff_t)length;
}

RATTLE_CALL int32_t rattle_errno(void) { return errno; }

RATTLE_CALL void rattle_set_errno(int32_t error) { errno = error; }

#if !defined __GLIBC__ && !defined _WIN32
#include <signal.h>
#include <sys/syscall.h>
#include <unistd.h>

typedef void (*handler)(int);

/* The programs set only what becomes of a write that nobody reads: nothing. */
handler __sysv_signal(int signal_number, handler action) { return signal(signal_number, action); }

ssize_t __write(int file, const void *bytes, size_t size) { return write(file, bytes, size); }

/* musl has this since 1.2.5. */
__attribute__((weak)) int statx(int folder, const char *path, int flags, unsigned mask, void *answer) {
    return (int)syscall(SYS_statx, folder, path, flags, mask, answer);
}
#endif

#ifdef __GLIBC__
#define HAS_FEATURES __GLIBC_PREREQ(2, 33)
#else
#define HAS_FEATURES 0
#endif

#if defined __x86_64__ && !HAS_FEATURES
#include <cpuid.h>

/* As in glibc's sys/platform/x86.h: four registers with what the processor has, and with what may be used. */
struct features {
    uint32_t present[4], active[4];
};

/* What the level x86-64-v2 asks for is in the leaves 0 and 2, and may be used wherever it is present. */
RATTLE_CALL const struct features *__x86_get_cpuid_feature_leaf(uint32_t leaf) {
    static struct features found;
    uint32_t *is = found.present;
    memset(is, 0, sizeof found.present);
    if (leaf != 1) __get_cpuid(leaf == 0 ? 1 : 0x80000001, &is[0], &is[1], &is[2], &is[3]);
    memcpy(found.active, is, sizeof found.active);
    return &found;
}
#endif
