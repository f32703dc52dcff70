/* Under valgrind a buffer to be filled is undefined before the call, whatever it holds, and every byte of it has to be defined after it.
 * This is a file of its own so that no frame of its functions is part of a caller's, whose stack is measured. */
#include "lent.h"

#if defined __has_include
#if __has_include(<valgrind/memcheck.h>)
#include <valgrind/memcheck.h>
#define HAVE_MEMCHECK
#endif
#endif

static unsigned long defined_after;

#ifdef HAVE_MEMCHECK

void make_undefined(const struct lent *lent)
{
    (void)VALGRIND_MAKE_MEM_UNDEFINED(lent->part, lent->bytes);
}

void check_defined(const void *bytes, size_t count, const char *what)
{
    if (!RUNNING_ON_VALGRIND)
        return;
    check(VALGRIND_CHECK_MEM_IS_DEFINED(bytes, count) == 0, what, defined_after);
    defined_after++;
}

void tell_defined(void)
{
    if (RUNNING_ON_VALGRIND)
        printf("defined after the call: %lu answers and buffers, each buffer undefined before it\n", defined_after);
    else
        printf("left out, not under valgrind: that buffers undefined before a call are defined after it\n");
}

#else

void make_undefined(const struct lent *lent)
{
    (void)lent;
}

void check_defined(const void *bytes, size_t count, const char *what)
{
    (void)bytes;
    (void)count;
    (void)what;
}

void tell_defined(void)
{
    (void)defined_after;
    printf("left out, compiled without valgrind/memcheck.h: that buffers undefined before a call are defined after it\n");
}

#endif
