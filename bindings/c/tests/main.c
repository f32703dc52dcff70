/* The test of the C functions: stored texts, networks and rows with their answers, calls by hand, what a caller of the interface before gets,
 * and the stack in use.
 * Usage: test FOLDER_OF_CRATES [STEP]
 * With a STEP, as for memcheck, it takes each STEPth stored one, lends blocks without guard bytes, measures no stack, and tells how many
 * buffers that were undefined before a call were found defined after it.
 * Status: 0 where every check holds. */
#include "lent.h"

#include <stdlib.h>

enum { PATH = 1000 };

/* The path of a file in the folder. */
static char *path(char *room, const char *folder, const char *file)
{
    snprintf(room, PATH, "%s/%s", folder, file);
    return room;
}

int main(int argc, char **argv)
{
    char list[PATH], answers[PATH];
    if (argc < 2 || argc > 3 || (argc == 3 && strtoul(argv[2], NULL, 10) == 0)) {
        fprintf(stderr, "usage: test FOLDER_OF_CRATES [STEP]\n");
        return 2;
    }
    unsigned long step = argc == 3 ? strtoul(argv[2], NULL, 10) : 1;
    guard = argc == 3 ? 0 : guard;
    replay_reads(path(list, argv[1], "read_replay/stdin"), path(answers, argv[1], "read_replay/stdout"), step);
    replay_writes(path(list, argv[1], "write_replay/stdin"), path(answers, argv[1], "write_replay/stdout"), step);
    replay_runs(path(list, argv[1], "run_replay/stdin"), path(answers, argv[1], "run_replay/stdout"), step);
    call_reads();
    call_writes();
    call_runs();
    call_starts();
    call_interface();
    if (argc == 2)
        measure_stack(path(list, argv[1], "read_replay/stdin"));
    else
        tell_defined();
    printf("%lu checks, %lu failed\n", checks, failures);
    return failures != 0;
}
