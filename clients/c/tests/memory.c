/* memory PROGRAM FOLDER: each request of paged.c for memory is refused in turn. PROGRAM is that of the other tests,
 * which plays recorded answers. */
#define _XOPEN_SOURCE 700
#include <stdio.h>
#include <stdlib.h>
#include <string.h>

static long left;
static int was_refused;

static int refuses(void) {
    if (left-- != 0)
        return 0;
    was_refused = 1;
    return 1;
}

static void *some_malloc(size_t len) {
    return refuses() ? NULL : malloc(len);
}

static void *some_calloc(size_t count, size_t len) {
    return refuses() ? NULL : calloc(count, len);
}

static void *some_realloc(void *data, size_t len) {
    return refuses() ? NULL : realloc(data, len);
}

#define malloc some_malloc
#define calloc some_calloc
#define realloc some_realloc
#include "../paged.c"
#undef malloc
#undef calloc
#undef realloc

#define SO(holds) ((holds) ? (void)0 : stop(__LINE__, #holds))

static void stop(int line, const char *what) {
    fprintf(stderr, "NOT SO: memory.c:%d: %s\n", line, what);
    exit(1);
}

static const char GREETING[] =
    "> 01 09 00 00 00 00 00..\n< 02 02 01 02\n"
    "> 70 00 00 00 00 02 00 00.. f4 0f 00 00 00 00 00 00 fe ff ff ff 00 00 00 00 fe ff ff ff 00 00 00 00\n"
    "> ff ff 00 00 00 00 00 00 ff ff ff 0f 00 00 00 00 00.. 00.. 06.. 63 72 63 33 32 63 00..\n"
    "> 0f.. 01 02 05 06 07 10 11 12 15 19 1b 1c 1d 1e 1f\n";
static const char SYNC_AND_CLOSE[] = "< 01 00 00 00 02\n> 01 00 00 00 00\n< 01 00 00 00 10\nx 0\n";
static const char *const ANSWERS[] = {
    "< 19 00 00 00 1d 00.. 00.. 30..\n"
    "> 43 00 00 00 00 00.. 10.. 02.. 00.. 00.. 02 00 00 00 00.. 09.. 00 00 00 00 61 62\n",
    "< 11 00 00 00 1c 00.. 09..\n> 42 00 00 00 00 00.. 01.. 10.. 02.. 00.. 01.. 05.. 32.. 00\n",
    "< 11 00 00 00 06 00.. 00..\n> 0b 00 00 00 00 08.. 01 79\n",
    "< 11 00 00 00 07 00.. 00..\n> 23 00 00 00 00 00.. 00.. 00.. 09.. 61 62\n",
    "< 19 00 00 00 1d 00.. 00.. 30..\n"
    "> 43 00 00 00 00 00.. 10.. 02.. 00.. 00.. 02 00 00 00 00.. 09.. 00 00 00 00 61 62\n"};

static enum paged_error call(paged_log *log, size_t number) {
    struct paged_place place = {0, 0};
    const struct paged_record *records;
    struct paged_record record;
    struct paged_where where;
    paged_scan *scan;
    size_t count;
    enum paged_error error;
    switch (number) {
    case 0:
        return paged_log_next_many(log, &place, 48, &records, &count);
    case 1:
        return paged_log_where(log, 0, 9, &where);
    case 2:
        return paged_log_read(log, place, &record);
    case 3:
        return paged_log_next(log, &place, &record);
    default:
        break;
    }
    do
        error = paged_scan_open(log, place, 48, &scan);
    while (error == PAGED_NO_MEMORY);
    if (!error)
        error = paged_scan_next(scan, &record);
    paged_scan_close(scan);
    return error;
}

int main(int count, char **words) {
    struct paged_options options = {0};
    struct paged_failure failure;
    char path[4096], script[4096];
    int turns = 0;
    if (count != 3)
        return 2;
    options.program = words[1];
    snprintf(path, sizeof path, "%s/-script", words[2]);
    for (size_t number = 0; number < sizeof ANSWERS / sizeof *ANSWERS; number++) {
        FILE *file = fopen(path, "w");
        SO(file != NULL);
        snprintf(script, sizeof script, "%s%s%s", GREETING, ANSWERS[number], SYNC_AND_CLOSE);
        SO(fputs(script, file) >= 0 && fclose(file) == 0);
        for (long at = 0;; at++, turns++) {
            paged_log *log;
            left = at;
            was_refused = 0;
            enum paged_error error = paged_log_open(path, &options, &log, &failure);
            if (error) {
                SO(error == PAGED_NO_MEMORY && was_refused && log == NULL);
                SO(failure.error == PAGED_NO_MEMORY && failure.next == PAGED_ASK_AGAIN);
                continue;
            }
            error = call(log, number);
            SO(error == PAGED_OK || (error == PAGED_NO_MEMORY && was_refused));
            /* The session goes on: what was answered without room for it was passed over. */
            SO(paged_log_sync(log) == PAGED_OK);
            SO(paged_log_close(log, NULL) == PAGED_OK);
            if (!was_refused)
                break;
        }
    }
    printf("ok: memory refused in each of %d turns: a code says so, and the session goes on\n", turns);
    return 0;
}
