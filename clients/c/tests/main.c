/* The tests of paged.c: `tests PROG FOLDER` with a built pagedd, or `tests --alone FOLDER` for what needs none.
 * `--kills N` sets how often it is killed, `--seed N` when, and `--figures` measures instead. The script `test`
 * compiles and starts this program. */
#define _XOPEN_SOURCE 700
#include "tests.h"

#include <limits.h>
#include <stdlib.h>
#include <string.h>
#include <sys/stat.h>

const char *pagedd, *self, *room;

void fail_at(const char *file, int line, const char *what) {
    fflush(stdout);
    fprintf(stderr, "NOT SO: %s:%d: %s\n", file, line, what);
    exit(1);
}

void expect(enum paged_error found, enum paged_error wanted, const struct paged_failure *failure, const char *file,
            int line, const char *what) {
    char said[2 * PAGED_SAID] = "";
    if (found == wanted)
        return;
    if (found != PAGED_OK && failure != NULL)
        paged_describe(failure, said, sizeof said);
    fprintf(stderr, "%s, and not %s: %s\n", paged_error_name(found), paged_error_name(wanted), said);
    fail_at(file, line, what);
}

void passed(const char *what) {
    printf("ok: %s\n", what);
    fflush(stdout);
}

const char *path_of(const char *name) {
    static char paths[8][PATH_MAX];
    static int next;
    char *path = paths[next++ % 8];
    SO(snprintf(path, PATH_MAX, "%s/%s", room, name) < PATH_MAX);
    return path;
}

void write_file(const char *path, const void *data, size_t len) {
    FILE *file = fopen(path, "wb");
    SO(file != NULL);
    SO(fwrite(data, 1, len, file) == len);
    SO(fclose(file) == 0);
}

unsigned char *read_file(const char *path, size_t *len) {
    FILE *file = fopen(path, "rb");
    struct stat found;
    SO(file != NULL && fstat(fileno(file), &found) == 0);
    *len = (size_t)found.st_size;
    unsigned char *data = malloc(*len + 1);
    SO(data != NULL && fread(data, 1, *len, file) == *len);
    fclose(file);
    return data;
}

static int usage(void) {
    fprintf(stderr, "usage: tests PROG|--alone FOLDER [--kills N] [--seed N] [--figures]\n");
    return 2;
}

int main(int count, char **words) {
    static char whole[PATH_MAX];
    int kill_count = 1000, measures = 0;
    unsigned seed = 1;
    if (count > 1 && (strcmp(words[1], "serve") == 0 || strcmp(words[1], "serve-log") == 0))
        return play_script(count, words);
    if (count < 3 || realpath(words[0], whole) == NULL)
        return usage();
    self = whole;
    pagedd = words[1];
    room = words[2];
    for (int i = 3; i < count; i++) {
        if (strcmp(words[i], "--figures") == 0)
            measures = 1;
        else if (strcmp(words[i], "--kills") == 0 && i + 1 < count)
            kill_count = atoi(words[++i]);
        else if (strcmp(words[i], "--seed") == 0 && i + 1 < count)
            seed = (unsigned)atoi(words[++i]);
        else
            return usage();
    }
    if (measures) {
        figures();
        return 0;
    }
    if (strcmp(pagedd, "--alone") == 0) {
        tests_alone();
        return 0;
    }
    tests_served();
    kills(kill_count, seed);
    return 0;
}
