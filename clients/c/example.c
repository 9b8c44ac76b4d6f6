/* A log over `pagedd`: example FOLDER [RECORD ..]
 *
 * Appends the records of the command line to the log in FOLDER, commits them, and prints all records of the log, with
 * the place of each. FOLDER is made if it is missing. The program is found by the variable PAGEDD, or in PATH. */
#include "paged.h"

#include <inttypes.h>
#include <stdio.h>
#include <stdlib.h>
#include <string.h>

static int fail(const char *what, const struct paged_failure *failure) {
    char words[4096];
    paged_describe(failure, words, sizeof words);
    fprintf(stderr, "example: %s: %s\n", what, words);
    return 1;
}

/* Appends all of the words by one request; at PAGED_OK all of them are durable. */
static enum paged_error append_all(paged_log *log, char **words, size_t count) {
    struct paged_bytes *records = malloc((count + 1) * sizeof *records);
    if (records == NULL)
        return PAGED_NO_MEMORY;
    for (size_t i = 0; i < count; i++) {
        records[i].data = words[i];
        records[i].len = strlen(words[i]);
    }
    enum paged_error error = paged_log_append_records_sync(log, records, count, NULL);
    free(records);
    return error;
}

/* Prints all records. Where a page is damaged it says so, and goes on behind it. */
static enum paged_error print_all(paged_log *log) {
    const struct paged_place start = {0, 0};
    struct paged_record record;
    struct paged_passed passed;
    paged_scan *scan;
    enum paged_error error = paged_scan_open(log, start, 0, &scan);
    if (error)
        return error;
    for (;;) {
        error = paged_scan_next(scan, &record);
        if (error == PAGED_DAMAGED) {
            error = paged_scan_pass_damage(scan, &passed);
            if (!error)
                fprintf(stderr, "example: %" PRIu64 " bytes are damaged\n", passed.bytes);
        } else if (!error) {
            printf("%" PRIu64 ":%" PRIu64 " %.*s\n", record.place.segment, record.place.offset, (int)record.len,
                   (const char *)record.data);
        }
        if (error)
            break;
    }
    paged_scan_close(scan);
    return error == PAGED_PAST_END ? PAGED_OK : error;
}

int main(int count, char **words) {
    struct paged_failure failure;
    paged_log *log;
    if (count < 2) {
        fprintf(stderr, "usage: example FOLDER [RECORD ..]\n");
        return 2;
    }
    if (paged_log_open(words[1], NULL, &log, &failure) != PAGED_OK)
        return fail(words[1], &failure);
    int status = 0;
    if (append_all(log, words + 2, (size_t)count - 2) != PAGED_OK) {
        status = fail("the records aren't known to be durable", paged_log_failure(log));
        if (paged_log_failure(log)->taken > 0)
            fprintf(stderr, "example: the first %" PRIu64 " of them were appended\n", paged_log_failure(log)->taken);
    } else if (print_all(log) != PAGED_OK) {
        status = fail("not all records were read", paged_log_failure(log));
    }
    if (paged_log_close(log, &failure) != PAGED_OK && status == 0)
        status = fail("at the end", &failure);
    return status;
}
