/* Tests of paged.c that need no pagedd: the bytes of each side are written by hand, by docs/PROTOCOL.md,
 * in a script that this program plays when it is started as `serve PATH`.
 *
 * Lines of a script: `> HEX` writes bytes, `< HEX` reads bytes and compares them, `! WORDS` writes a line to standard
 * error, `x N` ends with that exit status, `k` by a signal, `z` never, `b` ends with 2 unless the next byte is 1 (as a
 * program of version 1 alone does), `e N` writes N bytes to standard error, `w WORD` compares the next word of the
 * command line, `f` closes the output and stays. In HEX a blank says nothing, and `..` is seven bytes 00. */
#define _XOPEN_SOURCE 700
#include "tests.h"

#include <errno.h>
#include <fcntl.h>
#include <signal.h>
#include <stdlib.h>
#include <string.h>
#include <sys/resource.h>
#include <sys/wait.h>
#include <time.h>
#include <unistd.h>

/* ---- The recorded program ---------------------------------------------------------------------------------- */

static size_t bytes_of(const char *hex, unsigned char *to) {
    size_t len = 0;
    while (*hex) {
        if (*hex == ' ' || *hex == '\n') {
            hex++;
        } else if (hex[0] == '.') {
            memset(to + len, 0, 7);
            len += 7, hex += 2;
        } else {
            char two[3] = {hex[0], hex[1], 0};
            to[len++] = (unsigned char)strtoul(two, NULL, 16);
            hex += 2;
        }
    }
    return len;
}

static void write_all(int to, const unsigned char *data, size_t len) {
    while (len > 0) {
        ssize_t count = write(to, data, len);
        if (count < 0)
            _exit(98);
        data += count, len -= (size_t)count;
    }
}

static size_t read_all(unsigned char *data, size_t len) {
    size_t found = 0;
    while (found < len) {
        ssize_t count = read(0, data + found, len - found);
        if (count <= 0)
            break;
        found += (size_t)count;
    }
    return found;
}

static void compare(const unsigned char *wanted, size_t len, int number) {
    static unsigned char found[1 << 16];
    size_t count = read_all(found, len);
    if (count == len && memcmp(found, wanted, len) == 0)
        return;
    fprintf(stderr, "line %d of the script: it was sent", number);
    for (size_t i = 0; i < count; i++)
        fprintf(stderr, " %02x", found[i]);
    fprintf(stderr, "\n");
    exit(99);
}

int play_script(int count, char **words) {
    static char line[1 << 16];
    static unsigned char data[1 << 16];
    int word = 1, number = 0;
    FILE *script = fopen(words[count - 1], "r");
    if (script == NULL)
        return 97;
    while (fgets(line, sizeof line, script)) {
        size_t len = line[1] ? bytes_of(line[0] == '>' || line[0] == '<' ? line + 2 : "", data) : 0;
        unsigned char first;
        line[strcspn(line, "\n")] = 0;
        number++;
        switch (line[0]) {
        case '>':
            write_all(1, data, len);
            break;
        case '<':
            compare(data, len, number);
            break;
        case '!':
            fprintf(stderr, "%s\n", line + 2);
            break;
        case 'x':
            return atoi(line + 2);
        case 'k':
            raise(SIGKILL);
            break;
        case 'z':
            for (;;)
                pause();
        case 'b':
            if (read_all(&first, 1) != 1 || first != 1)
                return 2;
            break;
        case 'e':
            memset(data, 'e', sizeof data);
            for (long left = atol(line + 2); left > 0; left -= (long)sizeof data)
                write_all(2, data, sizeof data);
            break;
        case 'f':
            close(1);
            for (;;)
                pause();
        case 'w':
            if (word >= count || strcmp(words[word++], line + 2) != 0) {
                fprintf(stderr, "line %d of the script: the word is %s\n", number, words[word - 1]);
                return 99;
            }
            break;
        default:
            break;
        }
    }
    return 0;
}

/* ---- Helpers ----------------------------------------------------------------------------------------------- */

/* The greeting of a new blob or log, and an offer of both versions. */
#define GREETING "> 01 09 00 00 00 00 00..\n"
#define OFFER "< 02 02 01 02\n"
/* The hello of the page: of a new blob, and of a new log. */
#define HELLO                                                                                               \
    "> 59 00 00 00 00 02 00 00.. f4 0f 00 00 00 00 00 00 fe ff ff ff 00 00 00 00 fe ff ff ff 00 00 00 00\n" \
    "> ff ff ff 0f 00 00 00 00 fe ff ff 1f 00 00 00 00 00.. 00.. 06.. 63 72 63 33 32 63 00..\n"
#define LOG_HELLO                                                                                           \
    "> 70 00 00 00 00 02 00 00.. f4 0f 00 00 00 00 00 00 fe ff ff ff 00 00 00 00 fe ff ff ff 00 00 00 00\n" \
    "> ff ff 00 00 00 00 00 00 ff ff ff 0f 00 00 00 00 00.. 00.. 06.. 63 72 63 33 32 63 00..\n"             \
    "> 0f.. 01 02 05 06 07 10 11 12 15 19 1b 1c 1d 1e 1f\n"
#define OPENED GREETING OFFER HELLO
#define LOG_OPENED GREETING OFFER LOG_HELLO
#define CLOSED "< 01 00 00 00 10\nx 0\n"

static struct paged_failure failure;

static enum paged_error open_blob(const char *script, paged_blob **blob, int version) {
    struct paged_options options = {0};
    const char *path = path_of("script");
    write_file(path, script, strlen(script));
    options.program = self;
    options.version = version;
    return paged_blob_open(path, &options, blob, &failure);
}

static paged_blob *blob_of(const char *script) {
    paged_blob *blob;
    IS(PAGED_OK, open_blob(script, &blob, 0), &failure);
    return blob;
}

static enum paged_error open_log(const char *script, paged_log **log, int version) {
    struct paged_options options = {0};
    const char *path = path_of("script");
    write_file(path, script, strlen(script));
    options.program = self;
    options.version = version;
    return paged_log_open(path, &options, log, &failure);
}

static paged_log *log_of(const char *script) {
    paged_log *log;
    IS(PAGED_OK, open_log(script, &log, 0), &failure);
    return log;
}

static void end_blob(paged_blob *blob) {
    IS(PAGED_OK, paged_blob_close(blob, &failure), &failure);
}

static void end_log(paged_log *log) {
    IS(PAGED_OK, paged_log_close(log, &failure), &failure);
}

/* A script of several parts. */
static const char *joined(const char *first, const char *second, const char *third) {
    static char all[1 << 16];
    snprintf(all, sizeof all, "%s%s%s", first, second, third);
    return all;
}

/* ---- The pages' examples ----------------------------------------------------------------------------------- */

static void page_blob_one(void) {
    unsigned char data[5];
    uint64_t offset = 9;
    paged_blob *blob;
    IS(PAGED_OK,
       open_blob(GREETING "< 01\n"
                          "< 06 00 00 00 01 68 65 6c 6c 6f\n> 09 00 00 00 00 00..\n"
                          "< 01 00 00 00 02\n> 01 00 00 00 00\n"
                          "< 11 00 00 00 06 00.. 05..\n> 06 00 00 00 00 68 65 6c 6c 6f\n" CLOSED,
                 &blob, 1),
       &failure);
    SO(paged_blob_hello(blob)->version == 1 && paged_blob_hello(blob)->size == 0);
    IS(PAGED_OK, paged_blob_append(blob, "hello", 5, &offset), &failure);
    SO(offset == 0);
    IS(PAGED_OK, paged_blob_sync(blob), &failure);
    IS(PAGED_OK, paged_blob_read(blob, 0, data, 5), &failure);
    SO(memcmp(data, "hello", 5) == 0);
    end_blob(blob);
    passed("the bytes of PROTOCOL's example of version 1");
}

static void page_blob_two(void) {
    const struct paged_bytes records[] = {{"ab", 2}, {NULL, 0}, {"cde", 3}};
    const struct paged_range ranges[] = {{0, 2}, {2, 3}};
    const struct paged_hello *hello;
    uint64_t offsets[3], served;
    char data[5];
    paged_blob *blob =
        blob_of(OPENED "< 16 00 00 00 12 03 00 00 00 02 00 00 00 00 00 00 00 03 00 00 00 61 62 63 64 65\n"
                       "> 19 00 00 00 00 00.. 02.. 02..\n"
                       "< 21 00 00 00 14 00.. 02.. 02.. 03..\n> 0e 00 00 00 00 02.. 61 62 63 64 65\n"
                       "< 09 00 00 00 17 00..\n> 12 00 00 00 14 00 00.. 00..\n" CLOSED);
    hello = paged_blob_hello(blob);
    SO(hello->version == 2 && !hello->read_only && hello->size == 0 && hello->page_size == 4084);
    SO(hello->most_payload == 4294967294u && hello->most_fields == 4294967294u && hello->most_record == 0);
    SO(hello->most_ranges == 268435455 && hello->most_records == 536870910 && !hello->cut && !hello->given_up);
    SO(strcmp(hello->checksum, "crc32c") == 0 && strcmp(hello->copy, "") == 0 && hello->kind_count == 0);
    IS(PAGED_OK, paged_blob_append_records_sync(blob, records, 3, offsets), paged_blob_failure(blob));
    SO(offsets[0] == 0 && offsets[1] == 2 && offsets[2] == 2);
    IS(PAGED_OK, paged_blob_read_ranges(blob, ranges, 2, data, &served), paged_blob_failure(blob));
    SO(served == 2 && memcmp(data, "abcde", 5) == 0);
    IS(PAGED_UNKNOWN_NUMBER, paged_blob_drop_snapshot(blob, 0), paged_blob_failure(blob));
    SO(paged_blob_failure(blob)->status == 20 && paged_blob_failure(blob)->next == PAGED_ASK_ELSE);
    SO(paged_blob_failure(blob)->taken == 0 && paged_blob_failure(blob)->system_error == 0);
    end_blob(blob);
    passed("the bytes of PROTOCOL's example of version 2");
}

static void page_worked(void) {
    const struct paged_bytes two[] = {{"ab", 2}, {"c", 1}};
    const struct paged_bytes d = {"d", 1}, e = {"e", 1}, f = {"f", 1};
    const struct paged_range range = {1, 2};
    struct paged_started started;
    uint64_t offsets[2], number, other;
    char data[2];
    paged_blob *blob =
        blob_of(OPENED "< 10 00 00 00 11 02 00 00 00 02 00 00 00 01 00 00 00 61 62 63\n> 11 00 00 00 00 06.. 08..\n"
                       "< 0a 00 00 00 12 01 00 00 00 01 00 00 00 64\n> 09 00 00 00 00 09..\n"
                       "< 0a 00 00 00 13 01 00 00 00 01 00 00 00 65\n> 12 00 00 00 00 0a.. 01 00..\n"
                       "< 11 00 00 00 14 01.. 02..\n> 0b 00 00 00 00 01.. 62 63\n"
                       "< 01 00 00 00 15\n> 09 00 00 00 00 0b..\n"
                       "< 01 00 00 00 16\n> 09 00 00 00 00 0b..\n"
                       "< 09 00 00 00 17 00..\n> 01 00 00 00 00\n"
                       "< 09 00 00 00 18 00..\n> 01 00 00 00 00\n"
                       "< 01 00 00 00 19\n> 01 00 00 00 00\n"
                       "< 01 00 00 00 1a\n> 11 00 00 00 00 00.. 00..\n"
                       "< 09 00 00 00 18 00..\n> 12 00 00 00 14 00 00.. 00..\n"
                       "< 0a 00 00 00 12 01 00 00 00 01 00 00 00 66\n> 16 00 00 00 02 02 01.. 1c.. 66 75 6c 6c\n"
                       "< 01 00 00 00 10\nx 1\n");
    const struct paged_failure *why = paged_blob_failure(blob);
    IS(PAGED_OK, paged_blob_append_records(blob, two, 2, offsets), why);
    SO(offsets[0] == 6 && offsets[1] == 8);
    IS(PAGED_OK, paged_blob_append_records_sync(blob, &d, 1, offsets), why);
    SO(offsets[0] == 9);
    IS(PAGED_OK, paged_blob_append_records_start(blob, &e, 1, offsets, &started), why);
    SO(offsets[0] == 10 && started.pending == 1 && started.name == 0);
    IS(PAGED_OK, paged_blob_read_ranges(blob, &range, 1, data, &number), why);
    SO(number == 1 && memcmp(data, "bc", 2) == 0);
    IS(PAGED_OK, paged_blob_sync_size(blob, &number), why);
    SO(number == 11);
    IS(PAGED_OK, paged_blob_look(blob, &number), why);
    SO(number == 11);
    IS(PAGED_OK, paged_blob_drop_snapshot(blob, 0), why);
    IS(PAGED_OK, paged_blob_drop_replay(blob, 0), why);
    IS(PAGED_OK, paged_blob_flush(blob), why);
    IS(PAGED_OK, paged_blob_count_open(blob, &number, &other), why);
    SO(number == 0 && other == 0);
    IS(PAGED_UNKNOWN_NUMBER, paged_blob_drop_replay(blob, 0), why);
    IS(PAGED_WRITE_FAILED, paged_blob_append_records_sync(blob, &f, 1, NULL), why);
    SO(why->next == PAGED_OPEN_ANEW && why->taken == 1 && why->system_error == 28 && !strcmp(why->words, "full"));
    IS(PAGED_CLOSED, paged_blob_close(blob, &failure), &failure);
    SO(failure.exit_status == 1);
    passed("PROTOCOL's worked bytes of each request of version 2, and the end with exit status 1");
}

static void page_log_one(void) {
    struct paged_place place = {9, 9};
    struct paged_record record;
    paged_log *log;
    IS(PAGED_OK,
       open_log(GREETING "< 01\n"
                         "< 06 00 00 00 01 68 65 6c 6c 6f\n> 11 00 00 00 00 00.. 00..\n"
                         "< 01 00 00 00 02\n> 01 00 00 00 00\n"
                         "< 11 00 00 00 06 00.. 00..\n> 0f 00 00 00 00 0c.. 01 68 65 6c 6c 6f\n"
                         "< 11 00 00 00 07 00.. 00..\n> 26 00 00 00 00 00.. 00.. 00.. 0c.. 68 65 6c 6c 6f\n"
                         "< 11 00 00 00 07 00.. 0c..\n> 01 00 00 00 06\n" CLOSED,
                &log, 1),
       &failure);
    IS(PAGED_OK, paged_log_append(log, "hello", 5, &place), paged_log_failure(log));
    SO(place.segment == 0 && place.offset == 0);
    IS(PAGED_OK, paged_log_sync(log), paged_log_failure(log));
    IS(PAGED_OK, paged_log_read(log, place, &record), paged_log_failure(log));
    SO(record.is_record && record.len == 5 && memcmp(record.data, "hello", 5) == 0 && record.behind.offset == 12);
    IS(PAGED_OK, paged_log_next(log, &place, &record), paged_log_failure(log));
    SO(record.len == 5 && record.place.offset == 0 && place.segment == 0 && place.offset == 12);
    IS(PAGED_PAST_END, paged_log_next(log, &place, &record), paged_log_failure(log));
    SO(place.offset == 12 && paged_log_failure(log)->next == PAGED_NEXT_UNKNOWN);
    IS(PAGED_UNSUPPORTED, paged_log_append_records(log, NULL, 0, NULL), paged_log_failure(log));
    IS(PAGED_UNSUPPORTED, paged_log_nth(log, 0, 0, NULL), paged_log_failure(log));
    end_log(log);
    passed("the bytes of PROTOCOL's example of a log, version 1; requests of version 2 aren't sent");
}

static void page_log_two(void) {
    const struct paged_bytes records[] = {{"ab", 2}, {"", 0}, {"cde", 3}};
    const struct paged_record *found;
    struct paged_place places[3], place = {0, 0};
    struct paged_record record;
    struct paged_where where;
    size_t count;
    paged_log *log = log_of(
        LOG_OPENED "< 16 00 00 00 12 03 00 00 00 02 00 00 00 00 00 00 00 03 00 00 00 61 62 63 64 65\n"
                   "> 31 00 00 00 00 00.. 00.. 00.. 09.. 00.. 10..\n"
                   "< 11 00 00 00 07 00.. 00..\n> 23 00 00 00 00 00.. 00.. 00.. 09.. 61 62\n"
                   "< 19 00 00 00 1d 00.. 00.. 30..\n"
                   "> 43 00 00 00 00 00.. 10.. 02.. 00.. 00.. 02 00 00 00 00.. 09.. 00 00 00 00 61 62\n"
                   "< 11 00 00 00 1c 00.. ff ff ff ff ff ff ff ff\n> 31 00 00 00 00 00.. 00.. 1a.. 03.. 00.. 00..\n"
                   "< 09 00 00 00 1b 05..\n> 12 00 00 00 26 00 00.. 00..\n" CLOSED);
    SO(paged_log_hello(log)->most_record == 65535 && paged_log_hello(log)->kind_count == 15);
    IS(PAGED_OK, paged_log_append_records_sync(log, records, 3, places), paged_log_failure(log));
    SO(places[0].offset == 0 && places[1].offset == 9 && places[2].offset == 16);
    IS(PAGED_OK, paged_log_next(log, &place, &record), paged_log_failure(log));
    SO(record.len == 2 && memcmp(record.data, "ab", 2) == 0 && place.offset == 9);
    place.offset = 0;
    IS(PAGED_OK, paged_log_next_many(log, &place, 48, &found, &count), paged_log_failure(log));
    SO(count == 2 && place.offset == 16 && found[0].len == 2 && found[1].len == 0 && found[1].place.offset == 9);
    SO(memcmp(found[0].data, "ab", 2) == 0 && found[0].behind.offset == 9 && found[1].behind.offset == 16);
    IS(PAGED_OK, paged_log_where(log, 0, UINT64_MAX, &where), paged_log_failure(log));
    SO(where.first == 0 && where.last == 0 && where.end.offset == 26 && where.records == 3 && !where.closed_count);
    IS(PAGED_NO_SEGMENT, paged_log_drop_before(log, 5), paged_log_failure(log));
    SO(paged_log_failure(log)->status == 38 && paged_log_failure(log)->next == PAGED_ASK_ELSE);
    end_log(log);
    passed("the bytes of PROTOCOL's example of a log, version 2");
}

/* ---- The other requests ------------------------------------------------------------------------------------ */

static void other_requests(void) {
    struct paged_started started;
    uint64_t number;
    size_t count;
    char data[8];
    int yes;
    paged_blob *blob = blob_of(OPENED "< 01 00 00 00 03\n> 0a 00 00 00 00 01 07..\n"
                                      "< 09 00 00 00 04 07..\n> 01 00 00 00 00\n"
                                      "< 01 00 00 00 03\n> 02 00 00 00 00 00\n"
                                      "< 01 00 00 00 05\n> 09 00 00 00 00 03..\n"
                                      "< 11 00 00 00 07 01.. 08..\n> 03 00 00 00 00 62 63\n"
                                      "< 09 00 00 00 09 02..\n> 09 00 00 00 00 02..\n"
                                      "< 01 00 00 00 08\n> 01 00 00 00 00\n"
                                      "< 01 00 00 00 0a\n> 09 00 00 00 00 05..\n"
                                      "< 19 00 00 00 0b 05.. 01.. 01..\n> 02 00 00 00 00 62\n"
                                      "< 09 00 00 00 0c 40..\n> 09 00 00 00 00 04..\n"
                                      "< 11 00 00 00 0d 04.. 08..\n> 02 00 00 00 00 00\n"
                                      "< 11 00 00 00 0e 04.. 08..\n> 03 00 00 00 00 61 62\n"
                                      "< 11 00 00 00 0f 04.. 00..\n> 01 00 00 00 00\n" CLOSED);
    const struct paged_failure *why = paged_blob_failure(blob);
    IS(PAGED_OK, paged_blob_start_sync(blob, &started), why);
    SO(started.pending && started.name == 7);
    IS(PAGED_OK, paged_blob_wait_sync(blob, 7), why);
    IS(PAGED_OK, paged_blob_start_sync(blob, &started), why);
    SO(!started.pending);
    IS(PAGED_OK, paged_blob_size(blob, &number), why);
    SO(number == 3);
    IS(PAGED_OK, paged_blob_read_up_to(blob, 1, data, 8, &count), why);
    SO(count == 2 && memcmp(data, "bc", 2) == 0);
    IS(PAGED_OK, paged_blob_truncate(blob, 2, &number), why);
    SO(number == 2);
    IS(PAGED_OK, paged_blob_begin(blob), why);
    IS(PAGED_OK, paged_blob_snapshot(blob, &number), why);
    SO(number == 5);
    IS(PAGED_OK, paged_blob_read_snapshot(blob, 5, 1, data, 1), why);
    SO(data[0] == 'b');
    IS(PAGED_OK, paged_blob_replay(blob, 64, &number), why);
    SO(number == 4);
    IS(PAGED_OK, paged_blob_ensure(blob, 4, 8, &yes), why);
    SO(yes == 0);
    IS(PAGED_OK, paged_blob_take(blob, 4, data, 8, &count), why);
    SO(count == 2 && memcmp(data, "ab", 2) == 0);
    IS(PAGED_OK, paged_blob_seek(blob, 4, 0), why);
    end_blob(blob);
    passed("the bytes of each other request of a blob");
}

static void log_requests(void) {
    const struct paged_bytes record = {"x", 1};
    const struct paged_place places[] = {{3, 0}, {3, 8}};
    struct paged_record records[2];
    struct paged_place place;
    struct paged_passed passed_by;
    struct paged_where where;
    uint64_t number;
    paged_log *log = log_of(
        LOG_OPENED "< 0a 00 00 00 11 01 00 00 00 01 00 00 00 78\n> 11 00 00 00 00 03.. 08..\n"
                   "< 01 00 00 00 15\n> 09 00 00 00 00 02..\n"
                   "< 01 00 00 00 05\n> 09 00 00 00 00 02..\n"
                   "< 01 00 00 00 19\n> 01 00 00 00 00\n"
                   "< 11 00 00 00 06 03.. 00.. 11 00 00 00 06 03.. 08..\n"
                   "> 0b 00 00 00 00 08.. 01 79 0a 00 00 00 00 10.. 00\n"
                   "< 11 00 00 00 1e 03.. 01..\n> 11 00 00 00 00 03.. 08..\n"
                   "< 11 00 00 00 1f 02.. 07..\n> 21 00 00 00 00 03.. 00.. 64.. 09..\n"
                   "< 11 00 00 00 1f 02.. 07..\n> 21 00 00 00 00 03.. 00.. 64.. ff ff ff ff ff ff ff ff\n"
                   "< 11 00 00 00 1c 00.. 09..\n> 42 00 00 00 00 01.. 03.. 10.. 02.. 01.. 01.. 05.. 32.. 00\n"
                   "< 11 00 00 00 1c 02.. 09..\n> 42 00 00 00 00 01.. 03.. 10.. 02.. 02.. 01.. 06.. 33.. 01\n" CLOSED);
    const struct paged_failure *why = paged_log_failure(log);
    IS(PAGED_OK, paged_log_append_records(log, &record, 1, &place), why);
    SO(place.segment == 3 && place.offset == 8);
    IS(PAGED_OK, paged_log_sync_size(log, &number), why);
    SO(number == 2);
    IS(PAGED_OK, paged_log_size(log, &number), why);
    SO(number == 2);
    IS(PAGED_OK, paged_log_flush(log), why);
    IS(PAGED_OK, paged_log_read_many(log, places, 2, records, NULL), why);
    SO(records[0].is_record && records[0].len == 1 && records[0].data[0] == 'y' && records[0].behind.offset == 8);
    SO(!records[1].is_record && records[1].len == 0 && records[1].behind.offset == 16);
    IS(PAGED_OK, paged_log_nth(log, 3, 1, &place), why);
    SO(place.segment == 3 && place.offset == 8);
    place.segment = 2, place.offset = 7;
    IS(PAGED_OK, paged_log_pass_damage(log, place, &passed_by), why);
    SO(passed_by.place.segment == 3 && passed_by.bytes == 100 && passed_by.records_known && passed_by.records == 9);
    IS(PAGED_OK, paged_log_pass_damage(log, place, &passed_by), why);
    SO(!passed_by.records_known && passed_by.records == 0);
    IS(PAGED_OK, paged_log_where(log, 0, 9, &where), why);
    SO(where.first == 1 && where.last == 3 && where.end.segment == 3 && where.end.offset == 16 && where.records == 2);
    SO(where.closed_count == 2 && where.closed[0].segment == 1 && where.closed[0].records == 5);
    SO(where.closed[0].bytes == 50 && !where.closed[0].of_file && where.closed[1].of_file == 1);
    SO(where.closed[1].segment == 2 && where.closed[1].bytes == 51);
    end_log(log);
    passed("the bytes of each other request of a log; where asks again for what an answer didn't hold");
}

/* ---- Versions ---------------------------------------------------------------------------------------------- */

static void versions(void) {
    paged_blob *blob;
    struct paged_record record;
    paged_log *log;
    paged_scan *scan;
    const struct paged_place start = {0, 0};
    IS(PAGED_OK, open_blob(GREETING "b\n< 01 00 00 00 02\n> 01 00 00 00 00\n" CLOSED, &blob, 0), &failure);
    SO(paged_blob_hello(blob)->version == 1);
    IS(PAGED_OK, paged_blob_sync(blob), paged_blob_failure(blob));
    IS(PAGED_UNSUPPORTED, paged_blob_look(blob, NULL), paged_blob_failure(blob));
    SO(paged_blob_failure(blob)->status == -1);
    end_blob(blob);
    IS(PAGED_NO_VERSION, open_blob(GREETING "b\n", &blob, 2), &failure);
    SO(blob == NULL && failure.exit_status == 2);
    IS(PAGED_OK, open_blob(GREETING OFFER "> 02 00 00 00 00 01\n" CLOSED, &blob, 0), &failure);
    SO(paged_blob_hello(blob)->version == 1);
    end_blob(blob);
    IS(PAGED_NO_VERSION, open_blob(GREETING "< 02 01 02\n> 03 00 00 00 18 01 03\nx 2\n", &blob, 2), &failure);
    SO(failure.status == 24);
    IS(PAGED_BAD_ANSWER, open_blob(GREETING OFFER "> 02 00 00 00 00 03\nz\n", &blob, 0), &failure);
    passed("a program of version 1 alone is started again; versions that aren't there");
    /* The hello of a program before version 0.12 ends before the kinds. */
    log = log_of(GREETING OFFER
                 "> 59 00 00 00 00 02 00 00.. f4 0f 00 00 00 00 00 00 fe ff ff ff 00 00 00 00 fe ff ff ff 00 00 00 00\n"
                 "> ff ff 00 00 00 00 00 00 ff ff ff 0f 00 00 00 00 00.. 00.. 06.. 63 72 63 33 32 63 00..\n"
                 "< 11 00 00 00 07 00.. 00..\n> 22 00 00 00 00 00.. 00.. 00.. 08.. 78\n"
                 "< 11 00 00 00 07 00.. 08..\n> 12 00 00 00 06 00 00.. 00..\n" CLOSED);
    IS(PAGED_UNSUPPORTED, paged_log_where(log, 0, 1, NULL), paged_log_failure(log));
    IS(PAGED_OK, paged_scan_open(log, start, 0, &scan), paged_log_failure(log));
    IS(PAGED_OK, paged_scan_next(scan, &record), paged_log_failure(log));
    SO(record.len == 1 && record.data[0] == 'x');
    IS(PAGED_PAST_END, paged_scan_next(scan, &record), paged_log_failure(log));
    SO(paged_scan_place(scan).offset == 8);
    paged_scan_close(scan);
    end_log(log);
    /* A later hello may have more at its end: of a blob anything, of a log behind the kinds. */
    blob =
        blob_of(GREETING OFFER
                "> 5b 00 00 00 00 02 01 03.. f4 0f 00 00 00 00 00 00 fe ff ff ff 00 00 00 00 fe ff ff ff 00 00 00 00\n"
                "> ff ff ff 0f 00 00 00 00 fe ff ff 1f 00 00 00 00 07.. 08.. 03.. 61 64 64 05.. 66 2e 63 2d 31 aa bb\n"
                "x 0\n");
    SO(paged_blob_hello(blob)->read_only && paged_blob_hello(blob)->size == 3 && paged_blob_hello(blob)->cut == 7);
    SO(paged_blob_hello(blob)->given_up == 8 && !strcmp(paged_blob_hello(blob)->checksum, "add"));
    SO(!strcmp(paged_blob_hello(blob)->copy, "f.c-1"));
    IS(PAGED_OK, paged_blob_close(blob, &failure), &failure);
    passed("hellos of earlier and later programs");
}

/* ---- Refusals ---------------------------------------------------------------------------------------------- */

static void refusals(void) {
    static const int statuses[] = {1,  2,  3,  4,  5,  6,  7,  8,  9,  16, 17, 18, 19, 20, 21, 22,
                                   23, 24, 32, 33, 34, 35, 36, 37, 38, 39, 40, 41, 42, 43, 44, 45};
    char script[512], line[PAGED_SAID * 2];
    paged_blob *blob;
    for (size_t i = 0; i < sizeof statuses / sizeof *statuses; i++) {
        for (int version = 1; version <= 2; version++) {
            snprintf(script, sizeof script, "%s< 01 00 00 00 02\n> %s 00 00 00 %02x %s\n" CLOSED,
                     version == 1 ? GREETING "< 01\n" : GREETING "< 02 01 02\n" HELLO, version == 1 ? "01" : "16",
                     (unsigned)statuses[i], version == 1 ? "" : "03 05.. 1c.. 77 6f 72 64");
            IS(PAGED_OK, open_blob(script, &blob, version), &failure);
            const struct paged_failure *why = paged_blob_failure(blob);
            IS((enum paged_error)statuses[i], paged_blob_sync(blob), why);
            SO(why->status == statuses[i] && why->exit_status == -1 && why->signal == 0);
            SO(strcmp(paged_error_name(why->error), "no error of this client") != 0 &&
               why->error < PAGED_UNKNOWN_STATUS);
            if (version == 2)
                SO(why->next == PAGED_REPLACE_FILE && why->taken == 5 && why->system_error == 28 &&
                   strcmp(why->words, "word") == 0);
            else
                SO(why->next == PAGED_NEXT_UNKNOWN && !why->taken && !why->system_error && !why->words[0]);
            end_blob(blob);
        }
    }
    passed("each status has a code of its own, in both versions");
    blob = blob_of(OPENED "< 01 00 00 00 02\n> 12 00 00 00 63 09 00.. 00..\n! pagedd: a line\n" CLOSED);
    IS(PAGED_UNKNOWN_STATUS, paged_blob_sync(blob), paged_blob_failure(blob));
    SO(paged_blob_failure(blob)->status == 99 && paged_blob_failure(blob)->next == PAGED_NEXT_UNKNOWN);
    SO(paged_describe(paged_blob_failure(blob), line, sizeof line) == strlen(line) && strstr(line, "status 99"));
    SO(paged_describe(paged_blob_failure(blob), line, 5) > 5 && strlen(line) == 4);
    SO(paged_describe(paged_blob_failure(blob), NULL, 0) > 5);
    end_blob(blob);
    passed("a status that isn't known, and the line of a failure");
    blob = blob_of(OPENED "< 01 00 00 00 02\n> 12 00 00 00 04 03 00.. 00..\n! pagedd: f: SyncFailed\nx 1\n");
    IS(PAGED_SYNC_FAILED, paged_blob_sync(blob), paged_blob_failure(blob));
    IS(PAGED_ENDED, paged_blob_sync(blob), paged_blob_failure(blob));
    SO(paged_blob_failure(blob)->next == PAGED_REPLACE_FILE && paged_blob_failure(blob)->exit_status == 1);
    SO(!strcmp(paged_blob_failure(blob)->said, "pagedd: f: SyncFailed\n"));
    IS(PAGED_SESSION_OVER, paged_blob_sync(blob), paged_blob_failure(blob));
    SO(paged_blob_failure(blob)->error == PAGED_ENDED);
    IS(PAGED_ENDED, paged_blob_close(blob, &failure), &failure);
    SO(failure.next == PAGED_REPLACE_FILE);
    passed("after a failed sync each later failure says to replace the file");
}

/* ---- Programs that are lost -------------------------------------------------------------------------------- */

static void lost_opening(void) {
    paged_blob *blob;
    struct paged_options options = {0};
    options.program = "/nowhere/pagedd";
    IS(PAGED_NOT_STARTED, paged_blob_open("f", &options, &blob, &failure), &failure);
    /* (valgrind has the program fail as it starts, and not the call that starts it) */
    SO(failure.system_error == ENOENT || failure.exit_status == 127);
    SO(blob == NULL && failure.next == PAGED_MEND_FIRST);
    options.program = room;
    IS(PAGED_NOT_STARTED, paged_blob_open("f", &options, &blob, NULL), NULL);
    IS(PAGED_WRONG_ARGUMENT, paged_blob_open(NULL, &options, &blob, &failure), &failure);
    options.version = 3;
    IS(PAGED_WRONG_ARGUMENT, paged_blob_open("f", &options, &blob, &failure), &failure);
    IS(PAGED_NOT_STARTED, open_blob("x 127\n", &blob, 0), &failure);
    IS(PAGED_NOT_OPENED, open_blob("! pagedd: f: no such folder\nx 1\n", &blob, 0), &failure);
    SO(failure.exit_status == 1 && !strcmp(failure.said, "pagedd: f: no such folder\n"));
    IS(PAGED_LOCKED, open_blob("! pagedd: f: another process has it open: end that one first\nx 1\n", &blob, 0),
       &failure);
    IS(PAGED_NOT_WHOLE, open_blob("! pagedd: f: nothing was cut\nx 3\n", &blob, 0), &failure);
    SO(failure.next == PAGED_MEND_FIRST && failure.exit_status == 3);
    IS(PAGED_ENDED, open_blob("x 5\n", &blob, 0), &failure);
    IS(PAGED_ENDED, open_blob("k\n", &blob, 0), &failure);
    SO(failure.signal == SIGKILL && failure.exit_status == -1);
    IS(PAGED_READ_FAILED, open_blob("> 01 01 00 00 00 01\n! pagedd: f: input/output error\nx 1\n", &blob, 0), &failure);
    SO(failure.status == 1 && failure.exit_status == 1 && failure.next == PAGED_MEND_FIRST && failure.said[0]);
    IS(PAGED_SYNC_FAILED, open_blob("> 01 01 00 00 00 04\nx 1\n", &blob, 0), &failure);
    SO(failure.next == PAGED_REPLACE_FILE);
    passed("programs that can't be started, or end before they are open");
}

static void cut_answers(void) {
    /* An answer to an append, cut behind each of its bytes; and so the greeting and the hello. */
    char script[2048];
    uint64_t offset;
    paged_blob *blob;
    for (int count = 0; count < 13; count++) {
        snprintf(script, sizeof script, "%s< 02 00 00 00 01 61\n> %.*s\nx 7\n", OPENED, 2 * count,
                 "09000000000000000000000000");
        blob = blob_of(script);
        IS(PAGED_ENDED, paged_blob_append(blob, "a", 1, &offset), paged_blob_failure(blob));
        SO(paged_blob_failure(blob)->exit_status == 7 && paged_blob_failure(blob)->next == PAGED_OPEN_ANEW);
        SO(strstr(paged_blob_failure(blob)->words, count ? "in the midst" : "in place") != NULL);
        IS(PAGED_SESSION_OVER, paged_blob_append(blob, "a", 1, &offset), paged_blob_failure(blob));
        IS(PAGED_ENDED, paged_blob_close(blob, NULL), NULL);
    }
    for (int count = 0; count < 14; count++) {
        snprintf(script, sizeof script, "> %.*s\nk\n", 2 * count, "0109000000000000000000000000");
        IS(PAGED_ENDED, open_blob(script, &blob, 0), &failure);
        SO(blob == NULL && failure.signal == SIGKILL);
    }
    static const char hello[] = "5900000000020000000000000000"
                                "f40f000000000000fefffffff0000000fefffffff0000000ffffff0f00000000feffff1f00000000"
                                "000000000000000000000000000000000600000000000000637263333263"
                                "0000000000000000";
    for (int count = 0; count < 93; count += 3) {
        snprintf(script, sizeof script, GREETING OFFER "> %.*s\nx 1\n", 2 * count, hello);
        enum paged_error error = open_blob(script, &blob, 0);
        IS(PAGED_NOT_OPENED, error, &failure);
        SO(blob == NULL && failure.exit_status == 1);
    }
    passed("answers, a greeting and a hello that are cut in the midst");
}

static void wrong_blob_answers(void) {
    static const char *const bad[] = {"> 00 00 00 00\nz\n",       "> ff ff ff ff 00\nz\n",
                                      "> 02 00 00 00 00 00\nz\n", "> 02 00 00 00 02 00\nz\n",
                                      "> 13 01 00 00 02\nz\n",    "> 09 00 00 00 02 00..\nz\n"};
    static const struct {
        const char *words, *script;
    } openings[] = {
        {"another greeting", "> 02\nz\n"},
        {"a text", "> 48 65 6c 6c 6f\nz\n"},
        {"a long greeting", "> 01 0a 00 00 00 00 00.. 00\nz\n"},
        {"a status with bytes", "> 01 02 00 00 00 01 00\nz\n"},
        {"a hello without fields", GREETING OFFER "> 02 00 00 00 00 02\nz\n"},
        {"a text that is too long", GREETING OFFER
         "> 59 00 00 00 00 02 00 00.. f4 0f 00 00 00 00 00 00 fe ff ff ff 00 00 00 00 fe ff ff ff 00 00 00 00\n"
         "> ff ff ff 0f 00 00 00 00 fe ff ff 1f 00 00 00 00 00.. 00.. 07.. 63 72 63 33 32 63 00..\nz\n"},
        {"a text of any length", GREETING OFFER
         "> 59 00 00 00 00 02 00 00.. f4 0f 00 00 00 00 00 00 fe ff ff ff 00 00 00 00 fe ff ff ff 00 00 00 00\n"
         "> ff ff ff 0f 00 00 00 00 fe ff ff 1f 00 00 00 00 00.. 00.. ff ff ff ff ff ff ff ff 32 63 00.. 61 62 63 64\n"
         "z\n"},
        {"a hello of 4 GiB", GREETING OFFER "> ff ff ff ff 00 02\nz\n"}};
    paged_blob *blob;
    for (size_t i = 0; i < sizeof openings / sizeof *openings; i++)
        SO(open_blob(openings[i].script, &blob, 0) == PAGED_BAD_ANSWER && blob == NULL);
    for (size_t i = 0; i < sizeof bad / sizeof *bad; i++) {
        blob = blob_of(joined(OPENED "< 01 00 00 00 02\n", bad[i], ""));
        IS(PAGED_BAD_ANSWER, paged_blob_sync(blob), paged_blob_failure(blob));
        SO(paged_blob_failure(blob)->next == PAGED_OPEN_ANEW);
        IS(PAGED_SESSION_OVER, paged_blob_sync(blob), paged_blob_failure(blob));
        IS(PAGED_BAD_ANSWER, paged_blob_close(blob, &failure), &failure);
    }
    passed("greetings, hellos and answers that are nonsense; a program that hangs then is killed");
}

/* Each call of a blob is answered with a payload that it can't have. */
static void wrong_payloads(void) {
    const struct paged_bytes record = {"x", 1};
    const struct paged_range range = {0, 1};
    struct paged_started started;
    uint64_t number;
    size_t count;
    char data[8];
    int yes;
    for (int call = 0; call < 14; call++) {
        static const char *const answers[] = {"> 08 00 00 00 00 00..",
                                              "> 03 00 00 00 00 01 00",
                                              "> 0a 00 00 00 00 00 00..",
                                              "> 02 00 00 00 00 01",
                                              "> 08 00 00 00 00 00..",
                                              "> 06 00 00 00 00 61 62 63 64 65",
                                              "> 06 00 00 00 00 61 62 63 64 65",
                                              "> 02 00 00 00 00 02",
                                              "> 01 00 00 00 00",
                                              "> 06 00 00 00 00 61 62 63 64 65",
                                              "> 01 00 00 00 00",
                                              "> 09 00 00 00 00 00..",
                                              "> 0b 00 00 00 00 00.. 61 62",
                                              "> 09 00 00 00 00 00.."};
        char script[4096];
        /* (`g` isn't read: what is asked is known from the tests above) */
        snprintf(script, sizeof script, "%s%s\nz\n", OPENED, answers[call]);
        paged_blob *blob = blob_of(script);
        enum paged_error error = PAGED_OK;
        switch (call) {
        case 0:
            error = paged_blob_append(blob, "x", 1, &number);
            break;
        case 1:
        case 2:
        case 3:
            error = paged_blob_start_sync(blob, &started);
            break;
        case 4:
            error = paged_blob_size(blob, &number);
            break;
        case 5:
            error = paged_blob_read(blob, 0, data, 4);
            break;
        case 6:
            error = paged_blob_read_up_to(blob, 0, data, 4, &count);
            break;
        case 7:
        case 8:
            error = paged_blob_ensure(blob, 0, 1, &yes);
            break;
        case 9:
            error = paged_blob_take(blob, 0, data, 4, &count);
            break;
        case 10:
            error = paged_blob_append_records(blob, &record, 1, &number);
            break;
        case 11:
            error = paged_blob_append_records_start(blob, &record, 1, &number, &started);
            break;
        case 12:
            error = paged_blob_read_ranges(blob, &range, 1, data, &number);
            break;
        case 13:
            error = paged_blob_count_open(blob, &number, &number);
            break;
        default:
            break;
        }
        IS(PAGED_BAD_ANSWER, error, paged_blob_failure(blob));
        IS(PAGED_BAD_ANSWER, paged_blob_close(blob, NULL), NULL);
    }
    passed("payloads of a blob that have another length or other bytes");
}

static void wrong_log_answers(void) {
    const struct paged_bytes record = {"x", 1};
    const struct paged_record *records;
    struct paged_place place, start = {0, 5};
    struct paged_record found;
    struct paged_where where;
    struct paged_passed passed_by;
    size_t count;
    static const struct {
        char call;
        const char *answer;
    } cases[] = {
        {'a', "> 09 00 00 00 00 00.."},
        {'A', "> 01 00 00 00 00"},
        /* read: no mark, a mark of 2, bytes without a record, too many bytes */
        {'r', "> 09 00 00 00 00 00.."},
        {'r', "> 0a 00 00 00 00 0c.. 02"},
        {'r', "> 0b 00 00 00 00 0c.. 00 61"},
        {'r', "> 0a 00 01 00 00 0c.. 01"},
        {'r', "> ff ff ff ff 00 0c.. 01"},
        /* next: too short, behind the place that was asked for */
        {'n', "> 20 00 00 00 00 00.. 00.. 00.. 09.. "},
        {'n', "> 22 00 00 00 00 00.. 05.. 00.. 05.. 61"},
        {'n', "> 22 00 00 00 00 00.. 04.. 00.. 0c.. 61"},
        /* next_many: no record, more than fit, lengths that don't add up, places that go back */
        {'m', "> 19 00 00 00 00 00.. 10.. 00.."},
        {'m', "> 2d 00 00 00 00 00.. 0c.. 00.. 00.. 05.. 00 00 00 00"},
        {'m', "> 2d 00 00 00 00 00.. 0c.. ff ff ff ff ff ff ff ff 00.. 05.. 00 00 00 00"},
        {'m', "> 2d 00 00 00 00 00.. 0c.. 02.. 00.. 05.. 00 00 00 00"},
        {'m', "> 2d 00 00 00 00 00.. 0d.. 01.. 00.. 05.. 01 00 00 00"},
        {'m', "> 2e 00 00 00 00 00.. 0d.. 01.. 00.. 05.. ff ff ff ff 61"},
        {'m', "> 2e 00 00 00 00 00.. 0d.. 01.. 00.. 04.. 01 00 00 00 61"},
        {'m', "> 2e 00 00 00 00 00.. 0c.. 01.. 00.. 05.. 01 00 00 00 61"},
        {'m', "> ff ff ff ff 00"},
        /* where: a length that isn't of segments, another count, segments that weren't asked for, or go on forever */
        {'w', "> 30 00 00 00 00 00.. 00.. 00.. 00.. 00.. 00 00 00 00 00 00 00"},
        {'w', "> 31 00 00 00 00 00.. 00.. 00.. 00.. 00.. 01.."},
        {'w', "> 42 00 00 00 00 00.. 01.. 00.. 00.. 01.. 01.. 00.. 00.. 00"},
        {'w', "> 42 00 00 00 00 00.. 05.. 00.. 00.. 00.. 01.. 00.. 00.. 00"},
        {'w', "> 31 00 00 00 00 02.. 01.. 00.. 00.. 00.. 00.."},
        {'t', "> 09 00 00 00 00 00.."},
        {'p', "> 21 00 00 00 00 00.. 04.. 00.. 00.."}};
    for (size_t i = 0; i < sizeof cases / sizeof *cases; i++) {
        char script[4096];
        snprintf(script, sizeof script, "%s%s\nz\n", LOG_OPENED, cases[i].answer);
        paged_log *log = log_of(script);
        enum paged_error error = PAGED_OK;
        switch (cases[i].call) {
        case 'a':
            error = paged_log_append(log, "x", 1, &place);
            break;
        case 'A':
            error = paged_log_append_records(log, &record, 1, &place);
            break;
        case 'r':
            error = paged_log_read(log, start, &found);
            break;
        case 'n':
            place = start;
            error = paged_log_next(log, &place, &found);
            break;
        case 'm':
            place = start;
            error = paged_log_next_many(log, &place, 9, &records, &count);
            break;
        case 'w':
            error = paged_log_where(log, 1, 9, &where);
            break;
        case 't':
            error = paged_log_nth(log, 0, 0, &place);
            break;
        case 'p':
            error = paged_log_pass_damage(log, start, &passed_by);
            break;
        default:
            break;
        }
        if (error != PAGED_BAD_ANSWER)
            fprintf(stderr, "case %c %s\n", cases[i].call, cases[i].answer);
        IS(PAGED_BAD_ANSWER, error, paged_log_failure(log));
        IS(PAGED_SESSION_OVER, paged_log_read_many(log, &start, 1, &found, &count), NULL);
        SO(count == 0);
        IS(PAGED_BAD_ANSWER, paged_log_close(log, NULL), NULL);
    }
    passed("payloads of a log that have another length or other bytes, or say what can't be");
}

/* Frames of random bytes, most of which begin as an answer does, and then the end. */
static void random_frames(char *to, size_t room, unsigned *state) {
    size_t len = 0;
    for (int frame = 0; frame < 12; frame++) {
        unsigned count = 0;
        *state = *state * 1664525u + 1013904223u;
        unsigned size = *state >> 8 & 63;
        len += (size_t)snprintf(to + len, room - len, "> %02x 00 00 00 %s", size + 1, *state >> 20 & 7 ? "00" : "14");
        for (; count < size; count++) {
            *state = *state * 1664525u + 1013904223u;
            /* (small numbers, and some great ones) */
            unsigned byte = count % 8 == 0 ? *state >> 24 & 31 : *state >> 28 == 0 ? *state >> 16 & 255 : 0;
            len += (size_t)snprintf(to + len, room - len, " %02x", byte);
        }
        len += (size_t)snprintf(to + len, room - len, "\n");
    }
}

/* No call crashes or waits for ever, whatever is answered. */
static void random_answers(void) {
    static char script[1 << 14];
    unsigned char data[64];
    unsigned state = 1;
    for (int turn = 0; turn < 150; turn++) {
        const struct paged_record *batch;
        struct paged_place place = {0, 0}, places[2] = {{0, 0}, {0, 0}};
        struct paged_bytes records[2] = {{data, 1}, {data, 2}};
        struct paged_range range = {0, 4};
        struct paged_record found[2];
        struct paged_started started;
        struct paged_passed by;
        struct paged_where where;
        uint64_t number, offsets[2];
        size_t count;
        int yes;
        paged_scan *scan;
        memset(data, 0, sizeof data);
        size_t len = (size_t)snprintf(script, sizeof script, "%s", turn % 2 ? LOG_OPENED : OPENED);
        random_frames(script + len, sizeof script - len, &state);
        if (turn % 2 == 0) {
            paged_blob *blob = blob_of(script);
            paged_blob_size(blob, &number);
            paged_blob_append_records_start(blob, records, 2, offsets, &started);
            paged_blob_read_up_to(blob, 0, data, sizeof data, &count);
            paged_blob_start_sync(blob, &started);
            paged_blob_ensure(blob, 0, 1, &yes);
            paged_blob_read_ranges(blob, &range, 1, data, &number);
            paged_blob_close(blob, NULL);
            continue;
        }
        paged_log *log = log_of(script);
        IS(PAGED_OK, paged_scan_open(log, place, 0, &scan), NULL);
        while (paged_scan_next(scan, &found[0]) == PAGED_OK)
            for (size_t i = 0; i < found[0].len; i++)
                data[0] ^= found[0].data[i];
        paged_scan_close(scan);
        paged_log_next_many(log, &place, 9, &batch, &count);
        paged_log_next(log, &place, &found[0]);
        paged_log_where(log, 0, UINT64_MAX, &where);
        paged_log_read_many(log, places, 2, found, &count);
        paged_log_pass_damage(log, place, &by);
        paged_log_append_records(log, records, 2, places);
        paged_log_close(log, NULL);
    }
    passed("150 sessions of random answers");
}

/* ---- Limits ------------------------------------------------------------------------------------------------ */

static void too_long(void) {
    static unsigned char data[1];
    size_t many = 5000;
    struct paged_bytes *records = calloc(many, sizeof *records);
    struct paged_range *ranges = calloc(many, sizeof *ranges);
    SO(records != NULL && ranges != NULL);
    for (size_t i = 0; i < many; i++) {
        records[i].data = data; /* (nothing of it is to be read: a request has no room for all) */
        records[i].len = 1 << 20;
        ranges[i].offset = i << 20;
        ranges[i].len = 1 << 20;
    }
    paged_blob *blob = blob_of(OPENED "< 01 00 00 00 02\n> 01 00 00 00 00\n" CLOSED);
    const struct paged_failure *why = paged_blob_failure(blob);
    IS(PAGED_TOO_LONG, paged_blob_append(blob, data, (size_t)1 << 32, NULL), why);
    IS(PAGED_TOO_LONG, paged_blob_append_records(blob, records, many, NULL), why);
    IS(PAGED_TOO_LONG, paged_blob_append_records(blob, records, (size_t)1 << 30, NULL), why);
    IS(PAGED_TOO_LONG, paged_blob_read(blob, 0, data, 4294967295u), why);
    IS(PAGED_TOO_LONG, paged_blob_read_up_to(blob, 0, data, SIZE_MAX, NULL), why);
    IS(PAGED_TOO_LONG, paged_blob_read_snapshot(blob, 0, 0, data, SIZE_MAX), why);
    IS(PAGED_TOO_LONG, paged_blob_take(blob, 0, data, SIZE_MAX, NULL), why);
    IS(PAGED_TOO_LONG, paged_blob_read_ranges(blob, ranges, many, data, NULL), why);
    IS(PAGED_WRONG_ARGUMENT, paged_blob_replay(blob, 0, NULL), why);
    SO(why->status == -1 && why->next == PAGED_ASK_ELSE);
    IS(PAGED_OK, paged_blob_sync(blob), why);
    end_blob(blob);
    free(records);
    free(ranges);
    passed("what is too long isn't sent, and the session goes on");
}

/* ---- The process ------------------------------------------------------------------------------------------- */

static int open_ends(void) {
    int count = 0;
    for (int end = 0; end < 256; end++)
        count += fcntl(end, F_GETFD) >= 0;
    return count;
}

static void process(void) {
    static unsigned char data[1 << 20];
    paged_blob *blob, *other;
    int ends = open_ends();
    blob = blob_of(OPENED "< 01 00 00 00 02\nx 0\n");
    IS(PAGED_ENDED, paged_blob_sync(blob), paged_blob_failure(blob));
    SO(paged_blob_failure(blob)->exit_status == 0);
    paged_blob_close(blob, NULL);
    /* It ends before a request that no stream holds: a signal SIGPIPE would end this test. */
    blob = blob_of(OPENED "x 4\n");
    IS(PAGED_ENDED, paged_blob_append(blob, data, sizeof data, NULL), paged_blob_failure(blob));
    SO(paged_blob_failure(blob)->exit_status == 4);
    paged_blob_close(blob, NULL);
    /* It refuses in the midst of a request, and ends. */
    blob = blob_of(OPENED "> 12 00 00 00 23 02 00.. 00..\nx 2\n");
    IS(PAGED_WRONG_LENGTH, paged_blob_append(blob, data, sizeof data, NULL), paged_blob_failure(blob));
    IS(PAGED_ENDED, paged_blob_sync(blob), paged_blob_failure(blob));
    SO(paged_blob_failure(blob)->exit_status == 2);
    paged_blob_close(blob, NULL);
    passed("a program that ends while it is written to raises no signal");
    blob = blob_of(OPENED "e 2000000\n< 01 00 00 00 02\ne 2000000\n! last\n> 01 00 00 00 00\n" CLOSED);
    IS(PAGED_OK, paged_blob_sync(blob), paged_blob_failure(blob));
    SO(strlen(paged_blob_said(blob)) == PAGED_SAID - 1 && strstr(paged_blob_said(blob), "last\n"));
    end_blob(blob);
    passed("a program that writes much to standard error is read meanwhile");
    /* (two that are open, of which the later one must not hold the streams of the other) */
    blob = blob_of(GREETING OFFER HELLO "< 01 00 00 00 10\nx 0\n");
    other = blob_of(GREETING OFFER HELLO "< 01 00 00 00 10\nx 0\n");
    SO(paged_blob_process(blob) != paged_blob_process(other));
    end_blob(blob);
    end_blob(other);
    IS(PAGED_OK, paged_blob_close(NULL, NULL), NULL);
    SO(open_ends() == ends);
    SO(waitpid(-1, NULL, WNOHANG) == -1 && errno == ECHILD);
    passed("two at once; no descriptor and no process is left");
}

static void hanging(void) {
    paged_blob *blob;
    time_t begin = time(NULL);
    blob = blob_of(OPENED "< 01 00 00 00 02\n> 00 00 00 00\nz\n");
    IS(PAGED_BAD_ANSWER, paged_blob_sync(blob), paged_blob_failure(blob));
    IS(PAGED_BAD_ANSWER, paged_blob_close(blob, NULL), NULL);
    SO(time(NULL) - begin < 9);
    blob = blob_of(OPENED "f\n");
    IS(PAGED_ENDED, paged_blob_sync(blob), paged_blob_failure(blob));
    SO(paged_blob_failure(blob)->signal == SIGKILL && time(NULL) - begin < 60);
    paged_blob_close(blob, NULL);
    passed("a program that closes its output and goes on is killed after ten seconds");
}

/* In a process of its own: what a caller may do to itself. */
static void odd_callers(void) {
    for (int kind = 0; kind < 3; kind++) {
        pid_t child = fork();
        SO(child >= 0);
        if (child == 0) {
            paged_blob *blob;
            int status = 0;
            if (kind == 0)
                close(0), close(1), close(2);
            else if (kind == 1)
                signal(SIGCHLD, SIG_IGN);
            else
                signal(SIGPIPE, SIG_IGN);
            if (open_blob(OPENED "< 01 00 00 00 02\n> 01 00 00 00 00\n" CLOSED, &blob, 0) != PAGED_OK)
                _exit(1);
            status |= paged_blob_sync(blob) == PAGED_OK ? 0 : 2;
            status |= paged_blob_close(blob, &failure) == PAGED_OK ? 0 : 4;
            status |= kind == 0 && fcntl(0, F_GETFD) >= 0 ? 8 : 0;
            _exit(status);
        }
        int status;
        SO(waitpid(child, &status, 0) == child && WIFEXITED(status));
        SO(WEXITSTATUS(status) == 0);
    }
    passed("a caller without standard streams, and callers that ignore SIGCHLD or SIGPIPE");
}

static void command_lines(void) {
    struct paged_options options = {0};
    const uint64_t cut_limit = 0;
    paged_blob *blob;
    paged_log *log;
    char script[2048];
    const char *path = path_of("words \xd0\xb6\xe6\x97\xa5");
    options.program = self;
    snprintf(script, sizeof script, "w serve\nw %s\n" OPENED CLOSED, path);
    write_file(path, script, strlen(script));
    IS(PAGED_OK, paged_blob_open(path, &options, &blob, &failure), &failure);
    end_blob(blob);
    options.read_only = options.cut = options.own_process_group = 1;
    options.cut_limit = &cut_limit;
    options.page_size = 100;
    options.checksum = "add";
    options.buffer = 200;
    options.cache = 300;
    options.digest = "poly61";
    options.segment_size = UINT64_MAX;
    snprintf(script, sizeof script,
             "w serve-log\nw --read-only\nw --cut\nw --cut-limit\nw 0\nw --page-size\nw 100\n"
             "w --buffer\nw 200\nw --cache\nw 300\nw --checksum\nw add\nw --segment-size\nw 18446744073709551615\n"
             "w --digest\nw poly61\nw %s\n" LOG_OPENED CLOSED,
             path);
    write_file(path, script, strlen(script));
    IS(PAGED_OK, paged_log_open(path, &options, &log, &failure), &failure);
    end_log(log);
    passed("the command line has the options, and a Unicode name");
    /* A name that looks like an option, and the variable PAGEDD. */
    char here[4096];
    SO(getcwd(here, sizeof here) != NULL && chdir(room) == 0);
    memset(&options, 0, sizeof options);
    SO(setenv("PAGEDD", self, 1) == 0);
    snprintf(script, sizeof script, "w serve\nw ./-name\n" OPENED CLOSED);
    write_file("./-name", script, strlen(script));
    IS(PAGED_OK, paged_blob_open("-name", NULL, &blob, &failure), &failure);
    end_blob(blob);
    SO(unsetenv("PAGEDD") == 0 && chdir(here) == 0);
    passed("a name that begins like an option; the program by the variable PAGEDD");
}

void tests_alone(void) {
    page_blob_one();
    page_blob_two();
    page_worked();
    page_log_one();
    page_log_two();
    other_requests();
    log_requests();
    versions();
    refusals();
    lost_opening();
    cut_answers();
    wrong_blob_answers();
    wrong_payloads();
    wrong_log_answers();
    random_answers();
    too_long();
    process();
    odd_callers();
    command_lines();
    hanging();
}
