/* Tests of paged.c with a built pagedd. */
#define _XOPEN_SOURCE 700
#include "tests.h"

#include <errno.h>
#include <signal.h>
#include <stdlib.h>
#include <string.h>
#include <sys/stat.h>
#include <sys/time.h>
#include <sys/wait.h>
#include <time.h>
#include <unistd.h>

static struct paged_failure failure;

static struct paged_options options_of(void) {
    struct paged_options options = {0};
    options.program = pagedd;
    return options;
}

static paged_blob *blob_of(const char *path, const struct paged_options *options) {
    struct paged_options none = options_of();
    paged_blob *blob;
    IS(PAGED_OK, paged_blob_open(path, options ? options : &none, &blob, &failure), &failure);
    return blob;
}

static paged_log *log_of(const char *path, const struct paged_options *options) {
    struct paged_options none = options_of();
    paged_log *log;
    IS(PAGED_OK, paged_log_open(path, options ? options : &none, &log, &failure), &failure);
    return log;
}

static void end_blob(paged_blob *blob) {
    IS(PAGED_OK, paged_blob_close(blob, &failure), &failure);
}

static void end_log(paged_log *log) {
    IS(PAGED_OK, paged_log_close(log, &failure), &failure);
}

/* ---- A blob ------------------------------------------------------------------------------------------------ */

static void blob_calls(int version) {
    struct paged_options options = options_of();
    char data[32] = {0}, line[80];
    uint64_t number, snapshot, replay;
    struct paged_started started;
    size_t count;
    int yes;
    options.version = version;
    snprintf(line, sizeof line, "blob-%d", version);
    const char *path = path_of(line);
    paged_blob *blob = blob_of(path, &options);
    const struct paged_failure *why = paged_blob_failure(blob);
    SO(paged_blob_hello(blob)->version == version && paged_blob_hello(blob)->size == 0);
    IS(PAGED_OK, paged_blob_append(blob, "hello", 5, &number), why);
    SO(number == 0);
    IS(PAGED_OK, paged_blob_append(blob, NULL, 0, &number), why);
    SO(number == 5);
    IS(PAGED_STILL_RECOVERING, paged_blob_snapshot(blob, &snapshot), why);
    IS(PAGED_OK, paged_blob_truncate(blob, 4, &number), why);
    SO(number == 4);
    IS(PAGED_OK, paged_blob_begin(blob), why);
    IS(PAGED_RECOVERY_ENDED, paged_blob_truncate(blob, 1, &number), why);
    IS(PAGED_OK, paged_blob_snapshot(blob, &snapshot), why);
    IS(PAGED_OK, paged_blob_replay(blob, 65536, &replay), why);
    IS(PAGED_OK, paged_blob_append(blob, " world", 6, NULL), why);
    IS(PAGED_OK, paged_blob_start_sync(blob, &started), why);
    SO(started.pending);
    IS(PAGED_OK, paged_blob_wait_sync(blob, started.name), why);
    IS(PAGED_OK, paged_blob_wait_sync(blob, started.name), why);
    IS(PAGED_UNKNOWN_NUMBER, paged_blob_wait_sync(blob, started.name + 100), why);
    number = started.name;
    IS(PAGED_OK, paged_blob_start_sync(blob, &started), why);
    SO(started.pending && started.name == number); /* (nothing was appended since) */
    IS(PAGED_OK, paged_blob_sync(blob), why);
    IS(PAGED_OK, paged_blob_start_sync(blob, &started), why);
    SO(!started.pending);
    IS(PAGED_OK, paged_blob_read(blob, 0, data, 10), why);
    SO(memcmp(data, "hell world", 10) == 0);
    IS(PAGED_PAST_END, paged_blob_read(blob, 0, data, 11), why);
    IS(PAGED_OFFSET_OVERFLOW, paged_blob_read(blob, UINT64_MAX, data, 2), why);
    IS(PAGED_OK, paged_blob_read_up_to(blob, 5, data, sizeof data, &count), why);
    SO(count == 5 && memcmp(data, "world", 5) == 0);
    IS(PAGED_OK, paged_blob_read_snapshot(blob, snapshot, 0, data, 4), why);
    SO(memcmp(data, "hell", 4) == 0);
    IS(PAGED_PAST_END, paged_blob_read_snapshot(blob, snapshot, 0, data, 5), why);
    IS(PAGED_OK, paged_blob_ensure(blob, replay, 4, &yes), why);
    SO(yes);
    IS(PAGED_OK, paged_blob_take(blob, replay, data, sizeof data, &count), why);
    SO(count == 4);
    IS(PAGED_OK, paged_blob_ensure(blob, replay, 1, &yes), why);
    SO(!yes);
    IS(PAGED_OK, paged_blob_seek(blob, replay, 2), why);
    IS(PAGED_OK, paged_blob_ensure(blob, replay, 1, &yes), why);
    SO(yes);
    IS(PAGED_OK, paged_blob_sync(blob), why);
    IS(PAGED_OK, paged_blob_size(blob, &number), why);
    SO(number == 10);
    end_blob(blob);
    blob = blob_of(path, &options);
    SO(paged_blob_hello(blob)->size == 10);
    end_blob(blob);
    snprintf(line, sizeof line, "each call of a blob, in version %d", version);
    passed(line);
}

static void blob_calls_of_two(void) {
    const struct paged_bytes records[] = {{"one", 3}, {NULL, 0}, {"three", 5}};
    const struct paged_range ranges[] = {{0, 3}, {3, 5}}, wrong[] = {{3, 5}, {0, 3}};
    uint64_t offsets[3], number, snapshot, replay;
    struct paged_started started;
    char data[8];
    paged_blob *blob = blob_of(path_of("blob-two"), NULL);
    const struct paged_failure *why = paged_blob_failure(blob);
    IS(PAGED_OK, paged_blob_append_records(blob, records, 3, offsets), why);
    SO(offsets[0] == 0 && offsets[1] == 3 && offsets[2] == 3);
    IS(PAGED_OK, paged_blob_append_records_sync(blob, records, 3, NULL), why);
    IS(PAGED_OK, paged_blob_append_records_start(blob, records, 3, offsets, &started), why);
    SO(offsets[2] == 19 && started.pending);
    IS(PAGED_OK, paged_blob_append_records(blob, NULL, 0, NULL), why);
    IS(PAGED_OK, paged_blob_read_ranges(blob, ranges, 2, data, &number), why);
    SO(memcmp(data, "onethree", 8) == 0);
    IS(PAGED_UNORDERED_RANGES, paged_blob_read_ranges(blob, wrong, 2, data, NULL), why);
    IS(PAGED_OK, paged_blob_read_ranges(blob, NULL, 0, NULL, NULL), why);
    IS(PAGED_OK, paged_blob_sync_size(blob, &number), why);
    SO(number == 24);
    IS(PAGED_OK, paged_blob_look(blob, &number), why);
    SO(number == 24);
    IS(PAGED_OK, paged_blob_begin(blob), why);
    IS(PAGED_OK, paged_blob_snapshot(blob, &snapshot), why);
    IS(PAGED_OK, paged_blob_replay(blob, 1, &replay), why);
    IS(PAGED_OK, paged_blob_count_open(blob, &number, offsets), why);
    SO(number == 1 && offsets[0] == 1);
    IS(PAGED_OK, paged_blob_drop_snapshot(blob, snapshot), why);
    IS(PAGED_OK, paged_blob_drop_replay(blob, replay), why);
    IS(PAGED_UNKNOWN_NUMBER, paged_blob_drop_replay(blob, replay), why);
    IS(PAGED_OK, paged_blob_flush(blob), why);
    end_blob(blob);
    passed("each call of a blob that is of version 2 alone");
}

static void great_reads(void) {
    size_t len = 5 << 20;
    unsigned char *data = malloc(len), *found = malloc(len);
    SO(data != NULL && found != NULL);
    for (size_t i = 0; i < len; i++)
        data[i] = (unsigned char)(i * 7 % 251);
    paged_blob *blob = blob_of(path_of("great"), NULL);
    IS(PAGED_OK, paged_blob_append(blob, data, len, NULL), paged_blob_failure(blob));
    IS(PAGED_OK, paged_blob_sync(blob), paged_blob_failure(blob));
    IS(PAGED_OK, paged_blob_read(blob, 0, found, len), paged_blob_failure(blob));
    SO(memcmp(data, found, len) == 0);
    end_blob(blob);
    free(data);
    free(found);
    passed("an append and a read of 5 MiB");
}

/* ---- A log ------------------------------------------------------------------------------------------------- */

enum { SOME = 60 };

static void some(int number, char *to, struct paged_bytes *record) {
    record->data = to;
    record->len = (size_t)snprintf(to, 64, "record %d, record %d", number, number);
}

/* Appends some records, and notes their places. */
static void append_some(paged_log *log, struct paged_place places[SOME]) {
    static char texts[SOME][64];
    struct paged_bytes records[SOME];
    for (int i = 0; i < SOME; i++)
        some(i, texts[i], &records[i]);
    IS(PAGED_OK, paged_log_append_records_sync(log, records, SOME, places), paged_log_failure(log));
}

static int is_some(const struct paged_record *found, int number) {
    char text[64];
    struct paged_bytes record;
    some(number, text, &record);
    return found->is_record && found->len == record.len && memcmp(found->data, text, record.len) == 0;
}

static int is_place(struct paged_place a, struct paged_place b) {
    return a.segment == b.segment && a.offset == b.offset;
}

static void log_reads(paged_log *log, const struct paged_place places[SOME]) {
    const struct paged_place start = {0, 0};
    struct paged_record records[SOME], record;
    const struct paged_record *batch;
    struct paged_place place = start, found;
    const struct paged_failure *why = paged_log_failure(log);
    paged_scan *scan, *other;
    size_t count;
    IS(PAGED_OK, paged_log_read_many(log, places, SOME, records, &count), why);
    SO(count == SOME);
    for (int i = 0; i < SOME; i++)
        SO(is_some(&records[i], i) && is_place(records[i].place, places[i]));
    for (int i = 0; i < SOME; i++) {
        IS(PAGED_OK, paged_log_next(log, &place, &record), why);
        SO(is_some(&record, i) && is_place(record.place, places[i]));
    }
    IS(PAGED_PAST_END, paged_log_next(log, &place, &record), why);
    place = start;
    for (int i = 0; i < SOME; i += (int)count) {
        IS(PAGED_OK, paged_log_next_many(log, &place, 200, &batch, &count), why);
        for (size_t at = 0; at < count; at++)
            SO(is_some(&batch[at], i + (int)at) && is_place(batch[at].place, places[i + (int)at]));
    }
    IS(PAGED_PAST_END, paged_log_next_many(log, &place, 200, &batch, &count), why);
    /* Two scans at once, with other calls between. */
    IS(PAGED_OK, paged_scan_open(log, start, 300, &scan), why);
    IS(PAGED_OK, paged_scan_open(log, places[10], 0, &other), why);
    for (int i = 0; i < SOME; i++) {
        IS(PAGED_OK, paged_scan_next(scan, &record), why);
        SO(is_some(&record, i) && is_place(paged_scan_place(scan), record.behind));
        IS(PAGED_OK, paged_log_read(log, places[SOME - 1 - i], &records[0]), why);
        SO(is_some(&records[0], SOME - 1 - i));
        if (i >= 10) {
            IS(PAGED_OK, paged_scan_next(other, &record), why);
            SO(is_some(&record, i));
        }
    }
    IS(PAGED_PAST_END, paged_scan_next(scan, &record), why);
    IS(PAGED_PAST_END, paged_scan_next(other, &record), why);
    paged_scan_close(scan);
    paged_scan_close(other);
    for (int i = 0, in_segment = 0; i < SOME; i++) {
        in_segment = i > 0 && places[i].segment == places[i - 1].segment ? in_segment + 1 : 0;
        IS(PAGED_OK, paged_log_nth(log, places[i].segment, (uint64_t)in_segment, &found), why);
        SO(is_place(found, places[i]));
    }
    IS(PAGED_PAST_END, paged_log_nth(log, 0, 1000, &found), why);
}

static void log_calls(void) {
    struct paged_options options = options_of();
    struct paged_place places[SOME], place;
    struct paged_record record, many[3];
    struct paged_where where;
    uint64_t number;
    size_t count;
    const char *path = path_of("log");
    options.segment_size = 300;
    paged_log *log = log_of(path, &options);
    const struct paged_failure *why = paged_log_failure(log);
    append_some(log, places);
    log_reads(log, places);
    IS(PAGED_OK, paged_log_size(log, &number), why);
    SO(number == SOME);
    IS(PAGED_OK, paged_log_where(log, 0, UINT64_MAX, &where), why);
    SO(where.first == 0 && where.last == places[SOME - 1].segment && where.closed_count == where.last);
    number = where.records;
    for (size_t i = 0; i < where.closed_count; i++) {
        SO(where.closed[i].segment == i && !where.closed[i].of_file);
        number += where.closed[i].records;
    }
    SO(number == SOME);
    IS(PAGED_OK, paged_log_append(log, "more", 4, &place), why);
    SO(is_place(place, where.end) || (where.end.offset >= 300 && place.segment == where.last + 1 && place.offset == 0));
    IS(PAGED_NO_FRAME, paged_log_read(log, (struct paged_place){0, 1}, &record), why);
    IS(PAGED_NO_SEGMENT, paged_log_read(log, (struct paged_place){999, 0}, &record), why);
    /* Of many places one isn't there: those before it are read, and the session goes on. */
    const struct paged_place mixed[] = {places[0], {999, 0}, places[1]};
    IS(PAGED_NO_SEGMENT, paged_log_read_many(log, mixed, 3, many, &count), why);
    SO(count == 1 && is_some(&many[0], 0) && why->status == 38);
    IS(PAGED_OK, paged_log_sync_size(log, &number), why);
    SO(number == SOME + 1);
    IS(PAGED_OK, paged_log_flush(log), why);
    IS(PAGED_OK, paged_log_drop_before(log, 2), why);
    IS(PAGED_NO_SEGMENT, paged_log_read(log, places[0], &record), why);
    place.segment = place.offset = 0;
    IS(PAGED_OK, paged_log_next(log, &place, &record), why);
    SO(record.place.segment == 2);
    end_log(log);
    passed("each call of a log, over several segments");
    options.version = 1;
    log = log_of(path, &options);
    SO(paged_log_hello(log)->version == 1 && paged_log_hello(log)->size > 0);
    IS(PAGED_OK, paged_log_append(log, "one", 3, &place), paged_log_failure(log));
    IS(PAGED_OK, paged_log_sync(log), paged_log_failure(log));
    IS(PAGED_OK, paged_log_read(log, place, &record), paged_log_failure(log));
    SO(record.len == 3 && memcmp(record.data, "one", 3) == 0);
    IS(PAGED_OK, paged_log_drop_before(log, 3), paged_log_failure(log));
    end_log(log);
    passed("a log in version 1");
}

static void lengths(void) {
    static unsigned char data[65536];
    struct paged_place place, places[3], start = {0, 0};
    struct paged_record record;
    const struct paged_bytes records[] = {{data, 65535}, {NULL, 0}, {data, 65535}}, wrong[] = {{"a", 1}, {data, 65536}};
    uint64_t number;
    paged_log *log = log_of(path_of("lengths"), NULL);
    const struct paged_failure *why = paged_log_failure(log);
    memset(data, 'x', sizeof data);
    IS(PAGED_OK, paged_log_append(log, "", 0, &place), why);
    IS(PAGED_OK, paged_log_append(log, data, 65535, &place), why);
    IS(PAGED_WRONG_FIELDS, paged_log_append(log, data, 65536, &place), why);
    SO(why->status == 23 && why->taken == 0 && why->next == PAGED_ASK_ELSE);
    IS(PAGED_WRONG_FIELDS, paged_log_append_records_sync(log, wrong, 2, places), why);
    IS(PAGED_OK, paged_log_append_records_sync(log, records, 3, places), why);
    IS(PAGED_OK, paged_log_size(log, &number), why);
    SO(number == 5);
    for (int i = 0; i < 5; i++) {
        IS(PAGED_OK, paged_log_next(log, &start, &record), why);
        SO(record.len == (i == 0 || i == 3 ? 0u : 65535u) && memcmp(record.data, data, record.len) == 0);
    }
    end_log(log);
    passed("records of 0 and of 65,535 bytes; 65,536 are refused");
}

static void unicode(void) {
    static const char *const names[] = {"\xd0\xb6\xd1\x83\xd1\x80\xd0\xbd\xd0\xb0\xd0\xbb",
                                        "\xe6\x97\xa5\xe8\xaa\x8c \xf0\x9f\x97\x92",
                                        "a name with 'quotes' \"and\" blanks", "line\nend"};
    for (size_t i = 0; i < sizeof names / sizeof *names; i++) {
        paged_log *log = log_of(path_of(names[i]), NULL);
        IS(PAGED_OK, paged_log_append(log, names[i], strlen(names[i]), NULL), paged_log_failure(log));
        IS(PAGED_OK, paged_log_sync(log), paged_log_failure(log));
        end_log(log);
        struct stat found;
        SO(stat(path_of(names[i]), &found) == 0 && S_ISDIR(found.st_mode));
    }
    paged_log *log;
    struct paged_options options = options_of();
    IS(PAGED_NOT_OPENED, paged_log_open(path_of("\xff\xfe"), &options, &log, &failure), &failure);
    SO(failure.exit_status == 1 && failure.said[0] && failure.next == PAGED_MEND_FIRST);
    passed("Unicode names, and names with blanks; a name that isn't UTF-8 is refused");
}

/* ---- What is wrong ----------------------------------------------------------------------------------------- */

static void wrong_words(void) {
    struct paged_options options = options_of();
    paged_blob *blob;
    paged_log *log;
    options.checksum = "md5";
    IS(PAGED_NOT_OPENED, paged_blob_open(path_of("words"), &options, &blob, &failure), &failure);
    SO(strstr(failure.said, "md5") != NULL && failure.exit_status == 1);
    options = options_of();
    options.page_size = 65536;
    IS(PAGED_NOT_OPENED, paged_log_open(path_of("words"), &options, &log, &failure), &failure);
    options = options_of();
    IS(PAGED_NOT_OPENED, paged_blob_open("", &options, &blob, &failure), &failure);
    IS(PAGED_NOT_OPENED, paged_blob_open(path_of("no/such/folder"), &options, &blob, &failure), &failure);
    SO(strstr(failure.said, "no/such/folder") != NULL);
    IS(PAGED_NOT_OPENED, paged_blob_open(room, &options, &blob, &failure), &failure);
    write_file(path_of("file"), "a file", 6);
    IS(PAGED_NOT_OPENED, paged_log_open(path_of("file"), &options, &log, &failure), &failure);
    SO(mkfifo(path_of("fifo"), 0600) == 0);
    IS(PAGED_NOT_OPENED, paged_blob_open(path_of("fifo"), &options, &blob, &failure), &failure);
    passed("wrong options, a folder, a fifo and paths that aren't there");
    char text[12000];
    memset(text, 'd', sizeof text);
    write_file(path_of("text"), text, sizeof text);
    IS(PAGED_NOT_WHOLE, paged_blob_open(path_of("text"), &options, &blob, &failure), &failure);
    SO(failure.exit_status == 3 && strstr(failure.said, "nothing was cut") != NULL);
    options.cut = 1;
    blob = blob_of(path_of("text"), &options);
    const struct paged_hello *hello = paged_blob_hello(blob);
    SO(hello->cut == sizeof text && hello->given_up == sizeof text && strstr(hello->copy, "text.cut-1") != NULL);
    SO(strstr(paged_blob_said(blob), "text.cut-1") != NULL);
    end_blob(blob);
    passed("a text is refused as not whole; with cut it is emptied, and the hello and a line say so");
}

static void locked(void) {
    struct paged_options options = options_of();
    paged_blob *other_blob;
    paged_log *other_log;
    paged_blob *blob = blob_of(path_of("locked"), NULL);
    IS(PAGED_LOCKED, paged_blob_open(path_of("locked"), &options, &other_blob, &failure), &failure);
    SO(failure.exit_status == 1 && failure.next == PAGED_MEND_FIRST);
    end_blob(blob);
    paged_log *log = log_of(path_of("locked-log"), NULL);
    options.read_only = 1;
    IS(PAGED_LOCKED, paged_log_open(path_of("locked-log"), &options, &other_log, &failure), &failure);
    end_log(log);
    end_log(log_of(path_of("locked-log"), NULL));
    passed("what another process has open is locked, and isn't after a close");
}

static void read_only(void) {
    struct paged_options options = options_of();
    struct paged_place places[SOME];
    struct paged_record record;
    const struct paged_bytes one = {"x", 1};
    paged_log *log;
    uint64_t number;
    char data[5];
    options.read_only = 1;
    IS(PAGED_NOT_OPENED, paged_log_open(path_of("none"), &options, &log, &failure), &failure);
    struct stat found;
    SO(stat(path_of("none"), &found) != 0);
    log = log_of(path_of("alone"), NULL);
    append_some(log, places);
    end_log(log);
    log = log_of(path_of("alone"), &options);
    const struct paged_failure *why = paged_log_failure(log);
    SO(paged_log_hello(log)->read_only && paged_log_hello(log)->size == SOME);
    IS(PAGED_READ_ONLY, paged_log_append(log, "x", 1, NULL), why);
    SO(why->next == PAGED_ASK_ELSE);
    IS(PAGED_READ_ONLY, paged_log_append_records_sync(log, &one, 1, NULL), why);
    IS(PAGED_READ_ONLY, paged_log_sync(log), why);
    IS(PAGED_READ_ONLY, paged_log_drop_before(log, 0), why);
    IS(PAGED_OK, paged_log_read(log, places[7], &record), why);
    SO(is_some(&record, 7));
    end_log(log);
    paged_blob *blob = blob_of(path_of("alone-blob"), NULL);
    IS(PAGED_OK, paged_blob_append(blob, "hello", 5, NULL), paged_blob_failure(blob));
    IS(PAGED_OK, paged_blob_sync(blob), paged_blob_failure(blob));
    end_blob(blob);
    blob = blob_of(path_of("alone-blob"), &options);
    IS(PAGED_READ_ONLY, paged_blob_append(blob, "x", 1, NULL), paged_blob_failure(blob));
    IS(PAGED_STILL_RECOVERING, paged_blob_snapshot(blob, &number), paged_blob_failure(blob));
    IS(PAGED_OK, paged_blob_read(blob, 0, data, 5), paged_blob_failure(blob));
    end_blob(blob);
    passed("what is served for reading alone is read, and changes are refused");
}

/* The program without the right to write any file, if this user has that. */
static const char *unprivileged(void) {
    char script[8192];
    const char *path = path_of("unprivileged");
    if (geteuid() != 0)
        return pagedd;
    snprintf(script, sizeof script,
             "#!/bin/sh\nexec setpriv --bounding-set=-dac_override,-dac_read_search '%s' \"$@\"\n", pagedd);
    write_file(path, script, strlen(script));
    SO(chmod(path, 0755) == 0);
    return path;
}

static void protected_file(void) {
    struct paged_options options = {0};
    paged_blob *blob = blob_of(path_of("protected"), NULL);
    paged_log *log;
    IS(PAGED_OK, paged_blob_append(blob, "hello", 5, NULL), paged_blob_failure(blob));
    IS(PAGED_OK, paged_blob_sync(blob), paged_blob_failure(blob));
    end_blob(blob);
    SO(chmod(path_of("protected"), 0444) == 0 && chmod(room, 0555) == 0);
    options.program = unprivileged();
    options.read_only = 1;
    if (paged_blob_open(path_of("protected"), &options, &blob, &failure) != PAGED_OK) {
        SO(chmod(room, 0755) == 0);
        printf("left out: this user may write any file, and there is no setpriv\n");
        return;
    }
    SO(paged_blob_hello(blob)->size == 5);
    end_blob(blob);
    options.read_only = 0;
    IS(PAGED_NOT_OPENED, paged_blob_open(path_of("protected"), &options, &blob, &failure), &failure);
    SO(strstr(failure.said, "Permission denied") != NULL && failure.next == PAGED_MEND_FIRST);
    IS(PAGED_NOT_OPENED, paged_log_open(path_of("protected-log"), &options, &log, &failure), &failure);
    SO(chmod(room, 0755) == 0);
    passed("a file and a folder that may not be written: refused, and served for reading alone");
}

static const char *segment_of(const char *folder, int number) {
    char name[128];
    snprintf(name, sizeof name, "%s/%020d.segment", folder, number);
    return path_of(name);
}

static void flip(const char *path, size_t at) {
    size_t len;
    unsigned char *data = read_file(path, &len);
    SO(at < len);
    data[at] ^= 1;
    write_file(path, data, len);
    free(data);
}

static void rotten(void) {
    struct paged_options options = options_of();
    struct paged_place places[SOME], start = {0, 0};
    struct paged_passed by;
    struct paged_record record;
    paged_scan *scan;
    int number = 0;
    uint64_t lost = 0;
    options.page_size = 100;
    options.segment_size = 500;
    paged_log *log = log_of(path_of("rotten"), &options);
    append_some(log, places);
    end_log(log);
    /* Page 2 of segment 1: its content begins at byte 200, and its file's page at byte 2 * 112. */
    flip(segment_of("rotten", 1), 2 * 112 + 5);
    log = log_of(path_of("rotten"), &options);
    const struct paged_failure *why = paged_log_failure(log);
    IS(PAGED_OK, paged_scan_open(log, start, 0, &scan), why);
    enum paged_error error;
    while ((error = paged_scan_next(scan, &record)) != PAGED_PAST_END) {
        if (error == PAGED_DAMAGED) {
            SO(why->status == 39 && why->next == PAGED_ASK_ELSE);
            IS(PAGED_OK, paged_scan_pass_damage(scan, &by), why);
            SO(by.records_known && by.records > 0 && by.bytes > 0);
            lost += by.records;
            number += (int)by.records;
            continue;
        }
        IS(PAGED_OK, error, why);
        SO(is_some(&record, number) && is_place(record.place, places[number]));
        number++;
    }
    SO(number == SOME && lost >= 2);
    paged_scan_close(scan);
    for (int i = 0; i < SOME; i++) {
        size_t len = strlen("record 1, record 1") + (i > 9 ? 2 : 0);
        int touches = places[i].segment == 1 && places[i].offset < 300 && places[i].offset + 7 + len > 200;
        IS(touches ? PAGED_DAMAGED : PAGED_OK, paged_log_read(log, places[i], &record), why);
    }
    end_log(log);
    passed("a rotten page of a closed segment: a scan goes on behind it, and loses the records in it alone");
}

static void torn(void) {
    struct paged_place places[SOME];
    unsigned char tail[3000];
    size_t len;
    paged_log *log = log_of(path_of("torn"), NULL);
    append_some(log, places);
    end_log(log);
    memset(tail, 0x55, sizeof tail);
    unsigned char *data = read_file(segment_of("torn", 0), &len);
    data = realloc(data, len + sizeof tail);
    SO(data != NULL);
    memcpy(data + len, tail, sizeof tail);
    write_file(segment_of("torn", 0), data, len + sizeof tail);
    free(data);
    log = log_of(path_of("torn"), NULL);
    const struct paged_hello *hello = paged_log_hello(log);
    SO(hello->size == SOME && hello->cut == sizeof tail && hello->given_up == sizeof tail && hello->copy[0]);
    SO(strstr(paged_log_said(log), "cut-1") != NULL);
    end_log(log);
    passed("a torn end is cut, and the hello states how much, and where its copy is");
    write_file(path_of("torn/manifest"), "", 0);
    struct paged_options options = options_of();
    IS(PAGED_NOT_WHOLE, paged_log_open(path_of("torn"), &options, &log, &failure), &failure);
    SO(failure.said[0] && failure.exit_status == 3);
    passed("a log without its manifest is refused as not whole");
}

/* A program under a limit on the size of files, with or without the signal. */
static const char *limited(const char *name, int blocks, int has_signal) {
    char script[8192];
    const char *path = path_of(name);
    snprintf(script, sizeof script, "#!/bin/sh\n%sulimit -f %d\nexec '%s' \"$@\"\n", has_signal ? "" : "trap '' XFSZ\n",
             blocks, pagedd);
    write_file(path, script, strlen(script));
    SO(chmod(path, 0700) == 0);
    return path;
}

static void full(void) {
    struct paged_options options = {0};
    static unsigned char data[40000];
    const struct paged_bytes records[] = {{data, 20000}, {data, 20000}};
    paged_log *log;
    options.program = limited("limit", 32, 0);
    paged_blob *blob = blob_of(path_of("full"), &options);
    const struct paged_failure *why = paged_blob_failure(blob);
    IS(PAGED_WRITE_FAILED, paged_blob_append_records_sync(blob, records, 2, NULL), why);
    SO(why->status == 2 && why->next == PAGED_OPEN_ANEW && why->taken == 1 && why->system_error == EFBIG);
    SO(strstr(why->words, "File too large") != NULL);
    IS(PAGED_CLOSED, paged_blob_sync(blob), why);
    IS(PAGED_CLOSED, paged_blob_close(blob, &failure), &failure);
    SO(failure.exit_status == 1 && strstr(failure.said, "File too large") != NULL);
    log = log_of(path_of("full-log"), &options);
    IS(PAGED_OK, paged_log_append(log, "kept", 4, NULL), paged_log_failure(log));
    IS(PAGED_OK, paged_log_sync(log), paged_log_failure(log));
    IS(PAGED_WRITE_FAILED, paged_log_append_records_sync(log, records, 2, NULL), paged_log_failure(log));
    SO(paged_log_failure(log)->system_error == EFBIG && paged_log_failure(log)->next == PAGED_OPEN_ANEW);
    IS(PAGED_CLOSED, paged_log_append(log, "x", 1, NULL), paged_log_failure(log));
    IS(PAGED_CLOSED, paged_log_close(log, NULL), NULL);
    log = log_of(path_of("full-log"), NULL);
    struct paged_place place = {0, 0};
    struct paged_record record;
    IS(PAGED_OK, paged_log_next(log, &place, &record), paged_log_failure(log));
    SO(record.len == 4 && memcmp(record.data, "kept", 4) == 0);
    end_log(log);
    passed("a full disk: the status, errno and words, what was taken, and what to do next; what was synced is kept");
    options.program = limited("limit-signal", 32, 1);
    blob = blob_of(path_of("full-signal"), &options);
    IS(PAGED_ENDED, paged_blob_append_records_sync(blob, records, 2, NULL), paged_blob_failure(blob));
    SO(paged_blob_failure(blob)->signal == SIGXFSZ);
    IS(PAGED_ENDED, paged_blob_close(blob, NULL), NULL);
    passed("a signal by ulimit -f ends the program, and the failure has its number");
}

/* ---- What dies --------------------------------------------------------------------------------------------- */

static void dead_program(void) {
    struct paged_record record;
    struct paged_place place;
    paged_log *log = log_of(path_of("dead"), NULL);
    IS(PAGED_OK, paged_log_append(log, "kept", 4, NULL), paged_log_failure(log));
    IS(PAGED_OK, paged_log_sync(log), paged_log_failure(log));
    SO(kill((pid_t)paged_log_process(log), SIGKILL) == 0);
    IS(PAGED_ENDED, paged_log_append(log, "lost", 4, NULL), paged_log_failure(log));
    SO(paged_log_failure(log)->signal == SIGKILL && paged_log_failure(log)->next == PAGED_OPEN_ANEW);
    IS(PAGED_SESSION_OVER, paged_log_sync(log), paged_log_failure(log));
    IS(PAGED_SESSION_OVER, paged_log_read_many(log, &place, 1, &record, NULL), paged_log_failure(log));
    IS(PAGED_ENDED, paged_log_close(log, NULL), NULL);
    log = log_of(path_of("dead"), NULL);
    SO(paged_log_hello(log)->size == 1);
    SO(kill((pid_t)paged_log_process(log), SIGKILL) == 0);
    IS(PAGED_ENDED, paged_log_close(log, &failure), &failure);
    SO(failure.signal == SIGKILL);
    passed("a killed program is lost at once; what was synced is there when it is opened again");
}

static void dead_client(void) {
    struct paged_options options = options_of();
    const char *path = path_of("client");
    pid_t child = fork();
    SO(child >= 0);
    if (child == 0) {
        paged_log *log, *other;
        if (paged_log_open(path, &options, &log, NULL) != PAGED_OK ||
            paged_log_open(path_of("client-other"), &options, &other, NULL) != PAGED_OK ||
            paged_log_append(log, "synced", 6, NULL) != PAGED_OK || paged_log_sync(log) != PAGED_OK ||
            paged_log_append(log, "not synced", 10, NULL) != PAGED_OK)
            _exit(1);
        raise(SIGKILL);
    }
    int status;
    SO(waitpid(child, &status, 0) == child && WIFSIGNALED(status));
    paged_log *log = NULL;
    for (int turn = 0; turn < 3000 && log == NULL; turn++) {
        struct timespec moment = {0, 10000000};
        if (paged_log_open(path, &options, &log, &failure) != PAGED_OK) {
            SO(failure.error == PAGED_LOCKED);
            nanosleep(&moment, NULL);
        }
    }
    SO(log != NULL && paged_log_hello(log)->size >= 1);
    end_log(log);
    passed("a client that dies takes its programs with it, and what was synced is kept");
}

void tests_served(void) {
    blob_calls(1);
    blob_calls(2);
    blob_calls_of_two();
    great_reads();
    log_calls();
    lengths();
    unicode();
    wrong_words();
    locked();
    read_only();
    protected_file();
    rotten();
    torn();
    full();
    dead_program();
    dead_client();
}

/* ---- Kills ------------------------------------------------------------------------------------------------- */

/* The process that the next signal of the timer kills. */
static volatile sig_atomic_t victim;

static void kill_victim(int number) {
    (void)number;
    if (victim > 0)
        kill((pid_t)victim, SIGKILL);
}

static unsigned next_random(unsigned *state) {
    *state = *state * 1664525u + 1013904223u;
    return *state >> 8;
}

enum { MOST_BATCH = 9, MOST_FILLED = 160 };

/* A record: its number, and some bytes that follow from it. */
static size_t numbered(uint64_t number, unsigned char *to) {
    size_t len = 8 + (size_t)(number * 7919 % 120);
    for (size_t i = 0; i < len; i++)
        to[i] = (unsigned char)(i < 8 ? number >> 8 * i : number + i);
    return len;
}

/* What is known of the log from one start of the program to the next. */
struct known {
    uint64_t next;      /* the number of the next record to be appended */
    uint64_t committed; /* the records before this one are durable, by an answer */
    uint64_t sent;      /* the records before this one may be there */
    uint64_t first;     /* the records before this one may have been dropped */
    uint64_t segments;
};

/* Holds the records of the log against what is known, and sets where to go on. */
static void compare(paged_log *log, struct known *known) {
    const struct paged_place start = {0, 0};
    unsigned char wanted[MOST_FILLED];
    struct paged_record record;
    paged_scan *scan;
    uint64_t count = 0, first = 0, held;
    enum paged_error error;
    IS(PAGED_OK, paged_scan_open(log, start, 4096, &scan), paged_log_failure(log));
    while ((error = paged_scan_next(scan, &record)) == PAGED_OK) {
        SO(record.len >= 8);
        uint64_t number = 0;
        for (int i = 7; i >= 0; i--)
            number = number << 8 | record.data[i];
        if (count == 0)
            first = number;
        SO(number == first + count); /* none is missing, and none is there twice */
        SO(record.len == numbered(number, wanted) && memcmp(record.data, wanted, record.len) == 0);
        count++;
    }
    IS(PAGED_PAST_END, error, paged_log_failure(log));
    paged_scan_close(scan);
    IS(PAGED_OK, paged_log_size(log, &held), paged_log_failure(log));
    SO(held == count && paged_log_hello(log)->size == count);
    SO(count > 0 || known->committed == known->first);
    uint64_t end = count > 0 ? first + count : known->committed;
    SO(count == 0 || first <= known->first); /* nothing is gone that wasn't dropped */
    SO(end >= known->committed && end <= known->sent);
    known->next = known->sent = end;
}

/* Appends until the program is gone; answers how many requests of which kinds were the last. */
static void work(paged_log *log, struct known *known, unsigned *state, uint64_t *refused_in) {
    unsigned char data[MOST_BATCH][MOST_FILLED];
    struct paged_bytes records[MOST_BATCH];
    enum paged_error error = PAGED_OK;
    struct paged_place place = {0, 0};
    while (!error) {
        unsigned what = next_random(state) % 100;
        size_t count = what < 40 ? 1 : 1 + next_random(state) % MOST_BATCH;
        for (size_t i = 0; i < count; i++) {
            records[i].data = data[i];
            records[i].len = numbered(known->next + i, data[i]);
        }
        if (what < 90)
            known->sent = known->next + count;
        if (what < 40)
            error = paged_log_append(log, records[0].data, records[0].len, &place);
        else if (what < 60)
            error = paged_log_append_records(log, records, count, NULL);
        else if (what < 90)
            error = paged_log_append_records_sync(log, records, count, NULL);
        else
            error = paged_log_sync(log);
        if (error && what < 90)
            ++*refused_in;
        if (!error && what < 90)
            known->next = known->sent;
        if (!error && what >= 60)
            known->committed = known->next;
    }
    IS(PAGED_ENDED, error, paged_log_failure(log));
    SO(paged_log_failure(log)->signal == SIGKILL);
}

/* Drops all segments apart from the last ones, so that a scan stays short. */
static void drop_some(paged_log *log, struct known *known) {
    struct paged_where where;
    struct paged_place place;
    struct paged_record record;
    IS(PAGED_OK, paged_log_sync(log), paged_log_failure(log));
    known->committed = known->next;
    IS(PAGED_OK, paged_log_where(log, 0, 0, &where), paged_log_failure(log));
    known->segments = where.last + 1;
    if (where.last < where.first + 12)
        return;
    IS(PAGED_OK, paged_log_drop_before(log, where.last - 4), paged_log_failure(log));
    place.segment = where.last - 4;
    place.offset = 0;
    IS(PAGED_OK, paged_log_next(log, &place, &record), paged_log_failure(log));
    known->first = 0;
    for (int i = 7; i >= 0; i--)
        known->first = known->first << 8 | record.data[i];
}

void kills(int count, unsigned seed) {
    struct paged_options options = options_of();
    struct known known = {0, 0, 0, 0, 0};
    struct sigaction action;
    uint64_t in_appends = 0, most_more = 0;
    unsigned state = seed;
    const char *path = path_of("kills");
    options.segment_size = 3000;
    memset(&action, 0, sizeof action);
    action.sa_handler = kill_victim; /* (without SA_RESTART, so that calls of the client are interrupted) */
    SO(sigaction(SIGALRM, &action, NULL) == 0);
    for (int turn = 0; turn <= count; turn++) {
        paged_log *log = log_of(path, &options);
        uint64_t committed = known.committed;
        compare(log, &known);
        most_more = known.next - committed > most_more ? known.next - committed : most_more;
        drop_some(log, &known);
        if (turn == count) {
            end_log(log);
            break;
        }
        struct itimerval timer = {{0, 0}, {0, 100 + (long)(next_random(&state) % 30000)}};
        victim = (sig_atomic_t)paged_log_process(log);
        SO(setitimer(ITIMER_REAL, &timer, NULL) == 0);
        work(log, &known, &state, &in_appends);
        victim = 0;
        IS(PAGED_ENDED, paged_log_close(log, NULL), NULL);
    }
    printf(
        "ok: %d kills, %llu of them in the midst of an append, over %llu segments and %llu records: each durable record"
        " is there, in order and once, and at most %llu more than were durable\n",
        count, (unsigned long long)in_appends, (unsigned long long)known.segments, (unsigned long long)known.next,
        (unsigned long long)most_more);
}

/* ---- Figures ----------------------------------------------------------------------------------------------- */

enum { RECORDS = 100000, RECORD = 200 };

static double seconds(void) {
    struct timespec now;
    clock_gettime(CLOCK_MONOTONIC, &now);
    return (double)now.tv_sec + (double)now.tv_nsec / 1e9;
}

static void plain(const unsigned char *data, size_t batch) {
    unsigned char *found = malloc((size_t)RECORDS * RECORD);
    const char *path = path_of("plain");
    SO(found != NULL);
    double begin = seconds();
    FILE *file = fopen(path, "w+b");
    SO(file != NULL);
    setvbuf(file, NULL, _IONBF, 0);
    for (size_t i = 0; i < RECORDS; i += batch) {
        SO(fwrite(data, RECORD, batch, file) == batch);
        SO(fdatasync(fileno(file)) == 0);
    }
    double appended = seconds();
    rewind(file);
    SO(fread(found, RECORD, RECORDS, file) == RECORDS);
    double ended = seconds();
    fclose(file);
    remove(path);
    free(found);
    printf("a plain file, batches of %zu: appended with a sync each in %.3f s, read in %.3f s\n", batch,
           appended - begin, ended - appended);
}

static void of_log(const unsigned char *data, size_t batch) {
    struct paged_bytes *records = malloc(batch * sizeof *records);
    struct paged_place place = {0, 0};
    struct paged_record record;
    char name[32];
    paged_scan *scan;
    size_t count = 0;
    SO(records != NULL);
    for (size_t i = 0; i < batch; i++) {
        records[i].data = data + i * RECORD;
        records[i].len = RECORD;
    }
    snprintf(name, sizeof name, "figures-%zu", batch);
    paged_log *log = log_of(path_of(name), NULL);
    double begin = seconds();
    for (size_t i = 0; i < RECORDS; i += batch)
        IS(PAGED_OK, paged_log_append_records_sync(log, records, batch, NULL), paged_log_failure(log));
    double appended = seconds();
    IS(PAGED_OK, paged_scan_open(log, place, 0, &scan), paged_log_failure(log));
    while (paged_scan_next(scan, &record) == PAGED_OK)
        count += record.len == RECORD;
    double scanned = seconds();
    SO(count == RECORDS);
    while (paged_log_next(log, &place, &record) == PAGED_OK)
        count++;
    double ended = seconds();
    SO(count == 2 * RECORDS);
    paged_scan_close(scan);
    end_log(log);
    free(records);
    printf(
        "a log, batches of %zu: appended with a sync each in %.3f s, read by a scan in %.3f s, one by one in %.3f s\n",
        batch, appended - begin, scanned - appended, ended - scanned);
}

void figures(void) {
    unsigned char *data = malloc((size_t)RECORDS * RECORD);
    SO(data != NULL);
    for (size_t i = 0; i < (size_t)RECORDS * RECORD; i++)
        data[i] = (unsigned char)(i * 31 % 251);
    for (size_t batch = 100; batch <= 10000; batch *= 10) {
        plain(data, batch);
        of_log(data, batch);
    }
    free(data);
}
