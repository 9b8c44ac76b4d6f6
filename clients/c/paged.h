/* paged.h: blobs and logs that survive a crash, served by the program `pagedd`.
 *
 * SYNOPSIS
 *
 *     paged_log *log;
 *     struct paged_failure failure;
 *     struct paged_place place;
 *
 *     if (paged_log_open("events", NULL, &log, &failure) != PAGED_OK)
 *         fail(&failure);
 *     if (paged_log_append(log, "hello", 5, &place) != PAGED_OK || paged_log_sync(log) != PAGED_OK)
 *         fail(paged_log_failure(log));
 *     paged_log_close(log, NULL);
 *
 * DESCRIPTION
 *
 * There are two things to open. A BLOB is a file of bytes that is appended to, read, and cut: the calls
 * paged_blob_... A LOG is a folder of records of at most 65,535 bytes, which are appended, committed, read by
 * their place, and dropped from the oldest on: the calls paged_log_.... A log may be greater than memory; of a
 * blob all bytes stand in memory.
 *
 * Each open starts a process of `pagedd` and speaks with it by its standard input and output. The process
 * belongs to the handle: paged_blob_close and paged_log_close end it and wait for it. The page
 * docs/PROTOCOL.md says what each request promises; this header says what a caller in C has to
 * know.
 *
 * Durability. What was appended is durable after a sync, a sync_size, an append_records_sync or a wait_sync has
 * answered PAGED_OK, and not before. A close syncs nothing.
 *
 * Memory. What a call writes to memory of the caller is named `to`. Records, lists and texts that a call
 * answers by a pointer belong to the handle. They hold until the next call with the same handle, except those
 * of a scan, which hold until the next call with the same scan.
 *
 * Threads and signals. One call at a time may use a handle. Different handles share nothing, and this file has
 * no variables of its own. No call starts a thread, changes the disposition of a signal, or retries a request.
 * A call that a signal interrupts goes on. If the caller ignores SIGCHLD, the exit status of a program that
 * ended isn't known.
 *
 * ERRORS
 *
 * Each call that can fail answers an enum paged_error, and PAGED_OK is 0. paged_blob_failure and
 * paged_log_failure have the rest: the status of the program's answer, what to do next, how much of the
 * request was taken, the system's errno, words for it, and the last lines that the program wrote to its
 * standard error. paged_describe puts that on one line. If an open fails there is no handle, so an open writes
 * the failure to memory of the caller.
 *
 * Three cases are to be told apart:
 *
 *   - A refusal (up to PAGED_UNKNOWN_STATUS): the program answered that it can't. `next` says what to do, in
 *     version 2 of the protocol. The handle can be used as far as `next` allows it.
 *   - A lost program (PAGED_ENDED, PAGED_BAD_ANSWER): nobody knows whether the last request was done. Close the
 *     handle, open the blob or log again, and look at what is there before anything is appended again.
 *   - A mistake of the caller (PAGED_TOO_LONG, PAGED_WRONG_ARGUMENT, PAGED_UNSUPPORTED): nothing was sent.
 *
 * After a lost program each later call answers PAGED_SESSION_OVER, and the failure keeps its first cause.
 */
#ifndef PAGED_H
#define PAGED_H

#include <stddef.h>
#include <stdint.h>

#ifdef __cplusplus
extern "C" {
#endif

/* What a call answers. Up to 45 these are the statuses of the protocol; PROTOCOL says what each
 * one leaves of the writer and the log. */
enum paged_error {
    PAGED_OK = 0,
    PAGED_READ_FAILED = 1,
    PAGED_WRITE_FAILED = 2,
    PAGED_RESIZE_FAILED = 3,
    PAGED_SYNC_FAILED = 4,
    PAGED_INVALID_CHECKSUM = 5,
    /* An offset or a range passes the end; of a log, no record comes after the place, or the segment has no
     * record of this number. So it is also what ends a loop over records. */
    PAGED_PAST_END = 6,
    PAGED_OFFSET_OVERFLOW = 7,
    PAGED_OUT_OF_MEMORY = 8, /* the program's memory */
    PAGED_IDS_EXHAUSTED = 9,
    PAGED_NO_FILE = 16,
    PAGED_CLOSED = 17, /* the writer is gone, or a failure closed the log */
    PAGED_RECOVERY_ENDED = 18,
    PAGED_UNORDERED_RANGES = 19,
    PAGED_UNKNOWN_NUMBER = 20, /* no such started sync, snapshot or replay */
    PAGED_STILL_RECOVERING = 21,
    PAGED_READ_ONLY = 22,
    PAGED_WRONG_FIELDS = 23, /* also: a record of a log is longer than 65,535 bytes */
    PAGED_NO_VERSION = 24,
    PAGED_CUT_REQUEST = 32,
    PAGED_EMPTY_REQUEST = 33,
    PAGED_UNKNOWN_KIND = 34,
    PAGED_WRONG_LENGTH = 35,
    PAGED_ANSWER_TOO_LONG = 36,
    PAGED_EMPTY_BUFFER = 37,
    PAGED_NO_SEGMENT = 38,
    PAGED_DAMAGED = 39, /* a closed segment doesn't hold what it held: paged_log_pass_damage goes on behind it */
    PAGED_SYSTEM_REFUSED = 40,
    PAGED_UNLISTED = 41,
    PAGED_NUMBERS_EXHAUSTED = 42,
    PAGED_WRONG_MANIFEST = 43,
    PAGED_NO_FRAME = 44,
    PAGED_UNMARKED = 45,
    /* A refusal with a status that this client doesn't know; the failure has its number. */
    PAGED_UNKNOWN_STATUS = 255,

    /* Of an open: the program couldn't be started, by `errno`; it couldn't open the file or the folder, as
     * `said` says; another process has it open; or it isn't whole, and nothing was changed. */
    PAGED_NOT_STARTED = 256,
    PAGED_NOT_OPENED = 257,
    PAGED_LOCKED = 258,
    PAGED_NOT_WHOLE = 259,
    /* The program ended before it answered. */
    PAGED_ENDED = 260,
    /* What came is no answer by the protocol. */
    PAGED_BAD_ANSWER = 261,
    /* An earlier call lost the program. */
    PAGED_SESSION_OVER = 262,
    /* Nothing was sent: the request, or its answer, would be longer than the protocol allows; an argument can't
     * be meant; this version of the protocol, or this program, has no such request; or this process has no
     * memory for it. */
    PAGED_TOO_LONG = 263,
    PAGED_WRONG_ARGUMENT = 264,
    PAGED_UNSUPPORTED = 265,
    PAGED_NO_MEMORY = 266
};

/* What to do after a failure. The first four are those of the protocol. */
enum paged_next {
    PAGED_ASK_ELSE = 0,     /* the request can't be met as it stands */
    PAGED_ASK_AGAIN = 1,    /* the same request may be met another time */
    PAGED_OPEN_ANEW = 2,    /* close the handle, open again, and read what was recovered */
    PAGED_REPLACE_FILE = 3, /* close the handle, run `pagedd rewrite`, and then open again */
    PAGED_MEND_FIRST = 4,   /* of an open: mend what `said` or `words` name, and then open again */
    PAGED_NEXT_UNKNOWN = 5  /* the answer didn't say, as in version 1 */
};

/* The most bytes that are kept of what the program wrote to its standard error: the last ones. */
enum { PAGED_SAID = 2048, PAGED_WORDS = 256 };

/* Why a call failed. */
struct paged_failure {
    enum paged_error error;
    int status;           /* of the answer; -1 if no answer came */
    enum paged_next next;
    /* How much of the request was taken, in version 2: for a blob, steps (of append_records_sync the append is
     * one, and the sync another); for a log, records that were appended. 0 in version 1. Not known, and 0, if
     * the program was lost. */
    uint64_t taken;
    uint64_t system_error; /* errno, of the program or of this process; 0 if there is none */
    int exit_status;       /* of a program that ended; else -1 */
    int signal;            /* that ended the program; else 0 */
    char words[PAGED_WORDS]; /* the answer's words for the cause, or this client's */
    char said[PAGED_SAID];   /* the last lines that the program wrote to its standard error */
};

/* How to open. Zeros, or no options at all, mean what the program does by default:
 * struct paged_options options = {0}; */
struct paged_options {
    const char *program;  /* a path, or a name to be looked for in PATH. NULL: the variable PAGEDD, or `pagedd` */
    int version;          /* of the protocol: 1 or 2 alone; 0: the highest that both know */
    int read_only;        /* serves for reading alone, and changes no file */
    int cut;              /* recovers what would be refused as not whole; what is cut is kept beside it */
    const uint64_t *cut_limit; /* how many bytes may be cut without `cut` though pages among them fit; or NULL */
    uint32_t page_size;   /* the content bytes of a page, 1 to 65,535 */
    const char *checksum; /* "crc32c" or "add" */
    uint64_t buffer;      /* the bytes that are held back, and those of a read */
    uint64_t cache;       /* the pages that may be held in memory */
    const char *digest;   /* of a log alone: "sha512-256" or "poly61" */
    uint64_t segment_size; /* of a log alone: from how many bytes on a segment is closed */
    /* The program writes to this process's standard error. Then `said` stays empty, and PAGED_NOT_OPENED stands for
     * PAGED_LOCKED too, which is known by the words there. */
    int share_standard_error;
    int own_process_group;    /* a Ctrl-C in the terminal doesn't reach the program */
};

/* What the program stated when it opened. In version 1 only `version` and `size` are known, the others are 0. */
struct paged_hello {
    int version;
    int read_only;
    uint64_t size; /* at the opening: of a blob, bytes; of a log, records */
    uint64_t page_size;
    uint64_t most_payload; /* the most bytes of an answer's payload, and of a request's fields */
    uint64_t most_fields;
    uint64_t most_ranges; /* of a blob alone: the most ranges of a request */
    uint64_t most_record; /* of a log alone: the most bytes of a record */
    uint64_t most_records; /* the most records of a request */
    /* How many bytes the opening cut (when reading alone, how many are hidden), and how many it gave up in all.
     * For a client that had synced all that it appended, `given_up` other than 0 is an alarm. */
    uint64_t cut;
    uint64_t given_up;
    const char *checksum; /* its name */
    const char *copy;     /* the name of the copy that was made of what was given up; "" if none */
    const unsigned char *kinds; /* of a log: the kinds of requests that the program takes */
    size_t kind_count;          /* 0 if it doesn't say, as before version 0.12 of the program */
};

/* A record, as it is given to an append. */
struct paged_bytes {
    const void *data;
    size_t len;
};

/* A range of a blob's content. */
struct paged_range {
    uint64_t offset;
    size_t len;
};

/* A sync that was started. If `pending` is 0 all is durable already, and there is no name. */
struct paged_started {
    int pending;
    uint64_t name;
};

/* Texts for an error: its name as above, and what it means. For what to do next, the words. */
const char *paged_error_name(enum paged_error error);
const char *paged_error_words(enum paged_error error);
const char *paged_next_words(enum paged_next next);

/* Writes a failure on one line to `to`, which has `room` bytes, and ends it with a 0 if there is any room.
 * Answers how many bytes the line has without the 0, as snprintf does. */
size_t paged_describe(const struct paged_failure *failure, char *to, size_t room);

/* ---- A blob ------------------------------------------------------------------------------------------------ */

typedef struct paged_blob paged_blob;

/* Starts `pagedd serve PATH`, which makes the file if it is missing, and recovers it. `options` and `failure` may
 * be NULL. At an error *blob is NULL. */
enum paged_error paged_blob_open(const char *path, const struct paged_options *options, paged_blob **blob,
                                 struct paged_failure *failure);

/* Ends the program, waits for it, and frees the handle, in any case; with NULL it does nothing. It syncs nothing.
 * PAGED_OK: the program ended as it should. PAGED_CLOSED: the writer was lost before. PAGED_ENDED: it ended by a
 * signal, or with another status. If an earlier call lost the program, that call's error comes again, and a program
 * that still runs is killed. `failure` may be NULL. */
enum paged_error paged_blob_close(paged_blob *blob, struct paged_failure *failure);

const struct paged_hello *paged_blob_hello(const paged_blob *blob);
/* Why the last call that failed did so. */
const struct paged_failure *paged_blob_failure(const paged_blob *blob);
/* What the program wrote to its standard error so far, the last bytes of it. */
const char *paged_blob_said(paged_blob *blob);
/* The number of the process. */
long paged_blob_process(const paged_blob *blob);

/* Appends bytes, and answers the offset of the first one. Below, `offset` may be NULL, and so may each pointer
 * to a single number that a call answers. */
enum paged_error paged_blob_append(paged_blob *blob, const void *data, size_t len, uint64_t *offset);
/* Makes all that was appended durable. */
enum paged_error paged_blob_sync(paged_blob *blob);
/* Starts to make it durable; a wait for the name ends that. A name may be waited for more than once. */
enum paged_error paged_blob_start_sync(paged_blob *blob, struct paged_started *started);
enum paged_error paged_blob_wait_sync(paged_blob *blob, uint64_t name);
/* How many bytes the content has, those that aren't durable too. */
enum paged_error paged_blob_size(paged_blob *blob, uint64_t *size);

/* Reads exactly `len` bytes, or at most so many and states how many. */
enum paged_error paged_blob_read(paged_blob *blob, uint64_t offset, void *to, size_t len);
enum paged_error paged_blob_read_up_to(paged_blob *blob, uint64_t offset, void *to, size_t len, size_t *count);

/* Ends the recovery: from then on snapshots can be made, and a truncate is refused. */
enum paged_error paged_blob_begin(paged_blob *blob);
/* Cuts the content to its first `size` bytes, durably, and answers how many are left. */
enum paged_error paged_blob_truncate(paged_blob *blob, uint64_t size, uint64_t *left);

/* A snapshot keeps the content as it stands, to be read by its number. */
enum paged_error paged_blob_snapshot(paged_blob *blob, uint64_t *snapshot);
enum paged_error paged_blob_read_snapshot(paged_blob *blob, uint64_t snapshot, uint64_t offset, void *to,
                                          size_t len);

/* A replay goes over the content as it stands, from its first byte. `ensure` asks it to have `count` bytes at
 * hand, and answers whether so many are left; `take` takes what it has at hand, at most `len` bytes. At the end
 * an ensure of 1 answers 0. */
enum paged_error paged_blob_replay(paged_blob *blob, uint64_t buffer_size, uint64_t *replay);
enum paged_error paged_blob_ensure(paged_blob *blob, uint64_t replay, uint64_t count, int *is_there);
enum paged_error paged_blob_take(paged_blob *blob, uint64_t replay, void *to, size_t len, size_t *count);
enum paged_error paged_blob_seek(paged_blob *blob, uint64_t replay, uint64_t offset);

/* The rest is of version 2 alone: in version 1 it answers PAGED_UNSUPPORTED.
 *
 * Records are appended one after another by one request. The blob keeps their bytes alone, with nothing between;
 * the offset of each goes to offsets[0] to offsets[count - 1], unless `offsets` is NULL. With .._sync all of them
 * are durable at PAGED_OK; .._start starts a sync. If one is refused, a part may be in the file, by
 * `taken`: open anew, and compare the size with that before it. */
enum paged_error paged_blob_append_records(paged_blob *blob, const struct paged_bytes *records, size_t count,
                                           uint64_t *offsets);
enum paged_error paged_blob_append_records_sync(paged_blob *blob, const struct paged_bytes *records, size_t count,
                                                uint64_t *offsets);
enum paged_error paged_blob_append_records_start(paged_blob *blob, const struct paged_bytes *records, size_t count,
                                                 uint64_t *offsets, struct paged_started *started);
/* Reads ranges, in order and without overlap, one after another to `to`, which has room for all of them. Answers
 * how many were served from the buffer and the cache. */
enum paged_error paged_blob_read_ranges(paged_blob *blob, const struct paged_range *ranges, size_t count, void *to,
                                        uint64_t *served);
/* Syncs, and answers how many bytes are durable then. */
enum paged_error paged_blob_sync_size(paged_blob *blob, uint64_t *size);
/* How many bytes a recovery would keep of what is written now, synced or not. */
enum paged_error paged_blob_look(paged_blob *blob, uint64_t *kept);
enum paged_error paged_blob_drop_snapshot(paged_blob *blob, uint64_t snapshot);
enum paged_error paged_blob_drop_replay(paged_blob *blob, uint64_t replay);
enum paged_error paged_blob_flush(paged_blob *blob);
enum paged_error paged_blob_count_open(paged_blob *blob, uint64_t *snapshots, uint64_t *replays);

/* ---- A log ------------------------------------------------------------------------------------------------- */

typedef struct paged_log paged_log;

/* Where a record stands: a segment, and an offset in it. {0, 0} stands for the start of the log. */
struct paged_place {
    uint64_t segment;
    uint64_t offset;
};

/* A record, as it was read, and the place behind it. `data` belongs to the handle, or to the scan. */
struct paged_record {
    struct paged_place place;
    struct paged_place behind;
    const unsigned char *data;
    size_t len;
    int is_record; /* 0 if the checksum of the frame doesn't fit; then there are no bytes */
};

/* What is kept of a closed segment. */
struct paged_closed {
    uint64_t segment;
    uint64_t records;
    uint64_t bytes; /* of its content, or, if `of_file`, of its file */
    int of_file;    /* a version before 0.11 closed it */
};

/* Where a log begins and ends. */
struct paged_where {
    uint64_t first;         /* the first segment that wasn't dropped */
    uint64_t last;          /* the open segment */
    struct paged_place end; /* where the next record goes, unless it begins a new segment */
    uint64_t records;       /* of the open segment */
    const struct paged_closed *closed; /* the closed segments that were asked for; it belongs to the handle */
    size_t closed_count;
};

/* What was passed behind a damaged page. */
struct paged_passed {
    struct paged_place place; /* where to go on */
    uint64_t bytes;
    uint64_t records;         /* 0 if `records_known` is 0 */
    int records_known;
};

/* Starts `pagedd serve-log FOLDER`, which makes the folder if it is missing, and recovers the log. As of a blob. */
enum paged_error paged_log_open(const char *folder, const struct paged_options *options, paged_log **log,
                                struct paged_failure *failure);
/* As of a blob. It commits nothing. */
enum paged_error paged_log_close(paged_log *log, struct paged_failure *failure);

const struct paged_hello *paged_log_hello(const paged_log *log);
const struct paged_failure *paged_log_failure(const paged_log *log);
const char *paged_log_said(paged_log *log);
long paged_log_process(const paged_log *log);

/* Appends a record, and answers its place. It can be read at once, and is durable after a sync. */
enum paged_error paged_log_append(paged_log *log, const void *data, size_t len, struct paged_place *place);
/* Commits all records: whatever crashes from then on, they come back. */
enum paged_error paged_log_sync(paged_log *log);
/* How many records the log has, those that aren't durable too. */
enum paged_error paged_log_size(paged_log *log, uint64_t *records);

/* Reads the record at a place that an append or another read answered. At the end of a segment there is none, and
 * that is PAGED_PAST_END. */
enum paged_error paged_log_read(paged_log *log, struct paged_place place, struct paged_record *record);
/* Reads the records at many places, in any order, with at most 128 requests on the way: it doesn't wait for each.
 * At an error records[0] to records[*done - 1] were read. `done` may be NULL. */
enum paged_error paged_log_read_many(paged_log *log, const struct paged_place *places, size_t count,
                                     struct paged_record *records, size_t *done);
/* Reads the first record at *place or after it, and moves *place behind it. At the end of the log it answers
 * PAGED_PAST_END, and *place stays: the same call goes on once more was appended. */
enum paged_error paged_log_next(paged_log *log, struct paged_place *place, struct paged_record *record);

/* Drops all segments before this one, durably. The open segment is never dropped. */
enum paged_error paged_log_drop_before(paged_log *log, uint64_t segment);

/* A scan goes over the records from a place on, by batches of at most `most` bytes (0: 1 MiB), with one request for
 * each batch. In version 1, and with a program before version 0.12, it asks for each record. Other calls with the log
 * may come between its steps. Close it before the log. */
typedef struct paged_scan paged_scan;
enum paged_error paged_scan_open(paged_log *log, struct paged_place from, uint64_t most, paged_scan **scan);
/* The next record. PAGED_PAST_END: none comes now, and the same call goes on once more was appended. PAGED_DAMAGED:
 * paged_scan_pass_damage goes on behind the page. Other errors leave the scan where it stands. */
enum paged_error paged_scan_next(paged_scan *scan, struct paged_record *record);
/* Where the scan stands: the place behind the last record that it answered. */
struct paged_place paged_scan_place(const paged_scan *scan);
/* Goes on behind the damaged page at which the scan stands. `passed` may be NULL. */
enum paged_error paged_scan_pass_damage(paged_scan *scan, struct paged_passed *passed);
void paged_scan_close(paged_scan *scan);

/* The rest is of version 2 alone: in version 1 it answers PAGED_UNSUPPORTED.
 *
 * Records are appended one after another by one request; the place of each goes to `places`, unless that is NULL.
 * With .._sync all of them are durable at PAGED_OK. If one is refused, the first `taken` of them were appended. */
enum paged_error paged_log_append_records(paged_log *log, const struct paged_bytes *records, size_t count,
                                          struct paged_place *places);
enum paged_error paged_log_append_records_sync(paged_log *log, const struct paged_bytes *records, size_t count,
                                               struct paged_place *places);
/* Commits, and answers how many records the log has. */
enum paged_error paged_log_sync_size(paged_log *log, uint64_t *records);
enum paged_error paged_log_flush(paged_log *log);

/* The next four are of programs from version 0.12 on (where, next_many), or 0.13 (nth, pass_damage); else they answer
 * PAGED_UNSUPPORTED.
 *
 * Where the log begins and ends, and what its closed segments from one to before another have: 0 and UINT64_MAX ask
 * for all. */
enum paged_error paged_log_where(paged_log *log, uint64_t from, uint64_t to, struct paged_where *where);
/* Reads the next records at *place or after it, and moves *place behind the last: as many as fit `most` bytes, if each
 * counts 20 bytes more than it has, and at least one. At the end of the log it answers PAGED_PAST_END. */
enum paged_error paged_log_next_many(paged_log *log, struct paged_place *place, uint64_t most,
                                     const struct paged_record **records, size_t *count);
/* Where record `number` of a segment stands; the first is 0. */
enum paged_error paged_log_nth(paged_log *log, uint64_t segment, uint64_t number, struct paged_place *place);
/* After PAGED_DAMAGED: where the first record behind the page of a place stands, and what is passed. */
enum paged_error paged_log_pass_damage(paged_log *log, struct paged_place place, struct paged_passed *passed);

#ifdef __cplusplus
}
#endif

#endif
