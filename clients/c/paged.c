/* The client of `pagedd`. paged.h says what each call does, and docs/PROTOCOL.md what the
 * bytes mean. */

/* The POSIX form of strerror_r is wanted, whatever the compiler's command line asks for. */
#undef _GNU_SOURCE
#undef _POSIX_C_SOURCE
#define _POSIX_C_SOURCE 200809L

#include "paged.h"

#include <errno.h>
#include <fcntl.h>
#include <inttypes.h>
#include <poll.h>
#include <signal.h>
#include <spawn.h>
#include <stdarg.h>
#include <stdio.h>
#include <stdlib.h>
#include <string.h>
#include <sys/socket.h>
#include <sys/time.h>
#include <sys/types.h>
#include <sys/wait.h>
#include <time.h>
#include <unistd.h>

extern char **environ;

#ifndef MSG_NOSIGNAL
#define MSG_NOSIGNAL 0 /* where it is missing, SO_NOSIGPIPE is set on the socket */
#endif
#ifdef __GNUC__
#define PRINTS(text, first) __attribute__((format(printf, text, first)))
#else
#define PRINTS(text, first)
#endif

enum {
    APPEND = 1,
    SYNC = 2,
    START_SYNC = 3,
    WAIT_SYNC = 4,
    SIZE = 5,
    READ = 6,
    READ_UP_TO = 7,
    BEGIN = 8,
    TRUNCATE = 9,
    SNAPSHOT = 10,
    SNAP = 11,
    REPLAY = 12,
    ENSURE = 13,
    TAKE = 14,
    SEEK = 15,
    CLOSE = 16,
    APPEND_RECORDS = 17,
    APPEND_RECORDS_SYNC = 18,
    APPEND_RECORDS_START = 19,
    READ_RANGES = 20,
    SYNC_SIZE = 21,
    LOOK = 22,
    DROP_SNAPSHOT = 23,
    DROP_REPLAY = 24,
    FLUSH = 25,
    COUNT_OPEN = 26
};
/* Kinds that a log has under other numbers or alone. */
enum { NEXT = 7, DROP_BEFORE = 27, WHERE = 28, NEXT_MANY = 29, NTH = 30, PASS_DAMAGE = 31 };

enum {
    BUFFER = 65536,
    /* The fields of a refusal before its words, and the most bytes of these. */
    REFUSAL = 17,
    REFUSAL_WORDS = 255,
    /* The fields of the hello before its texts, and more than all of it may have. */
    HELLO = 66,
    MOST_HELLO = 1 << 20,
    MOST_RECORD = 65535,
    /* How many bytes a frame has beside its record, and how many an answer to next_many has for each record. */
    FRAME = 7,
    ENTRY = 20,
    MOST_MANY = 16777216,
    DEFAULT_MANY = 1 << 20,
    /* So many requests on the way fit any socket's buffer, so that writing them never waits for the program. */
    WINDOW = 128,
    /* How long a program that is to end is waited for before it is killed, in milliseconds. */
    PATIENCE = 10000
};
/* The greatest length of a frame without its kind or status. */
static const uint64_t MOST = 4294967294u;

struct bytes {
    unsigned char *data;
    size_t len, room;
};

/* Records, and the bytes that they point to. */
struct store {
    struct bytes payload;
    struct paged_record *records;
    size_t count, room;
};

struct session {
    pid_t process;
    int to, from, errors; /* the ends of the program's streams; -1 if closed */
    int is_log;
    int is_over;   /* no request can be made */
    int has_ended; /* the process was waited for */
    int exit_status, signal;
    int sync_failed; /* so that its file is to be replaced, whatever fails later */
    uint64_t most_payload, most_fields;
    size_t staged_len, ahead_at, ahead_end;
    uint64_t received, answer_from; /* bytes of its output, and where in it the last answer begins */
    struct store store;
    struct paged_closed *closed;
    struct bytes texts;
    struct paged_hello hello;
    struct paged_failure failure;
    size_t said_len;
    char said[PAGED_SAID];
    unsigned char staged[BUFFER], ahead[BUFFER];
};

struct paged_blob {
    struct session session;
};

struct paged_log {
    struct session session;
};

struct paged_scan {
    struct session *session;
    struct paged_place place; /* behind the last record that was answered */
    struct paged_place asked; /* behind the last one that was read */
    uint64_t most;
    struct store store;
    size_t at;
};

/* ---- Words ------------------------------------------------------------------------------------------------- */

struct word {
    enum paged_error error;
    const char *name, *words;
};

#define WORD(error, words) \
    { error, #error, words }
static const struct word WORDS[] = {
    WORD(PAGED_OK, "it was done"),
    WORD(PAGED_READ_FAILED, "a read of the file failed"),
    WORD(PAGED_WRITE_FAILED, "a write of the file failed"),
    WORD(PAGED_RESIZE_FAILED, "a change of the file's size failed"),
    WORD(PAGED_SYNC_FAILED, "a sync of the file failed"),
    WORD(PAGED_INVALID_CHECKSUM, "a page that must be full isn't: its checksum doesn't fit"),
    WORD(PAGED_PAST_END, "an offset, a range or a place passes the end"),
    WORD(PAGED_OFFSET_OVERFLOW, "an offset or a length passes the greatest number"),
    WORD(PAGED_OUT_OF_MEMORY, "the program was refused memory"),
    WORD(PAGED_IDS_EXHAUSTED, "the cache has no id left"),
    WORD(PAGED_NO_FILE, "it can't be done without the file"),
    WORD(PAGED_CLOSED, "the writer is gone, or a failure closed the log"),
    WORD(PAGED_RECOVERY_ENDED, "the recovery has ended, and a truncate needs it"),
    WORD(PAGED_UNORDERED_RANGES, "ranges overlap or aren't in order"),
    WORD(PAGED_UNKNOWN_NUMBER, "there is no started sync of this name, or no snapshot or replay of this number"),
    WORD(PAGED_STILL_RECOVERING, "the recovery hasn't ended, and a snapshot needs that"),
    WORD(PAGED_READ_ONLY, "it is served for reading alone, and this would change it"),
    WORD(PAGED_WRONG_FIELDS, "a record is too long, the fields aren't those of records or ranges, or the answer"
                             " would be too long"),
    WORD(PAGED_NO_VERSION, "the program knows none of the versions that were offered"),
    WORD(PAGED_CUT_REQUEST, "the input ended inside the request"),
    WORD(PAGED_EMPTY_REQUEST, "the length of the request is 0"),
    WORD(PAGED_UNKNOWN_KIND, "the program has no such kind of request"),
    WORD(PAGED_WRONG_LENGTH, "the length is wrong for the kind of request"),
    WORD(PAGED_ANSWER_TOO_LONG, "more bytes are asked for than an answer can hold"),
    WORD(PAGED_EMPTY_BUFFER, "a replay has a buffer of size 0"),
    WORD(PAGED_NO_SEGMENT, "there is no such segment: it was dropped, or isn't there yet"),
    WORD(PAGED_DAMAGED, "a closed segment doesn't hold what it held when it was closed"),
    WORD(PAGED_SYSTEM_REFUSED, "the system refused a file or the folder, or the file of a closed segment is missing"),
    WORD(PAGED_UNLISTED, "the file of the next segment is there already and has bytes"),
    WORD(PAGED_NUMBERS_EXHAUSTED, "no number is left for a segment"),
    WORD(PAGED_WRONG_MANIFEST, "the manifest doesn't fit"),
    WORD(PAGED_NO_FRAME, "no record begins at this offset of a closed segment"),
    WORD(PAGED_UNMARKED, "the segment has no marks, since a version before 0.13 closed it"),
    WORD(PAGED_UNKNOWN_STATUS, "the program refused with a status that this client doesn't know"),
    WORD(PAGED_NOT_STARTED,
         "the program can't be started: it is found by options.program, by the variable PAGEDD, or in PATH"),
    WORD(PAGED_NOT_OPENED, "the program couldn't open it"),
    WORD(PAGED_LOCKED, "another process has it open"),
    WORD(PAGED_NOT_WHOLE, "it isn't whole, and nothing was changed"),
    WORD(PAGED_ENDED, "the program ended before it answered"),
    WORD(PAGED_BAD_ANSWER, "what came is no answer by the protocol"),
    WORD(PAGED_SESSION_OVER, "an earlier call lost the program"),
    WORD(PAGED_TOO_LONG, "the request or its answer would be too long"),
    WORD(PAGED_WRONG_ARGUMENT, "an argument can't be meant"),
    WORD(PAGED_UNSUPPORTED, "this version of the protocol, or this program, has no such request"),
    WORD(PAGED_NO_MEMORY, "this process has no memory for it"),
};

static const struct word *word_of(int error) {
    for (size_t i = 0; i < sizeof WORDS / sizeof *WORDS; i++)
        if ((int)WORDS[i].error == error)
            return &WORDS[i];
    return NULL;
}

const char *paged_error_name(enum paged_error error) {
    const struct word *word = word_of((int)error);
    return word ? word->name : "no error of this client";
}

const char *paged_error_words(enum paged_error error) {
    const struct word *word = word_of((int)error);
    return word ? word->words : "no error of this client";
}

const char *paged_next_words(enum paged_next next) {
    switch (next) {
    case PAGED_ASK_ELSE:
        return "ask for something else";
    case PAGED_ASK_AGAIN:
        return "ask again";
    case PAGED_OPEN_ANEW:
        return "open anew, and read what was recovered";
    case PAGED_REPLACE_FILE:
        return "replace the file by `pagedd rewrite`, and then open anew";
    case PAGED_MEND_FIRST:
        return "mend the cause, and then open again";
    case PAGED_NEXT_UNKNOWN:
        break;
    }
    return "the answer doesn't say";
}

/* A line that grows in memory of the caller, cut to its room. */
struct line {
    char *to;
    size_t room, len;
};

PRINTS(2, 3)
static void print(struct line *line, const char *format, ...) {
    va_list values;
    size_t left = line->len < line->room ? line->room - line->len : 0;
    va_start(values, format);
    int count = vsnprintf(left ? line->to + line->len : NULL, left, format, values);
    va_end(values);
    line->len += count > 0 ? (size_t)count : 0;
}

size_t paged_describe(const struct paged_failure *failure, char *to, size_t room) {
    struct line line = {to, room, 0};
    print(&line, "%s: %s", paged_error_name(failure->error), paged_error_words(failure->error));
    if (failure->status >= 0)
        print(&line, "; status %d", failure->status);
    if (failure->words[0])
        print(&line, "; %s", failure->words);
    if (failure->system_error)
        print(&line, "; errno %" PRIu64, failure->system_error);
    if (failure->taken)
        print(&line, "; taken: %" PRIu64, failure->taken);
    if (failure->exit_status >= 0)
        print(&line, "; it ended with exit status %d", failure->exit_status);
    if (failure->signal)
        print(&line, "; signal %d ended it", failure->signal);
    if (failure->said[0]) {
        size_t len = strlen(failure->said);
        while (len > 0 && failure->said[len - 1] == '\n')
            len--;
        print(&line, "; it said: ");
        for (size_t i = 0; i < len; i++)
            print(&line, "%c", failure->said[i] == '\n' ? '|' : failure->said[i]);
    }
    if (failure->error != PAGED_OK)
        print(&line, "; next: %s", paged_next_words(failure->next));
    return line.len;
}

/* ---- Failures ---------------------------------------------------------------------------------------------- */

/* Keeps the last bytes that the program wrote to its standard error. */
static void keep_said(struct session *session, const char *data, size_t len) {
    size_t room = sizeof session->said - 1;
    if (len > room) {
        data += len - room;
        len = room;
    }
    if (session->said_len + len > room) {
        size_t gone = session->said_len + len - room;
        memmove(session->said, session->said + gone, session->said_len - gone);
        session->said_len -= gone;
    }
    memcpy(session->said + session->said_len, data, len);
    session->said_len += len;
    session->said[session->said_len] = 0;
}

static void close_end(int *end) {
    if (*end >= 0)
        close(*end);
    *end = -1;
}

/* Takes what the program has written to its standard error, without waiting. */
static void read_errors(struct session *session) {
    char data[1024];
    while (session->errors >= 0) {
        ssize_t count = read(session->errors, data, sizeof data);
        if (count > 0) {
            for (ssize_t i = 0; i < count; i++)
                data[i] = data[i] == 0 ? '?' : data[i];
            keep_said(session, data, (size_t)count);
        } else if (count < 0 && errno == EINTR) {
            continue;
        } else if (count < 0 && (errno == EAGAIN || errno == EWOULDBLOCK)) {
            return;
        } else {
            close_end(&session->errors);
        }
    }
}

/* Notes a failure, without words. */
static struct paged_failure *note(struct session *session, enum paged_error error, enum paged_next next) {
    struct paged_failure *failure = &session->failure;
    read_errors(session);
    memset(failure, 0, sizeof *failure);
    failure->error = error;
    failure->status = -1;
    failure->next = session->sync_failed && next == PAGED_OPEN_ANEW ? PAGED_REPLACE_FILE : next;
    failure->exit_status = session->has_ended ? session->exit_status : -1;
    failure->signal = session->has_ended ? session->signal : 0;
    memcpy(failure->said, session->said, session->said_len + 1);
    return failure;
}

PRINTS(4, 5)
static enum paged_error fail(struct session *session, enum paged_error error, enum paged_next next, const char *format,
                             ...) {
    struct paged_failure *failure = note(session, error, next);
    va_list values;
    va_start(values, format);
    vsnprintf(failure->words, sizeof failure->words, format, values);
    va_end(values);
    return error;
}

/* Notes a failure of the system. */
static enum paged_error fail_system(struct session *session, enum paged_error error, enum paged_next next, int number,
                                    const char *what) {
    char words[128];
    if (strerror_r(number, words, sizeof words) != 0)
        snprintf(words, sizeof words, "error %d", number);
    fail(session, error, next, "%s: %s", what, words);
    session->failure.system_error = (uint64_t)number;
    return error;
}

static enum paged_error no_memory(struct session *session) {
    return fail(session, PAGED_NO_MEMORY, PAGED_ASK_AGAIN, "malloc answered NULL");
}

PRINTS(2, 3)
static enum paged_error bad_answer(struct session *session, const char *format, ...) {
    struct paged_failure *failure = note(session, PAGED_BAD_ANSWER, PAGED_OPEN_ANEW);
    va_list values;
    va_start(values, format);
    vsnprintf(failure->words, sizeof failure->words, format, values);
    va_end(values);
    session->is_over = 1;
    return PAGED_BAD_ANSWER;
}

/* ---- The process ------------------------------------------------------------------------------------------- */

static int64_t milliseconds(void) {
    struct timespec now;
    clock_gettime(CLOCK_MONOTONIC, &now);
    return (int64_t)now.tv_sec * 1000 + now.tv_nsec / 1000000;
}

/* Whether the process has ended; it is waited for then. */
static int is_gone(struct session *session, int options) {
    int status;
    pid_t found;
    if (session->has_ended)
        return 1;
    do
        found = waitpid(session->process, &status, options);
    while (found < 0 && errno == EINTR);
    if (found == 0)
        return 0;
    session->has_ended = 1;
    /* (an error: the caller ignores SIGCHLD, or has waited for the process by itself) */
    if (found == session->process && WIFEXITED(status))
        session->exit_status = WEXITSTATUS(status);
    else if (found == session->process && WIFSIGNALED(status))
        session->signal = WTERMSIG(status);
    return 1;
}

/* Waits a moment for the end of the program, and takes what it writes meanwhile. */
static void wait_a_moment(struct session *session) {
    unsigned char data[1024];
    struct pollfd ends[2] = {{session->errors, POLLIN, 0}, {session->from, POLLIN, 0}};
    if (session->errors < 0 && session->from < 0) {
        struct timespec moment = {0, 1000000};
        nanosleep(&moment, NULL);
        return;
    }
    if (poll(ends, 2, 20) <= 0)
        return;
    if (ends[0].revents)
        read_errors(session);
    if (ends[1].revents) {
        ssize_t count = read(session->from, data, sizeof data);
        if (count == 0 || (count < 0 && errno != EINTR && errno != EAGAIN && errno != EWOULDBLOCK))
            close_end(&session->from);
    }
}

/* Ends the program by the end of its input, or kills it if it doesn't end, and waits for it. */
static void settle(struct session *session) {
    int64_t begin = milliseconds();
    close_end(&session->to);
    while (session->process > 0 && !is_gone(session, WNOHANG)) {
        if (milliseconds() - begin > PATIENCE) {
            kill(session->process, SIGKILL);
            is_gone(session, 0);
        } else {
            wait_a_moment(session);
        }
    }
    read_errors(session);
    close_end(&session->errors);
    close_end(&session->from);
    session->is_over = 1;
}

/* The program ended where an answer should be. */
static enum paged_error ended(struct session *session) {
    settle(session);
    return fail(session, PAGED_ENDED, PAGED_OPEN_ANEW, "its output ended %s",
                session->received > session->answer_from ? "in the midst of an answer" : "in place of an answer");
}

/* The two ends of a stream: ours, and the program's. Sockets, since a write to one can be kept from raising SIGPIPE
 * without a change to the caller's signals. Both are above the standard streams, and no other program gets them. */
static int make_stream(int ends[2]) {
    int made[2];
#ifdef SOCK_CLOEXEC
    int type = SOCK_STREAM | SOCK_CLOEXEC;
#else
    int type = SOCK_STREAM;
#endif
    ends[0] = ends[1] = -1;
    if (socketpair(AF_UNIX, type, 0, made) != 0)
        return errno;
    int error = 0;
    for (int i = 0; i < 2; i++) {
        ends[i] = fcntl(made[i], F_DUPFD_CLOEXEC, 3);
        error = ends[i] < 0 && !error ? errno : error;
        close(made[i]);
    }
    if (!error && fcntl(ends[0], F_SETFL, O_NONBLOCK) != 0)
        error = errno;
#ifdef SO_NOSIGPIPE
    int yes = 1;
    if (!error && setsockopt(ends[0], SOL_SOCKET, SO_NOSIGPIPE, &yes, sizeof yes) != 0)
        error = errno;
#endif
    return error;
}

/* Lets reads wait a moment by themselves, so that an answer that comes soon takes one call of the system. */
static void let_reads_wait(int end) {
    struct timeval moment = {0, 100000};
    int flags = fcntl(end, F_GETFL);
    if (flags >= 0 && setsockopt(end, SOL_SOCKET, SO_RCVTIMEO, &moment, sizeof moment) == 0)
        fcntl(end, F_SETFL, flags & ~O_NONBLOCK);
}

/* How the program begins: with the signals that it would have from a shell. */
static int spawn(struct session *session, char *const arguments[], const int ends[3],
                 const struct paged_options *options) {
    posix_spawn_file_actions_t actions;
    posix_spawnattr_t attributes;
    sigset_t signals;
    short flags = POSIX_SPAWN_SETSIGDEF | POSIX_SPAWN_SETSIGMASK;
    int error = posix_spawn_file_actions_init(&actions);
    if (error)
        return error;
    error = posix_spawnattr_init(&attributes);
    if (error) {
        posix_spawn_file_actions_destroy(&actions);
        return error;
    }
    for (int i = 0; i < 3 && !error; i++)
        if (ends[i] >= 0)
            error = posix_spawn_file_actions_adddup2(&actions, ends[i], i);
    sigemptyset(&signals);
    if (!error)
        error = posix_spawnattr_setsigmask(&attributes, &signals);
    sigaddset(&signals, SIGPIPE);
    if (!error)
        error = posix_spawnattr_setsigdefault(&attributes, &signals);
    if (!error && options->own_process_group) {
        flags |= POSIX_SPAWN_SETPGROUP;
        error = posix_spawnattr_setpgroup(&attributes, 0);
    }
    if (!error)
        error = posix_spawnattr_setflags(&attributes, flags);
    if (!error)
        error = posix_spawnp(&session->process, arguments[0], &actions, &attributes, arguments, environ);
    posix_spawn_file_actions_destroy(&actions);
    posix_spawnattr_destroy(&attributes);
    return error;
}

static void forget(struct session *session) {
    session->process = 0;
    session->to = session->from = session->errors = -1;
    session->is_over = session->has_ended = session->signal = session->sync_failed = 0;
    session->exit_status = -1;
    session->staged_len = session->ahead_at = session->ahead_end = session->said_len = 0;
    session->received = session->answer_from = 0;
    session->said[0] = 0;
}

static enum paged_error start(struct session *session, char *const arguments[], const struct paged_options *options) {
    int to[2] = {-1, -1}, from[2] = {-1, -1}, errors[2] = {-1, -1};
    forget(session);
    int error = make_stream(to);
    if (!error)
        error = make_stream(from);
    if (!error && !options->share_standard_error)
        error = make_stream(errors);
    if (!error)
        let_reads_wait(from[0]);
    session->to = to[0];
    session->from = from[0];
    session->errors = errors[0];
    const int ends[3] = {to[1], from[1], errors[1]};
    if (!error)
        error = spawn(session, arguments, ends, options);
    close_end(&to[1]);
    close_end(&from[1]);
    close_end(&errors[1]);
    if (error) {
        session->process = 0;
        settle(session);
        fail_system(session, PAGED_NOT_STARTED, PAGED_MEND_FIRST, error, arguments[0]);
    }
    return error ? PAGED_NOT_STARTED : PAGED_OK;
}

/* ---- Bytes ------------------------------------------------------------------------------------------------- */

static void put_number(unsigned char *at, uint64_t number, int bytes) {
    for (int i = 0; i < bytes; i++)
        at[i] = (unsigned char)(number >> 8 * i);
}

static uint64_t get_number(const unsigned char *at, int bytes) {
    uint64_t number = 0;
    for (int i = bytes - 1; i >= 0; i--)
        number = number << 8 | at[i];
    return number;
}

/* Reads what has come behind what is held. Whether the output hasn't ended. */
static int read_ahead(struct session *session) {
    memmove(session->ahead, session->ahead + session->ahead_at, session->ahead_end - session->ahead_at);
    session->ahead_end -= session->ahead_at;
    session->ahead_at = 0;
    ssize_t count =
        read(session->from, session->ahead + session->ahead_end, sizeof session->ahead - session->ahead_end);
    if (count > 0)
        session->ahead_end += (size_t)count;
    return count > 0 || (count < 0 && (errno == EINTR || errno == EAGAIN || errno == EWOULDBLOCK));
}

/* Waits until bytes can be sent, or have come. Meanwhile what the program says is taken, so that it never waits for
 * that, and an answer that comes too early is held. */
static void wait_for(struct session *session, int sends) {
    int holds = session->ahead_end - session->ahead_at < sizeof session->ahead;
    struct pollfd ends[3] = {{session->errors, POLLIN, 0},
                             {sends && !holds ? -1 : session->from, POLLIN, 0},
                             {sends ? session->to : -1, POLLOUT, 0}};
    while (poll(ends, 3, -1) > 0) {
        if (ends[0].revents)
            read_errors(session);
        if (sends && ends[1].revents && !read_ahead(session))
            close_end(&session->from);
        if (ends[1].revents || ends[2].revents)
            return;
        ends[0].fd = session->errors;
    }
}

/* Sends bytes. If the program takes no more, its answer or its end says why, which is what is received next. */
static void send_bytes(struct session *session, const unsigned char *data, size_t len) {
    while (len > 0 && session->to >= 0) {
        ssize_t count = send(session->to, data, len, MSG_NOSIGNAL);
        if (count >= 0) {
            data += count;
            len -= (size_t)count;
        } else if (errno == EAGAIN || errno == EWOULDBLOCK) {
            wait_for(session, 1);
            /* (nothing is asked for that answers so much before it was sent) */
            if (session->ahead_end - session->ahead_at == sizeof session->ahead)
                close_end(&session->to);
        } else if (errno != EINTR) {
            close_end(&session->to);
        }
    }
}

static void send_staged(struct session *session) {
    send_bytes(session, session->staged, session->staged_len);
    session->staged_len = 0;
}

static void stage(struct session *session, const void *data, size_t len) {
    if (len > sizeof session->staged - session->staged_len)
        send_staged(session);
    if (len > sizeof session->staged) {
        send_bytes(session, data, len);
    } else if (len > 0) {
        memcpy(session->staged + session->staged_len, data, len);
        session->staged_len += len;
    }
}

static void stage_number(struct session *session, uint64_t number, int bytes) {
    unsigned char at[8];
    put_number(at, number, bytes);
    stage(session, at, (size_t)bytes);
}

/* Receives bytes. Whether all of them came. */
static int receive(struct session *session, void *to, size_t len) {
    unsigned char *at = to;
    while (len > 0) {
        size_t held = session->ahead_end - session->ahead_at;
        if (held > 0) {
            held = held < len ? held : len;
            memcpy(at, session->ahead + session->ahead_at, held);
            session->ahead_at += held;
            at += held;
            len -= held;
            session->received += held;
            continue;
        }
        if (session->from < 0)
            return 0;
        if (len < sizeof session->ahead) {
            if (!read_ahead(session))
                close_end(&session->from);
            else if (session->ahead_end == session->ahead_at)
                wait_for(session, 0);
            continue;
        }
        ssize_t count = read(session->from, at, len);
        if (count > 0) {
            at += count;
            len -= (size_t)count;
            session->received += (uint64_t)count;
        } else if (count < 0 && (errno == EAGAIN || errno == EWOULDBLOCK)) {
            wait_for(session, 0);
        } else if (count == 0 || errno != EINTR) {
            close_end(&session->from);
        }
    }
    return 1;
}

/* Receives bytes that nobody wants. */
static int receive_none(struct session *session, uint64_t len) {
    unsigned char data[4096];
    while (len > 0) {
        size_t count = len < sizeof data ? (size_t)len : sizeof data;
        if (!receive(session, data, count))
            return 0;
        len -= count;
    }
    return 1;
}

/* Room for so many bytes in all. Whether there is memory. */
static int grow(struct bytes *bytes, size_t room) {
    if (room <= bytes->room)
        return 1;
    unsigned char *data = realloc(bytes->data, room);
    if (data == NULL)
        return 0;
    bytes->data = data;
    bytes->room = room;
    return 1;
}

/* Receives bytes behind those that are there. Memory is asked for as they come, so a length that is wrong takes none.
 * Without memory they are passed over, and the session goes on. */
static enum paged_error receive_to(struct session *session, struct bytes *to, uint64_t len) {
    while (len > 0) {
        size_t piece = len < DEFAULT_MANY ? (size_t)len : DEFAULT_MANY;
        size_t room = to->len + piece <= to->room ? to->room : 2 * to->room + piece;
        if (to->room > SIZE_MAX / 4 || !grow(to, room)) {
            if (!receive_none(session, len))
                return ended(session);
            return no_memory(session);
        }
        if (!receive(session, to->data + to->len, piece))
            return ended(session);
        to->len += piece;
        len -= piece;
    }
    return PAGED_OK;
}

/* ---- Requests ---------------------------------------------------------------------------------------------- */

static int has_kind(const struct session *session, int kind) {
    if (session->hello.version == 1)
        return kind < APPEND_RECORDS || kind == DROP_BEFORE;
    if (!session->is_log || kind < WHERE)
        return 1;
    return session->hello.kind_count > 0 && memchr(session->hello.kinds, kind, session->hello.kind_count) != NULL;
}

/* Begins a request of a kind, whose fields have so many bytes. */
static enum paged_error begin(struct session *session, int kind, uint64_t len) {
    if (session->is_over)
        return PAGED_SESSION_OVER;
    if (!has_kind(session, kind))
        return fail(session, PAGED_UNSUPPORTED, PAGED_ASK_ELSE, "a request of kind %d, in version %d", kind,
                    session->hello.version);
    if (len > session->most_fields)
        return fail(session, PAGED_TOO_LONG, PAGED_ASK_ELSE, "a request has at most %" PRIu64 " bytes, not %" PRIu64,
                    session->most_fields, len);
    stage_number(session, len + 1, 4);
    stage_number(session, (uint64_t)kind, 1);
    return PAGED_OK;
}

/* Takes a refusal. In version 1, and before a version is chosen, it is the status alone. */
static enum paged_error refused(struct session *session, int status, uint64_t len) {
    unsigned char fields[REFUSAL + REFUSAL_WORDS] = {0};
    int is_full = session->hello.version == 2;
    if (is_full ? len < REFUSAL || len > sizeof fields : len != 0)
        return bad_answer(session, "a refusal with status %d has %" PRIu64 " bytes more", status, len);
    if (!receive(session, fields, (size_t)len))
        return ended(session);
    enum paged_error error =
        status < PAGED_UNKNOWN_STATUS && word_of(status) ? (enum paged_error)status : PAGED_UNKNOWN_STATUS;
    enum paged_next next = is_full && fields[0] < 4 ? (enum paged_next)fields[0] : PAGED_NEXT_UNKNOWN;
    if (status == PAGED_SYNC_FAILED || next == PAGED_REPLACE_FILE)
        session->sync_failed = 1;
    struct paged_failure *failure = note(session, error, next);
    failure->status = status;
    if (is_full) {
        failure->taken = get_number(fields + 1, 8);
        failure->system_error = get_number(fields + 9, 8);
        memcpy(failure->words, fields + REFUSAL, (size_t)len - REFUSAL);
    }
    return error;
}

/* Takes the head of an answer: its status, and how many bytes follow. */
static enum paged_error receive_head(struct session *session, int *status, uint64_t *len) {
    unsigned char head[5];
    session->answer_from = session->received;
    if (!receive(session, head, 4))
        return ended(session);
    *len = get_number(head, 4);
    if (*len == 0)
        return bad_answer(session, "an answer has no status");
    if (!receive(session, head + 4, 1))
        return ended(session);
    *len -= 1;
    *status = head[4];
    return PAGED_OK;
}

/* Takes the head of an answer, and all of a refusal. *len is what follows. */
static enum paged_error answer(struct session *session, uint64_t *len) {
    int status = 0;
    enum paged_error error = receive_head(session, &status, len);
    if (error)
        return error;
    return status == 0 ? PAGED_OK : refused(session, status, *len);
}

/* Asks with numbers and then bytes, and takes the head of the answer. */
static enum paged_error ask(struct session *session, int kind, const uint64_t *numbers, int count, const void *data,
                            size_t data_len, uint64_t *len) {
    enum paged_error error = begin(session, kind, 8 * (uint64_t)count + data_len);
    if (error)
        return error;
    for (int i = 0; i < count; i++)
        stage_number(session, numbers[i], 8);
    stage(session, data, data_len);
    send_staged(session);
    return answer(session, len);
}

static enum paged_error wrong_len(struct session *session, int kind, uint64_t len) {
    return bad_answer(session, "the answer to a request of kind %d has %" PRIu64 " bytes", kind, len);
}

static enum paged_error receive_numbers(struct session *session, uint64_t *to, size_t count) {
    unsigned char number[8];
    for (size_t i = 0; i < count; i++) {
        if (!receive(session, number, 8))
            return ended(session);
        if (to != NULL)
            to[i] = get_number(number, 8);
    }
    return PAGED_OK;
}

/* Asks what is answered with numbers alone. `to` has room for four, or is NULL. */
static enum paged_error ask_numbers(struct session *session, int kind, const uint64_t *numbers, int count, uint64_t *to,
                                    size_t to_count) {
    uint64_t len = 0;
    enum paged_error error = ask(session, kind, numbers, count, NULL, 0, &len);
    if (error)
        return error;
    if (len != 8 * to_count)
        return wrong_len(session, kind, len);
    return receive_numbers(session, to, to_count);
}

static enum paged_error ask_number(struct session *session, int kind, uint64_t *to) {
    uint64_t number = 0;
    enum paged_error error = ask_numbers(session, kind, NULL, 0, &number, 1);
    if (!error && to != NULL)
        *to = number;
    return error;
}

static enum paged_error ask_nothing(struct session *session, int kind, const uint64_t *numbers, int count) {
    return ask_numbers(session, kind, numbers, count, NULL, 0);
}

/* Asks for bytes: exactly `len`, or, if `count` isn't NULL, at most so many. The length is the last number. */
static enum paged_error ask_bytes(struct session *session, int kind, const uint64_t *numbers, int number_count,
                                  void *to, size_t len, size_t *count) {
    uint64_t found;
    if (!session->is_over && len > session->most_payload)
        return fail(session, PAGED_TOO_LONG, PAGED_ASK_ELSE, "an answer has at most %" PRIu64 " bytes",
                    session->most_payload);
    enum paged_error error = ask(session, kind, numbers, number_count, NULL, 0, &found);
    if (error)
        return error;
    if (count != NULL ? found > len : found != len)
        return wrong_len(session, kind, found);
    if (!receive(session, to, (size_t)found))
        return ended(session);
    if (count != NULL)
        *count = (size_t)found;
    return PAGED_OK;
}

/* Sends the fields of records. */
static enum paged_error send_records(struct session *session, int kind, const struct paged_bytes *records,
                                     size_t count) {
    uint64_t total = 4;
    if (session->is_over)
        return PAGED_SESSION_OVER;
    if (!has_kind(session, kind))
        return begin(session, kind, 0);
    if (count > session->hello.most_records)
        return fail(session, PAGED_TOO_LONG, PAGED_ASK_ELSE, "a request has at most %" PRIu64 " records",
                    session->hello.most_records);
    for (size_t i = 0; i < count; i++) {
        if (records[i].len > MOST || (total += 4 + (uint64_t)records[i].len) > session->most_fields)
            return fail(session, PAGED_TOO_LONG, PAGED_ASK_ELSE, "a request has at most %" PRIu64 " bytes",
                        session->most_fields);
    }
    enum paged_error error = begin(session, kind, total);
    if (error)
        return error;
    stage_number(session, count, 4);
    for (size_t i = 0; i < count; i++)
        stage_number(session, records[i].len, 4);
    for (size_t i = 0; i < count; i++)
        stage(session, records[i].data, records[i].len);
    send_staged(session);
    return PAGED_OK;
}

/* ---- Opening and closing ----------------------------------------------------------------------------------- */

/* The words of the command line, and the room for its numbers. */
struct arguments {
    char *words[24];
    int count;
    char numbers[5][24];
    int number_count;
};

static void add_word(struct arguments *arguments, const char *word) {
    union {
        const char *given;
        char *taken;
    } text = {word}; /* (what is spawned changes no word) */
    arguments->words[arguments->count++] = text.taken;
    arguments->words[arguments->count] = NULL;
}

static void add_number(struct arguments *arguments, const char *name, uint64_t number) {
    char *to = arguments->numbers[arguments->number_count++];
    snprintf(to, sizeof arguments->numbers[0], "%" PRIu64, number);
    add_word(arguments, name);
    add_word(arguments, to);
}

static const char *program_of(const struct paged_options *options) {
    const char *named = getenv("PAGEDD");
    if (options->program != NULL)
        return options->program;
    return named != NULL && named[0] ? named : "pagedd";
}

static void add_options(struct arguments *arguments, const struct paged_options *options, int is_log) {
    if (options->read_only)
        add_word(arguments, "--read-only");
    if (options->cut)
        add_word(arguments, "--cut");
    if (options->cut_limit != NULL)
        add_number(arguments, "--cut-limit", *options->cut_limit);
    if (options->page_size)
        add_number(arguments, "--page-size", options->page_size);
    if (options->buffer)
        add_number(arguments, "--buffer", options->buffer);
    if (options->cache)
        add_number(arguments, "--cache", options->cache);
    if (options->checksum != NULL) {
        add_word(arguments, "--checksum");
        add_word(arguments, options->checksum);
    }
    if (is_log && options->segment_size)
        add_number(arguments, "--segment-size", options->segment_size);
    if (is_log && options->digest != NULL) {
        add_word(arguments, "--digest");
        add_word(arguments, options->digest);
    }
}

/* What an open answers if the program ended before it was open. */
static enum paged_error not_opened(struct session *session) {
    enum paged_error error = PAGED_ENDED;
    enum paged_next next = PAGED_MEND_FIRST;
    const char *words = "";
    if (session->exit_status == 3)
        error = PAGED_NOT_WHOLE;
    else if (session->exit_status == 126 || session->exit_status == 127)
        error = PAGED_NOT_STARTED;
    else if (session->exit_status == 1)
        error = strstr(session->said, "another process has it open") ? PAGED_LOCKED : PAGED_NOT_OPENED;
    else
        next = PAGED_OPEN_ANEW;
    words = error == PAGED_ENDED ? "it ended while it opened" : words;
    return fail(session, error, next, "%s", words);
}

/* Takes the greeting. */
static enum paged_error greet(struct session *session) {
    unsigned char first;
    uint64_t len = 0;
    session->hello.version = 0;
    if (!receive(session, &first, 1))
        return ended(session);
    if (first != 1)
        return bad_answer(session, "it greets with the byte %d, and not 1: is it pagedd?", first);
    enum paged_error error = answer(session, &len);
    int status = session->failure.status;
    if (error && status >= 0) {
        /* The recovery failed, and the program ends: its line says why. */
        settle(session);
        note(session, error, session->sync_failed ? PAGED_REPLACE_FILE : PAGED_MEND_FIRST)->status = status;
    }
    if (error)
        return error;
    if (len != 8)
        return wrong_len(session, 0, len);
    return receive_numbers(session, &session->hello.size, 1);
}

/* Takes a text of the hello, which a 0 then ends in memory. */
static int take_text(struct bytes *texts, size_t *at, size_t *text, size_t *text_len) {
    if (texts->len - *at < 8)
        return 0;
    uint64_t len = get_number(texts->data + *at, 8);
    if (len > texts->len - *at - 8)
        return 0;
    /* Moved to the front of its length, so that there is room for the 0. */
    *text = *at;
    *text_len = (size_t)len;
    memmove(texts->data + *at, texts->data + *at + 8, (size_t)len);
    texts->data[*at + len] = 0;
    *at += 8 + (size_t)len;
    return 1;
}

static enum paged_error take_hello(struct session *session) {
    struct paged_hello *hello = &session->hello;
    unsigned char *at = session->texts.data;
    size_t next = HELLO, checksum, copy, kinds, len;
    if (session->texts.len < HELLO)
        return bad_answer(session, "the hello has %zu bytes", session->texts.len);
    hello->read_only = at[1] == 1;
    hello->size = get_number(at + 2, 8);
    hello->page_size = get_number(at + 10, 8);
    hello->most_payload = get_number(at + 18, 8);
    hello->most_fields = get_number(at + 26, 8);
    *(session->is_log ? &hello->most_record : &hello->most_ranges) = get_number(at + 34, 8);
    hello->most_records = get_number(at + 42, 8);
    hello->cut = get_number(at + 50, 8);
    hello->given_up = get_number(at + 58, 8);
    if (!take_text(&session->texts, &next, &checksum, &len) || !take_text(&session->texts, &next, &copy, &len))
        return bad_answer(session, "a text of the hello passes its end");
    hello->checksum = (char *)session->texts.data + checksum;
    hello->copy = (char *)session->texts.data + copy;
    if (session->is_log && next < session->texts.len) {
        if (!take_text(&session->texts, &next, &kinds, &hello->kind_count))
            return bad_answer(session, "the list of kinds passes the hello's end");
        hello->kinds = session->texts.data + kinds;
    }
    session->most_payload = hello->most_payload < MOST ? hello->most_payload : MOST;
    session->most_fields = hello->most_fields < MOST ? hello->most_fields : MOST;
    return PAGED_OK;
}

/* Agrees on a version. PAGED_NO_VERSION with no status: the program ended, as one of version 1 alone does. */
static enum paged_error agree(struct session *session, int version) {
    static const unsigned char one[] = {1}, two[] = {2, 1, 2}, both[] = {2, 2, 1, 2};
    int status = 0;
    uint64_t len = 0;
    session->most_payload = session->most_fields = MOST;
    if (version == 1) {
        stage(session, one, sizeof one);
        send_staged(session);
        session->hello.version = 1;
        return PAGED_OK;
    }
    stage(session, version == 2 ? two : both, version == 2 ? sizeof two : sizeof both);
    send_staged(session);
    enum paged_error error = receive_head(session, &status, &len);
    if (error == PAGED_ENDED && session->exit_status == 2 && session->received == session->answer_from)
        return fail(session, PAGED_NO_VERSION, PAGED_ASK_ELSE, "the program knows version 1 alone");
    if (error)
        return error;
    if (status == PAGED_NO_VERSION && len < 256) {
        fail(session, PAGED_NO_VERSION, PAGED_ASK_ELSE, "the program knows other versions");
        session->failure.status = status;
        session->is_over = 1;
        return PAGED_NO_VERSION;
    }
    if (len == 0 || len > MOST_HELLO || status != 0)
        return bad_answer(session, "the answer to the offer has status %d and %" PRIu64 " bytes", status, len);
    session->texts.len = 0;
    error = receive_to(session, &session->texts, len);
    if (error)
        return error;
    session->hello.version = session->texts.data[0];
    if (session->hello.version != 2 && (session->hello.version != 1 || version == 2))
        return bad_answer(session, "it chose version %d", session->hello.version);
    return session->hello.version == 1 ? PAGED_OK : take_hello(session);
}

static enum paged_error start_and_agree(struct session *session, const struct arguments *arguments,
                                        const struct paged_options *options) {
    enum paged_error error = start(session, arguments->words, options);
    if (!error)
        error = greet(session);
    if (!error)
        error = agree(session, options->version);
    if (error == PAGED_NO_VERSION && session->failure.status < 0 && options->version == 0) {
        /* A program of version 1 alone is to be started again, and met with the byte 1. */
        error = start(session, arguments->words, options);
        if (!error)
            error = greet(session);
        if (!error)
            error = agree(session, 1);
    }
    return error;
}

static void free_session(struct session *session) {
    free(session->store.payload.data);
    free(session->store.records);
    free(session->closed);
    free(session->texts.data);
    free(session);
}

/* Kills a program that can't be asked any more, and waits for it. */
static void kill_and_settle(struct session *session) {
    if (session->process > 0 && !is_gone(session, WNOHANG))
        kill(session->process, SIGKILL);
    settle(session);
}

static enum paged_error open_path(struct session *session, const char *path, const struct paged_options *options) {
    static const struct paged_options none;
    struct arguments arguments = {{NULL}, 0, {{0}}, 0};
    char *named = NULL;
    session->to = session->from = session->errors = session->exit_status = -1;
    if (options == NULL)
        options = &none;
    if (path == NULL || options->version < 0 || options->version > 2)
        return fail(session, PAGED_WRONG_ARGUMENT, PAGED_ASK_ELSE, "%s",
                    path ? "there are versions 1 and 2" : "path is NULL");
    if (path[0] == '-') {
        /* An option begins so, and a path need not. */
        size_t room = strlen(path) + 3;
        named = malloc(room);
        if (named == NULL)
            return no_memory(session);
        snprintf(named, room, "./%s", path);
        path = named;
    }
    add_word(&arguments, program_of(options));
    add_word(&arguments, session->is_log ? "serve-log" : "serve");
    add_options(&arguments, options, session->is_log);
    add_word(&arguments, path);
    enum paged_error error = start_and_agree(session, &arguments, options);
    free(named);
    if (error == PAGED_ENDED)
        error = not_opened(session);
    if (error)
        kill_and_settle(session);
    return error;
}

static struct session *open_session(int is_log, const char *path, const struct paged_options *options,
                                    struct paged_failure *failure, enum paged_error *error) {
    struct session *session = calloc(1, sizeof *session);
    if (session == NULL) {
        *error = PAGED_NO_MEMORY;
        if (failure != NULL) {
            memset(failure, 0, sizeof *failure);
            failure->error = PAGED_NO_MEMORY;
            failure->status = failure->exit_status = -1;
            failure->next = PAGED_ASK_AGAIN;
        }
        return NULL;
    }
    session->is_log = is_log;
    session->hello.checksum = session->hello.copy = "";
    session->failure.status = session->failure.exit_status = -1;
    *error = open_path(session, path, options);
    if (*error == PAGED_OK)
        return session;
    if (failure != NULL)
        *failure = session->failure;
    free_session(session);
    return NULL;
}

static enum paged_error close_session(struct session *session, struct paged_failure *failure) {
    enum paged_error error = PAGED_OK;
    if (session == NULL)
        return PAGED_OK;
    if (session->is_over) {
        kill_and_settle(session);
        error = session->failure.error;
    } else {
        stage_number(session, 1, 4);
        stage_number(session, CLOSE, 1);
        send_staged(session);
        settle(session);
        if (session->exit_status == 1)
            error = fail(session, PAGED_CLOSED, PAGED_OPEN_ANEW, "what was appended since the last sync may be lost");
        else if (session->exit_status > 0 || session->signal)
            error = fail(session, PAGED_ENDED, PAGED_OPEN_ANEW, "it was to end with exit status 0");
    }
    if (failure != NULL && error)
        *failure = session->failure;
    free_session(session);
    return error;
}

static const char *said_of(struct session *session) {
    read_errors(session);
    return session->said;
}

/* ---- A blob ------------------------------------------------------------------------------------------------ */

enum paged_error paged_blob_open(const char *path, const struct paged_options *options, paged_blob **blob,
                                 struct paged_failure *failure) {
    enum paged_error error;
    *blob = (paged_blob *)open_session(0, path, options, failure, &error);
    return error;
}

enum paged_error paged_blob_close(paged_blob *blob, struct paged_failure *failure) {
    return close_session(blob ? &blob->session : NULL, failure);
}

const struct paged_hello *paged_blob_hello(const paged_blob *blob) {
    return &blob->session.hello;
}

const struct paged_failure *paged_blob_failure(const paged_blob *blob) {
    return &blob->session.failure;
}

const char *paged_blob_said(paged_blob *blob) {
    return said_of(&blob->session);
}

long paged_blob_process(const paged_blob *blob) {
    return (long)blob->session.process;
}

enum paged_error paged_blob_append(paged_blob *blob, const void *data, size_t len, uint64_t *offset) {
    struct session *session = &blob->session;
    uint64_t answered, number = 0;
    enum paged_error error = ask(session, APPEND, NULL, 0, data, len, &answered);
    if (error)
        return error;
    if (answered != 8)
        return wrong_len(session, APPEND, answered);
    error = receive_numbers(session, &number, 1);
    if (!error && offset != NULL)
        *offset = number;
    return error;
}

enum paged_error paged_blob_sync(paged_blob *blob) {
    return ask_nothing(&blob->session, SYNC, NULL, 0);
}

/* Takes a started sync, whose first bytes of the payload were taken before. */
static enum paged_error take_started(struct session *session, int kind, uint64_t len, struct paged_started *started) {
    unsigned char fields[9] = {0};
    if (len != 1 && len != 9)
        return wrong_len(session, kind, len);
    if (!receive(session, fields, (size_t)len))
        return ended(session);
    if (fields[0] != (len == 9))
        return bad_answer(session, "a started sync begins with the byte %d", fields[0]);
    if (started != NULL) {
        started->pending = fields[0];
        started->name = get_number(fields + 1, 8);
    }
    return PAGED_OK;
}

enum paged_error paged_blob_start_sync(paged_blob *blob, struct paged_started *started) {
    uint64_t len = 0;
    enum paged_error error = ask(&blob->session, START_SYNC, NULL, 0, NULL, 0, &len);
    return error ? error : take_started(&blob->session, START_SYNC, len, started);
}

enum paged_error paged_blob_wait_sync(paged_blob *blob, uint64_t name) {
    return ask_nothing(&blob->session, WAIT_SYNC, &name, 1);
}

enum paged_error paged_blob_size(paged_blob *blob, uint64_t *size) {
    return ask_number(&blob->session, SIZE, size);
}

enum paged_error paged_blob_read(paged_blob *blob, uint64_t offset, void *to, size_t len) {
    const uint64_t numbers[] = {offset, len};
    return ask_bytes(&blob->session, READ, numbers, 2, to, len, NULL);
}

enum paged_error paged_blob_read_up_to(paged_blob *blob, uint64_t offset, void *to, size_t len, size_t *count) {
    const uint64_t numbers[] = {offset, len};
    return ask_bytes(&blob->session, READ_UP_TO, numbers, 2, to, len, count);
}

enum paged_error paged_blob_begin(paged_blob *blob) {
    return ask_nothing(&blob->session, BEGIN, NULL, 0);
}

enum paged_error paged_blob_truncate(paged_blob *blob, uint64_t size, uint64_t *left) {
    uint64_t number = 0;
    enum paged_error error = ask_numbers(&blob->session, TRUNCATE, &size, 1, &number, 1);
    if (!error && left != NULL)
        *left = number;
    return error;
}

enum paged_error paged_blob_snapshot(paged_blob *blob, uint64_t *snapshot) {
    return ask_number(&blob->session, SNAPSHOT, snapshot);
}

enum paged_error paged_blob_read_snapshot(paged_blob *blob, uint64_t snapshot, uint64_t offset, void *to, size_t len) {
    const uint64_t numbers[] = {snapshot, offset, len};
    return ask_bytes(&blob->session, SNAP, numbers, 3, to, len, NULL);
}

enum paged_error paged_blob_replay(paged_blob *blob, uint64_t buffer_size, uint64_t *replay) {
    uint64_t number = 0;
    /* The program would end at such a request. */
    if (buffer_size == 0 && !blob->session.is_over)
        return fail(&blob->session, PAGED_WRONG_ARGUMENT, PAGED_ASK_ELSE, "the buffer of a replay has at least a byte");
    enum paged_error error = ask_numbers(&blob->session, REPLAY, &buffer_size, 1, &number, 1);
    if (!error && replay != NULL)
        *replay = number;
    return error;
}

enum paged_error paged_blob_ensure(paged_blob *blob, uint64_t replay, uint64_t count, int *is_there) {
    struct session *session = &blob->session;
    const uint64_t numbers[] = {replay, count};
    unsigned char yes;
    uint64_t len = 0;
    enum paged_error error = ask(session, ENSURE, numbers, 2, NULL, 0, &len);
    if (error)
        return error;
    if (len != 1)
        return wrong_len(session, ENSURE, len);
    if (!receive(session, &yes, 1))
        return ended(session);
    if (yes > 1)
        return bad_answer(session, "an ensure is answered with the byte %d", yes);
    if (is_there != NULL)
        *is_there = yes;
    return PAGED_OK;
}

enum paged_error paged_blob_take(paged_blob *blob, uint64_t replay, void *to, size_t len, size_t *count) {
    const uint64_t numbers[] = {replay, len};
    size_t found;
    enum paged_error error = ask_bytes(&blob->session, TAKE, numbers, 2, to, len, &found);
    if (!error && count != NULL)
        *count = found;
    return error;
}

enum paged_error paged_blob_seek(paged_blob *blob, uint64_t replay, uint64_t offset) {
    const uint64_t numbers[] = {replay, offset};
    return ask_nothing(&blob->session, SEEK, numbers, 2);
}

static enum paged_error append_records(struct session *session, int kind, const struct paged_bytes *records,
                                       size_t count, uint64_t *offsets, struct paged_started *started) {
    uint64_t len = 0;
    enum paged_error error = send_records(session, kind, records, count);
    if (!error)
        error = answer(session, &len);
    if (error)
        return error;
    uint64_t all = 8 * (uint64_t)count;
    if (kind == APPEND_RECORDS_START ? len != all + 1 && len != all + 9 : len != all)
        return wrong_len(session, kind, len);
    error = receive_numbers(session, offsets, count);
    if (!error && kind == APPEND_RECORDS_START)
        error = take_started(session, kind, len - all, started);
    return error;
}

enum paged_error paged_blob_append_records(paged_blob *blob, const struct paged_bytes *records, size_t count,
                                           uint64_t *offsets) {
    return append_records(&blob->session, APPEND_RECORDS, records, count, offsets, NULL);
}

enum paged_error paged_blob_append_records_sync(paged_blob *blob, const struct paged_bytes *records, size_t count,
                                                uint64_t *offsets) {
    return append_records(&blob->session, APPEND_RECORDS_SYNC, records, count, offsets, NULL);
}

enum paged_error paged_blob_append_records_start(paged_blob *blob, const struct paged_bytes *records, size_t count,
                                                 uint64_t *offsets, struct paged_started *started) {
    return append_records(&blob->session, APPEND_RECORDS_START, records, count, offsets, started);
}

enum paged_error paged_blob_read_ranges(paged_blob *blob, const struct paged_range *ranges, size_t count, void *to,
                                        uint64_t *served) {
    struct session *session = &blob->session;
    uint64_t total = 8, len = 0, number = 0;
    if (!session->is_over && has_kind(session, READ_RANGES)) {
        for (size_t i = 0; i < count; i++)
            if (ranges[i].len > MOST || (total += ranges[i].len) > session->most_payload)
                return fail(session, PAGED_TOO_LONG, PAGED_ASK_ELSE, "an answer has at most %" PRIu64 " bytes",
                            session->most_payload);
        if (count > session->hello.most_ranges || count > MOST / 16)
            return fail(session, PAGED_TOO_LONG, PAGED_ASK_ELSE, "a request has at most %" PRIu64 " ranges",
                        session->hello.most_ranges);
    }
    enum paged_error error = begin(session, READ_RANGES, 16 * (uint64_t)count);
    if (error)
        return error;
    for (size_t i = 0; i < count; i++) {
        stage_number(session, ranges[i].offset, 8);
        stage_number(session, ranges[i].len, 8);
    }
    send_staged(session);
    error = answer(session, &len);
    if (error)
        return error;
    if (len != total)
        return wrong_len(session, READ_RANGES, len);
    error = receive_numbers(session, &number, 1);
    if (error)
        return error;
    if (!receive(session, to, (size_t)(total - 8)))
        return ended(session);
    if (served != NULL)
        *served = number;
    return PAGED_OK;
}

enum paged_error paged_blob_sync_size(paged_blob *blob, uint64_t *size) {
    return ask_number(&blob->session, SYNC_SIZE, size);
}

enum paged_error paged_blob_look(paged_blob *blob, uint64_t *kept) {
    return ask_number(&blob->session, LOOK, kept);
}

enum paged_error paged_blob_drop_snapshot(paged_blob *blob, uint64_t snapshot) {
    return ask_nothing(&blob->session, DROP_SNAPSHOT, &snapshot, 1);
}

enum paged_error paged_blob_drop_replay(paged_blob *blob, uint64_t replay) {
    return ask_nothing(&blob->session, DROP_REPLAY, &replay, 1);
}

enum paged_error paged_blob_flush(paged_blob *blob) {
    return ask_nothing(&blob->session, FLUSH, NULL, 0);
}

enum paged_error paged_blob_count_open(paged_blob *blob, uint64_t *snapshots, uint64_t *replays) {
    uint64_t numbers[2] = {0};
    enum paged_error error = ask_numbers(&blob->session, COUNT_OPEN, NULL, 0, numbers, 2);
    if (!error && snapshots != NULL)
        *snapshots = numbers[0];
    if (!error && replays != NULL)
        *replays = numbers[1];
    return error;
}

/* ---- A log ------------------------------------------------------------------------------------------------- */

enum paged_error paged_log_open(const char *folder, const struct paged_options *options, paged_log **log,
                                struct paged_failure *failure) {
    enum paged_error error;
    *log = (paged_log *)open_session(1, folder, options, failure, &error);
    return error;
}

enum paged_error paged_log_close(paged_log *log, struct paged_failure *failure) {
    return close_session(log ? &log->session : NULL, failure);
}

const struct paged_hello *paged_log_hello(const paged_log *log) {
    return &log->session.hello;
}

const struct paged_failure *paged_log_failure(const paged_log *log) {
    return &log->session.failure;
}

const char *paged_log_said(paged_log *log) {
    return said_of(&log->session);
}

long paged_log_process(const paged_log *log) {
    return (long)log->session.process;
}

static enum paged_error receive_places(struct session *session, struct paged_place *places, size_t count) {
    uint64_t numbers[2] = {0};
    for (size_t i = 0; i < count; i++) {
        enum paged_error error = receive_numbers(session, numbers, 2);
        if (error)
            return error;
        if (places != NULL) {
            places[i].segment = numbers[0];
            places[i].offset = numbers[1];
        }
    }
    return PAGED_OK;
}

enum paged_error paged_log_append(paged_log *log, const void *data, size_t len, struct paged_place *place) {
    struct session *session = &log->session;
    uint64_t answered;
    enum paged_error error = ask(session, APPEND, NULL, 0, data, len, &answered);
    if (error)
        return error;
    return answered == 16 ? receive_places(session, place, 1) : wrong_len(session, APPEND, answered);
}

enum paged_error paged_log_sync(paged_log *log) {
    return ask_nothing(&log->session, SYNC, NULL, 0);
}

enum paged_error paged_log_size(paged_log *log, uint64_t *records) {
    return ask_number(&log->session, SIZE, records);
}

enum paged_error paged_log_drop_before(paged_log *log, uint64_t segment) {
    return ask_nothing(&log->session, DROP_BEFORE, &segment, 1);
}

/* Takes the answer to a read, behind what the store has. `data` is set by the caller. */
static enum paged_error take_read(struct session *session, struct paged_place place, struct store *store,
                                  struct paged_record *record) {
    unsigned char fields[9];
    uint64_t len = 0;
    enum paged_error error = answer(session, &len);
    if (error)
        return error;
    if (len < sizeof fields || len > sizeof fields + MOST_RECORD)
        return wrong_len(session, READ, len);
    if (!receive(session, fields, sizeof fields))
        return ended(session);
    len -= sizeof fields;
    if (fields[8] > 1 || (fields[8] == 0 && len > 0))
        return bad_answer(session, "a frame has the mark %d, and %" PRIu64 " bytes", fields[8], len);
    record->place = place;
    record->behind.segment = place.segment;
    record->behind.offset = get_number(fields, 8);
    record->is_record = fields[8];
    record->len = (size_t)len;
    return receive_to(session, &store->payload, len);
}

/* Where bytes of a store stand; not NULL, since a caller may copy none of them. */
static const unsigned char *data_of(const struct store *store, size_t at) {
    static const unsigned char none[1] = {0};
    return store->payload.data != NULL ? store->payload.data + at : none;
}

enum paged_error paged_log_read_many(paged_log *log, const struct paged_place *places, size_t count,
                                     struct paged_record *records, size_t *done) {
    struct session *session = &log->session;
    struct store *store = &session->store;
    struct paged_failure first = {PAGED_OK, -1, PAGED_ASK_ELSE, 0, 0, -1, 0, "", ""};
    size_t good = 0;
    enum paged_error error = session->is_over ? PAGED_SESSION_OVER : PAGED_OK;
    store->payload.len = 0;
    for (size_t from = 0; from < count && !error; from += WINDOW) {
        size_t to = count - from < WINDOW ? count : from + WINDOW;
        for (size_t i = from; i < to; i++) {
            enum paged_error refusal = begin(session, READ, 16);
            if (refusal) /* (all requests have the same length: nothing was sent) */
                return refusal;
            stage_number(session, places[i].segment, 8);
            stage_number(session, places[i].offset, 8);
        }
        send_staged(session);
        /* Each request on the way is answered, also behind one that was refused. */
        for (size_t i = from; i < to && !session->is_over; i++) {
            enum paged_error found = take_read(session, places[i], store, &records[i]);
            if (found && !error) {
                error = found;
                first = session->failure;
            }
            good += !error;
        }
    }
    if (error && error != PAGED_SESSION_OVER && !session->is_over)
        session->failure = first;
    size_t at = 0;
    for (size_t i = 0; i < good; at += records[i++].len)
        records[i].data = data_of(store, at);
    if (done != NULL)
        *done = good;
    return session->is_over && error != PAGED_SESSION_OVER && error ? session->failure.error : error;
}

enum paged_error paged_log_read(paged_log *log, struct paged_place place, struct paged_record *record) {
    return paged_log_read_many(log, &place, 1, record, NULL);
}

static int is_before(struct paged_place a, struct paged_place b) {
    return a.segment < b.segment || (a.segment == b.segment && a.offset < b.offset);
}

static struct paged_place place_at(const unsigned char *at) {
    struct paged_place place = {get_number(at, 8), get_number(at + 8, 8)};
    return place;
}

/* Room for so many records. */
static int grow_records(struct store *store, size_t count) {
    if (count <= store->room)
        return 1;
    if (count > SIZE_MAX / sizeof *store->records)
        return 0;
    struct paged_record *records = realloc(store->records, count * sizeof *records);
    if (records == NULL)
        return 0;
    store->records = records;
    store->room = count;
    return 1;
}

/* Reads one record to a store. */
static enum paged_error next_one(struct session *session, struct paged_place *place, struct store *store) {
    const uint64_t numbers[] = {place->segment, place->offset};
    uint64_t len = 0;
    store->count = store->payload.len = 0;
    enum paged_error error = ask(session, NEXT, numbers, 2, NULL, 0, &len);
    if (error)
        return error;
    if (len < 32 || len > 32 + MOST_RECORD)
        return wrong_len(session, NEXT, len);
    error = receive_to(session, &store->payload, len);
    if (error)
        return error;
    if (!grow_records(store, 1))
        return no_memory(session);
    struct paged_record *record = store->records;
    record->place = place_at(store->payload.data);
    record->behind = place_at(store->payload.data + 16);
    record->data = store->payload.data + 32;
    record->len = (size_t)len - 32;
    record->is_record = 1;
    if (!is_before(*place, record->behind) || is_before(record->place, *place))
        return bad_answer(session, "the next record stands before the place that was asked for");
    store->count = 1;
    *place = record->behind;
    return PAGED_OK;
}

/* Sets the records of an answer to next_many. Whether they are what follows the place. */
static int set_records(struct store *store, struct paged_place place, struct paged_place behind) {
    const unsigned char *entry = store->payload.data + 24;
    size_t at = 24 + ENTRY * store->count;
    for (size_t i = 0; i < store->count; i++, entry += ENTRY) {
        struct paged_record *record = &store->records[i];
        record->place = place_at(entry);
        record->len = (size_t)get_number(entry + 16, 4);
        record->data = store->payload.data + at;
        record->is_record = 1;
        if (record->len > store->payload.len - at || is_before(record->place, place))
            return 0;
        at += record->len;
        /* The next frame of a segment begins where this one ends. */
        record->behind.segment = record->place.segment;
        record->behind.offset = record->place.offset + FRAME + record->len;
        place = record->behind;
    }
    store->records[store->count - 1].behind = behind;
    return at == store->payload.len && !is_before(behind, place);
}

/* Reads many records to a store. */
static enum paged_error next_many(struct session *session, struct paged_place *place, uint64_t most,
                                  struct store *store) {
    const uint64_t numbers[] = {place->segment, place->offset, most};
    uint64_t len = 0;
    store->count = store->payload.len = 0;
    enum paged_error error = ask(session, NEXT_MANY, numbers, 3, NULL, 0, &len);
    if (error)
        return error;
    if (len < 24 + ENTRY || len > 24 + MOST_MANY)
        return wrong_len(session, NEXT_MANY, len);
    error = receive_to(session, &store->payload, len);
    if (error)
        return error;
    struct paged_place behind = place_at(store->payload.data);
    uint64_t count = get_number(store->payload.data + 16, 8);
    if (count == 0 || count > (len - 24) / ENTRY)
        return bad_answer(session, "%" PRIu64 " bytes are to hold %" PRIu64 " records", len, count);
    if (!grow_records(store, (size_t)count))
        return no_memory(session);
    store->count = (size_t)count;
    if (!set_records(store, *place, behind)) {
        store->count = 0;
        return bad_answer(session, "the records of an answer don't follow one another, or have other lengths");
    }
    *place = behind;
    return PAGED_OK;
}

enum paged_error paged_log_next(paged_log *log, struct paged_place *place, struct paged_record *record) {
    enum paged_error error = next_one(&log->session, place, &log->session.store);
    if (!error)
        *record = log->session.store.records[0];
    return error;
}

enum paged_error paged_log_next_many(paged_log *log, struct paged_place *place, uint64_t most,
                                     const struct paged_record **records, size_t *count) {
    struct store *store = &log->session.store;
    *records = NULL;
    *count = 0;
    enum paged_error error = next_many(&log->session, place, most, store);
    if (!error) {
        *records = store->records;
        *count = store->count;
    }
    return error;
}

static enum paged_error append_to_log(struct session *session, int kind, const struct paged_bytes *records,
                                      size_t count, struct paged_place *places) {
    uint64_t len = 0;
    enum paged_error error = send_records(session, kind, records, count);
    if (!error)
        error = answer(session, &len);
    if (error)
        return error;
    return len == 16 * (uint64_t)count ? receive_places(session, places, count) : wrong_len(session, kind, len);
}

enum paged_error paged_log_append_records(paged_log *log, const struct paged_bytes *records, size_t count,
                                          struct paged_place *places) {
    return append_to_log(&log->session, APPEND_RECORDS, records, count, places);
}

enum paged_error paged_log_append_records_sync(paged_log *log, const struct paged_bytes *records, size_t count,
                                               struct paged_place *places) {
    return append_to_log(&log->session, APPEND_RECORDS_SYNC, records, count, places);
}

enum paged_error paged_log_sync_size(paged_log *log, uint64_t *records) {
    return ask_number(&log->session, SYNC_SIZE, records);
}

enum paged_error paged_log_flush(paged_log *log) {
    return ask_nothing(&log->session, FLUSH, NULL, 0);
}

/* Takes the closed segments of an answer, behind those that are there. */
static enum paged_error take_closed(struct session *session, uint64_t first, size_t count, size_t *held) {
    unsigned char fields[17];
    struct paged_closed *closed = NULL;
    if (*held + count <= SIZE_MAX / sizeof *closed)
        closed = realloc(session->closed, (*held + count + 1) * sizeof *closed);
    if (closed == NULL)
        return receive_none(session, 17 * (uint64_t)count) ? no_memory(session) : ended(session);
    session->closed = closed;
    for (size_t i = 0; i < count; i++) {
        if (!receive(session, fields, sizeof fields))
            return ended(session);
        struct paged_closed *to = &closed[(*held)++];
        to->segment = first + i;
        to->records = get_number(fields, 8);
        to->bytes = get_number(fields + 8, 8);
        to->of_file = fields[16];
    }
    return PAGED_OK;
}

enum paged_error paged_log_where(paged_log *log, uint64_t from, uint64_t to, struct paged_where *where) {
    struct session *session = &log->session;
    size_t held = 0;
    for (;;) {
        const uint64_t asked[] = {from, to};
        uint64_t len, numbers[6];
        enum paged_error error = ask(session, WHERE, asked, 2, NULL, 0, &len);
        if (error)
            return error;
        if (len < 48 || (len - 48) % 17 != 0)
            return wrong_len(session, WHERE, len);
        error = receive_numbers(session, numbers, 6);
        if (error)
            return error;
        uint64_t count = numbers[5];
        if (count != (len - 48) / 17 || numbers[0] > numbers[1] ||
            (count > 0 && (numbers[4] < from || numbers[4] > numbers[1] || count > numbers[1] - numbers[4])))
            return bad_answer(session, "the closed segments of an answer aren't those that were asked for");
        error = take_closed(session, numbers[4], (size_t)count, &held);
        if (error)
            return error;
        where->first = numbers[0];
        where->last = where->end.segment = numbers[1];
        where->end.offset = numbers[2];
        where->records = numbers[3];
        where->closed = session->closed;
        where->closed_count = held;
        from = numbers[4] + count;
        if (count == 0 || from >= to || from >= numbers[1])
            return PAGED_OK;
    }
}

enum paged_error paged_log_nth(paged_log *log, uint64_t segment, uint64_t number, struct paged_place *place) {
    const uint64_t numbers[] = {segment, number};
    uint64_t found[2] = {0};
    enum paged_error error = ask_numbers(&log->session, NTH, numbers, 2, found, 2);
    if (!error && place != NULL) {
        place->segment = found[0];
        place->offset = found[1];
    }
    return error;
}

static enum paged_error pass_damage(struct session *session, struct paged_place place, struct paged_passed *passed) {
    const uint64_t numbers[] = {place.segment, place.offset};
    uint64_t found[4] = {0};
    enum paged_error error = ask_numbers(session, PASS_DAMAGE, numbers, 2, found, 4);
    if (error)
        return error;
    passed->place.segment = found[0];
    passed->place.offset = found[1];
    passed->bytes = found[2];
    passed->records_known = found[3] != UINT64_MAX;
    passed->records = passed->records_known ? found[3] : 0;
    if (is_before(passed->place, place))
        return bad_answer(session, "what is passed goes back");
    return PAGED_OK;
}

enum paged_error paged_log_pass_damage(paged_log *log, struct paged_place place, struct paged_passed *passed) {
    return pass_damage(&log->session, place, passed);
}

/* ---- A scan ------------------------------------------------------------------------------------------------ */

enum paged_error paged_scan_open(paged_log *log, struct paged_place from, uint64_t most, paged_scan **scan) {
    *scan = calloc(1, sizeof **scan);
    if (*scan == NULL)
        return no_memory(&log->session);
    (*scan)->session = &log->session;
    (*scan)->place = (*scan)->asked = from;
    (*scan)->most = most ? most : DEFAULT_MANY;
    return PAGED_OK;
}

enum paged_error paged_scan_next(paged_scan *scan, struct paged_record *record) {
    if (scan->at == scan->store.count) {
        scan->at = scan->store.count = 0;
        enum paged_error error = has_kind(scan->session, NEXT_MANY)
                                     ? next_many(scan->session, &scan->asked, scan->most, &scan->store)
                                     : next_one(scan->session, &scan->asked, &scan->store);
        if (error)
            return error;
    }
    *record = scan->store.records[scan->at++];
    scan->place = record->behind;
    return PAGED_OK;
}

struct paged_place paged_scan_place(const paged_scan *scan) {
    return scan->place;
}

enum paged_error paged_scan_pass_damage(paged_scan *scan, struct paged_passed *passed) {
    struct paged_passed found;
    enum paged_error error = pass_damage(scan->session, scan->place, &found);
    if (error)
        return error;
    scan->place = scan->asked = found.place;
    scan->at = scan->store.count = 0;
    if (passed != NULL)
        *passed = found;
    return PAGED_OK;
}

void paged_scan_close(paged_scan *scan) {
    if (scan == NULL)
        return;
    free(scan->store.payload.data);
    free(scan->store.records);
    free(scan);
}
