//! What a call failed with.

use std::fmt;
use std::io;

/// What a call answers.
pub type Result<T> = std::result::Result<T, Error>;

/// The kind of an error. Those with a status are refusals of the program; `docs/PROTOCOL.md`
/// says what each leaves of the writer and the log.
#[derive(Clone, Copy, Debug, PartialEq, Eq, Hash)]
#[non_exhaustive]
pub enum ErrorKind {
    /// Status 1: a read of the file failed.
    ReadFailed,
    /// Status 2: a write of the file failed.
    WriteFailed,
    /// Status 3: a change of the file's size failed.
    ResizeFailed,
    /// Status 4: a sync of the file failed. Nobody knows what of the unsynced bytes is durable.
    SyncFailed,
    /// Status 5: a page that must be full isn't, since its checksum doesn't fit.
    InvalidChecksum,
    /// Status 6: an offset, a range or a place passes the end.
    BlobInsufficientLength,
    /// Status 7: an offset or a length passes the greatest number.
    OffsetOverflow,
    /// Status 8: the program was refused memory.
    OutOfMemory,
    /// Status 9: the cache has no id left.
    IdsExhausted,
    /// Status 16: it can't be done without the file.
    NoFile,
    /// Status 17: the writer is gone, or a failure closed the log.
    Closed,
    /// Status 18: the recovery has ended, and a truncate needs it.
    RecoveryEnded,
    /// Status 19: ranges overlap or aren't in order.
    UnorderedRanges,
    /// Status 20: there is no started sync of this name, or no snapshot or replay of this number.
    UnknownNumber,
    /// Status 21: the recovery hasn't ended, and a snapshot needs that.
    StillRecovering,
    /// Status 22: it is served for reading alone, and this would change it.
    ReadOnly,
    /// Status 23: a record is too long, the fields aren't those of records or ranges, or the answer
    /// would be too long.
    WrongFields,
    /// Status 24, or an end in place of an answer: the program knows none of the versions that were
    /// offered.
    NoVersion,
    /// Status 32: the input ended inside the request.
    CutRequest,
    /// Status 33: the length of the request is 0.
    EmptyRequest,
    /// Status 34: the program has no such kind of request.
    UnknownKind,
    /// Status 35: the length is wrong for the kind of request.
    WrongLength,
    /// Status 36: more bytes are asked for than an answer can hold.
    AnswerTooLong,
    /// Status 37: a replay has a buffer of size 0.
    EmptyBuffer,
    /// Status 38: there is no such segment. It was dropped, or isn't there yet.
    NoSegment,
    /// Status 39: a closed segment doesn't hold what it held when it was closed.
    /// [`Records::pass_damage`] goes on behind.
    ///
    /// [`Records::pass_damage`]: crate::Records::pass_damage
    Damaged,
    /// Status 40: the system refused a file or the folder, or the file of a closed segment is
    /// missing.
    SystemRefused,
    /// Status 41: the file of the next segment is there already and has bytes.
    Unlisted,
    /// Status 42: no number is left for a segment.
    NumbersExhausted,
    /// Status 43: the manifest doesn't fit.
    WrongManifest,
    /// Status 44: no record begins at this offset of a closed segment.
    NoFrame,
    /// Status 45: the segment has no marks, since a version before 0.13 closed it.
    Unmarked,
    /// A refusal with a status that this crate doesn't know; [`Error::status`] has it.
    UnknownStatus,
    /// Of an open: the program can't be started.
    NotStarted,
    /// Of an open: the program couldn't open it, as [`Error::said`] says.
    NotOpened,
    /// Of an open: another process has it open.
    Locked,
    /// Of an open: it isn't whole, and nothing was changed.
    NotWhole,
    /// The program ended before it answered.
    Ended,
    /// What came is no answer by the protocol.
    BadAnswer,
    /// An earlier call lost the program.
    SessionOver,
    /// Nothing was sent: the request or its answer would be longer than the protocol allows.
    TooLong,
    /// Nothing was sent: an argument can't be meant.
    WrongArgument,
    /// Nothing was sent: this version of the protocol, or this program, has no such request.
    Unsupported,
    /// This process has no memory for an answer; the session goes on.
    NoMemory,
}

use ErrorKind::*;

/// The kind of each status that there is.
const STATUSES: [(u8, ErrorKind); 32] = [
    (1, ReadFailed),
    (2, WriteFailed),
    (3, ResizeFailed),
    (4, SyncFailed),
    (5, InvalidChecksum),
    (6, BlobInsufficientLength),
    (7, OffsetOverflow),
    (8, OutOfMemory),
    (9, IdsExhausted),
    (16, NoFile),
    (17, Closed),
    (18, RecoveryEnded),
    (19, UnorderedRanges),
    (20, UnknownNumber),
    (21, StillRecovering),
    (22, ReadOnly),
    (23, WrongFields),
    (24, NoVersion),
    (32, CutRequest),
    (33, EmptyRequest),
    (34, UnknownKind),
    (35, WrongLength),
    (36, AnswerTooLong),
    (37, EmptyBuffer),
    (38, NoSegment),
    (39, Damaged),
    (40, SystemRefused),
    (41, Unlisted),
    (42, NumbersExhausted),
    (43, WrongManifest),
    (44, NoFrame),
    (45, Unmarked),
];

impl ErrorKind {
    /// The kind of a refusal with this status.
    pub(crate) fn of_status(status: u8) -> ErrorKind {
        let found = STATUSES.iter().find(|(number, _)| *number == status);
        found.map_or(UnknownStatus, |(_, kind)| *kind)
    }

    /// What it means, in words.
    pub fn words(self) -> &'static str {
        match self {
            ReadFailed => "a read of the file failed",
            WriteFailed => "a write of the file failed",
            ResizeFailed => "a change of the file's size failed",
            SyncFailed => "a sync of the file failed",
            InvalidChecksum => "a page that must be full isn't: its checksum doesn't fit",
            BlobInsufficientLength => "an offset, a range or a place passes the end",
            OffsetOverflow => "an offset or a length passes the greatest number",
            OutOfMemory => "the program was refused memory",
            IdsExhausted => "the cache has no id left",
            NoFile => "it can't be done without the file",
            Closed => "the writer is gone, or a failure closed the log",
            RecoveryEnded => "the recovery has ended, and a truncate needs it",
            UnorderedRanges => "ranges overlap or aren't in order",
            UnknownNumber => "there is no started sync of this name, or no snapshot or replay of this number",
            StillRecovering => "the recovery hasn't ended, and a snapshot needs that",
            ReadOnly => "it is served for reading alone, and this would change it",
            WrongFields => "a record is too long, the fields aren't those of records or ranges, or the answer would be too long",
            NoVersion => "the program knows none of the versions that were offered",
            CutRequest => "the input ended inside the request",
            EmptyRequest => "the length of the request is 0",
            UnknownKind => "the program has no such kind of request",
            WrongLength => "the length is wrong for the kind of request",
            AnswerTooLong => "more bytes are asked for than an answer can hold",
            EmptyBuffer => "a replay has a buffer of size 0",
            NoSegment => "there is no such segment: it was dropped, or isn't there yet",
            Damaged => "a closed segment doesn't hold what it held when it was closed",
            SystemRefused => "the system refused a file or the folder, or the file of a closed segment is missing",
            Unlisted => "the file of the next segment is there already and has bytes",
            NumbersExhausted => "no number is left for a segment",
            WrongManifest => "the manifest doesn't fit",
            NoFrame => "no record begins at this offset of a closed segment",
            Unmarked => "the segment has no marks, since a version before 0.13 closed it",
            UnknownStatus => "the program refused with a status that this crate doesn't know",
            NotStarted => {
                "the program can't be started: it is found by `Options::program`, by the variable \
                 PAGEDD, or in PATH"
            }
            NotOpened => "the program couldn't open it",
            Locked => "another process has it open",
            NotWhole => "it isn't whole, and nothing was changed",
            Ended => "the program ended before it answered",
            BadAnswer => "what came is no answer by the protocol",
            SessionOver => "an earlier call lost the program",
            TooLong => "the request or its answer would be too long",
            WrongArgument => "an argument can't be meant",
            Unsupported => "this version of the protocol, or this program, has no such request",
            NoMemory => "this process has no memory for it",
        }
    }
}

/// What to do after an error.
#[derive(Clone, Copy, Debug, PartialEq, Eq, Hash)]
#[non_exhaustive]
pub enum Next {
    /// Ask for something else: the request can't be met as it stands.
    AskElse,
    /// Ask again: the same request may be met another time.
    AskAgain,
    /// Let go of the value, open again, and read what was recovered.
    OpenAnew,
    /// A sync failed: let go of the value, run `pagedd rewrite`, and then open again.
    ReplaceFile,
    /// Of an open: mend the cause that [`Error::said`] or [`Error::words`] names, and open again.
    MendFirst,
    /// The answer didn't say, as in version 1.
    Unknown,
}

impl Next {
    pub(crate) fn of_byte(byte: u8) -> Next {
        match byte {
            0 => Next::AskElse,
            1 => Next::AskAgain,
            2 => Next::OpenAnew,
            3 => Next::ReplaceFile,
            _ => Next::Unknown,
        }
    }

    /// What to do, in words.
    pub fn words(self) -> &'static str {
        match self {
            Next::AskElse => "ask for something else",
            Next::AskAgain => "ask again",
            Next::OpenAnew => "open anew, and read what was recovered",
            Next::ReplaceFile => "replace the file by `pagedd rewrite`, and then open anew",
            Next::MendFirst => "mend the cause, and then open again",
            Next::Unknown => "the answer doesn't say",
        }
    }
}

/// Why a call failed.
///
/// ```
/// # let Some(_) = std::env::var_os("PAGEDD") else { return };
/// use paged::{ErrorKind, Log, Next};
///
/// match Log::open("/no/such/folder/log") {
///     Err(error) if error.kind() == ErrorKind::Locked => println!("end the other process first"),
///     Err(error) => {
///         assert_eq!((error.kind(), error.next()), (ErrorKind::NotOpened, Next::MendFirst));
///         assert!(error.said().contains("/no/such/folder/log"));
///     }
///     Ok(_) => unreachable!("there is no such folder"),
/// }
/// ```
#[derive(Clone, PartialEq, Eq)]
pub struct Error(Box<Fields>);

#[derive(Clone, PartialEq, Eq)]
pub(crate) struct Fields {
    pub kind: ErrorKind,
    pub next: Next,
    pub status: Option<u8>,
    pub taken: u64,
    pub errno: Option<u64>,
    pub exit_status: Option<i32>,
    pub signal: Option<i32>,
    pub words: String,
    pub said: String,
}

impl Error {
    pub(crate) fn new(kind: ErrorKind, next: Next, words: impl Into<String>) -> Error {
        Error(Box::new(Fields {
            kind,
            next,
            status: None,
            taken: 0,
            errno: None,
            exit_status: None,
            signal: None,
            words: words.into(),
            said: String::new(),
        }))
    }

    pub(crate) fn system(kind: ErrorKind, next: Next, what: &str, error: &io::Error) -> Error {
        let mut made = Error::new(kind, next, format!("{what}: {error}"));
        made.0.errno = error
            .raw_os_error()
            .and_then(|number| u64::try_from(number).ok());
        made
    }

    pub(crate) fn fields(&mut self) -> &mut Fields {
        &mut self.0
    }

    /// The kind of the error.
    pub fn kind(&self) -> ErrorKind {
        self.0.kind
    }

    /// What to do next.
    pub fn next(&self) -> Next {
        self.0.next
    }

    /// The status of the program's answer, if there was one.
    pub fn status(&self) -> Option<u8> {
        self.0.status
    }

    /// How much of the request was taken, in version 2: of a blob, steps (of `append_records_sync`
    /// the append is one, and the sync another); of a log, records that were appended. 0 in version
    /// 1, and if the program was lost: then it isn't known.
    pub fn taken(&self) -> u64 {
        self.0.taken
    }

    /// The system's number for the error, of the program or of this process.
    pub fn errno(&self) -> Option<u64> {
        self.0.errno
    }

    /// The exit status of a program that ended.
    pub fn exit_status(&self) -> Option<i32> {
        self.0.exit_status
    }

    /// The signal that ended the program.
    pub fn signal(&self) -> Option<i32> {
        self.0.signal
    }

    /// The answer's words for the cause, or this crate's.
    pub fn words(&self) -> &str {
        &self.0.words
    }

    /// The last lines that the program wrote to its standard error.
    pub fn said(&self) -> &str {
        &self.0.said
    }
}

impl fmt::Display for Error {
    fn fmt(&self, to: &mut fmt::Formatter<'_>) -> fmt::Result {
        write!(to, "{}", self.kind().words())?;
        if let Some(status) = self.status() {
            write!(to, " (status {status})")?;
        }
        if !self.words().is_empty() {
            write!(to, "; {}", self.words())?;
        }
        if let Some(errno) = self.errno() {
            write!(to, "; errno {errno}")?;
        }
        if self.taken() > 0 {
            write!(to, "; taken: {}", self.taken())?;
        }
        if let Some(status) = self.exit_status() {
            write!(to, "; it ended with exit status {status}")?;
        }
        if let Some(signal) = self.signal() {
            write!(to, "; signal {signal} ended it")?;
        }
        if !self.said().is_empty() {
            write!(
                to,
                "; it said: {}",
                self.said().trim_end().replace('\n', " | ")
            )?;
        }
        write!(to, "; next: {}", self.next().words())
    }
}

/// The kind, and the same words as [`Display`](fmt::Display): a `main` that ends with an error
/// prints this.
impl fmt::Debug for Error {
    fn fmt(&self, to: &mut fmt::Formatter<'_>) -> fmt::Result {
        write!(to, "{:?}: {self}", self.kind())
    }
}

impl std::error::Error for Error {}

impl From<Error> for io::Error {
    fn from(error: Error) -> io::Error {
        io::Error::other(error)
    }
}
