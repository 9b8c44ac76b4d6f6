//! A process of `pagedd`, and the frames between it and this one.

use std::ffi::{OsStr, OsString};
use std::io::{self, Read, Write};
use std::os::unix::ffi::OsStrExt;
use std::os::unix::process::{CommandExt, ExitStatusExt};
use std::process::{Child, ChildStderr, ChildStdin, ChildStdout, Command, ExitStatus, Stdio};
use std::sync::{Arc, Condvar, Mutex, MutexGuard, PoisonError};
use std::thread;
use std::time::{Duration, Instant};

use crate::{Error, ErrorKind, Next, Options, Protocol, Result};

/// The kinds of requests.
pub(crate) mod kind {
    pub const APPEND: u8 = 1;
    pub const SYNC: u8 = 2;
    pub const START_SYNC: u8 = 3;
    pub const WAIT_SYNC: u8 = 4;
    pub const SIZE: u8 = 5;
    pub const READ: u8 = 6;
    pub const READ_UP_TO: u8 = 7;
    pub const NEXT: u8 = 7;
    pub const BEGIN: u8 = 8;
    pub const TRUNCATE: u8 = 9;
    pub const SNAPSHOT: u8 = 10;
    pub const SNAP: u8 = 11;
    pub const REPLAY: u8 = 12;
    pub const ENSURE: u8 = 13;
    pub const TAKE: u8 = 14;
    pub const SEEK: u8 = 15;
    pub const CLOSE: u8 = 16;
    pub const APPEND_RECORDS: u8 = 17;
    pub const APPEND_RECORDS_SYNC: u8 = 18;
    pub const APPEND_RECORDS_START: u8 = 19;
    pub const READ_RANGES: u8 = 20;
    pub const SYNC_SIZE: u8 = 21;
    pub const LOOK: u8 = 22;
    pub const DROP_SNAPSHOT: u8 = 23;
    pub const DROP_REPLAY: u8 = 24;
    pub const FLUSH: u8 = 25;
    pub const COUNT_OPEN: u8 = 26;
    pub const DROP_BEFORE: u8 = 27;
    pub const WHERE: u8 = 28;
    pub const NEXT_MANY: u8 = 29;
    pub const NTH: u8 = 30;
    pub const PASS_DAMAGE: u8 = 31;
}

const BUFFER: usize = 65_536;
/// How many bytes of an answer are asked for at once, so that a wrong length takes no memory.
const PIECE: usize = 1 << 20;
/// The greatest length of a frame without its kind or status.
const MOST: u64 = 4_294_967_294;
const MOST_HELLO: u64 = 1 << 20;
/// The fields of a refusal before its words, and the most bytes of these.
const REFUSAL: u64 = 17;
const REFUSAL_WORDS: u64 = 255;
/// How many bytes of the program's standard error are kept, the last ones.
const SAID: usize = 2048;
/// How long a program that is to end is waited for before it is killed.
const PATIENCE: Duration = Duration::from_secs(10);

/// What the program stated when it opened. In version 1 only `version` and `size` are known, and
/// the others are 0.
#[derive(Clone, Debug, Default, PartialEq, Eq)]
#[non_exhaustive]
pub struct Hello {
    /// The version of the protocol.
    pub version: u8,
    /// Whether it is served for reading alone.
    pub read_only: bool,
    /// At the opening: of a blob, how many bytes the content has; of a log, how many records it
    /// has.
    pub size: u64,
    /// The content bytes of a page.
    pub page_size: u64,
    /// The most bytes of an answer's payload.
    pub most_payload: u64,
    /// The most bytes of a request's fields.
    pub most_fields: u64,
    /// Of a blob: the most ranges of a request.
    pub most_ranges: u64,
    /// Of a log: the most bytes of a record.
    pub most_record: u64,
    /// The most records of a request.
    pub most_records: u64,
    /// How many bytes the opening cut; when reading alone, how many are hidden.
    pub cut: u64,
    /// How many bytes the opening gave up in all. For a client that had synced all that it
    /// appended, any is an alarm.
    pub given_up: u64,
    /// The name of the checksum.
    pub checksum: String,
    /// The name of the copy that was made of what was given up, if one was.
    pub copy: Option<OsString>,
    /// Of a log: the kinds of requests that the program takes; empty if it doesn't say, as before
    /// version 0.12.
    pub kinds: Vec<u8>,
}

/// The last bytes that the program wrote to its standard error, and whether it has ended.
#[derive(Default)]
struct Said {
    kept: Mutex<(Vec<u8>, bool)>,
    ended: Condvar,
}

impl Said {
    fn lock(&self) -> MutexGuard<'_, (Vec<u8>, bool)> {
        self.kept.lock().unwrap_or_else(PoisonError::into_inner)
    }

    /// Reads to the end.
    fn read(&self, mut stream: ChildStderr) {
        let mut data = [0; 1024];
        loop {
            match stream.read(&mut data) {
                Ok(0) => break,
                Ok(count) => {
                    let mut kept = self.lock();
                    kept.0.extend(data.iter().take(count));
                    let gone = kept.0.len().saturating_sub(SAID);
                    kept.0.drain(..gone);
                }
                Err(error) if error.kind() == io::ErrorKind::Interrupted => {}
                Err(_) => break,
            }
        }
        self.lock().1 = true;
        self.ended.notify_all();
    }

    /// Waits until all was read; not for ever, since another process may hold the stream.
    fn wait(&self) {
        let kept = self.lock();
        drop(
            self.ended
                .wait_timeout_while(kept, Duration::from_secs(1), |kept| !kept.1),
        );
    }

    fn text(&self) -> String {
        String::from_utf8_lossy(&self.lock().0).into_owned()
    }
}

/// The head of an answer: its status, and how many bytes follow.
struct Head {
    status: u8,
    len: u64,
}

pub(crate) struct Session {
    child: Child,
    /// Gone once it takes no more.
    to: Option<ChildStdin>,
    /// Gone once it has ended.
    from: Option<ChildStdout>,
    said: Option<Arc<Said>>,
    ended: Option<ExitStatus>,
    /// Nothing can be learnt of it any more, or done to it.
    is_gone: bool,
    /// Why no request can be made any more.
    lost: Option<Error>,
    /// A sync failed, so that its file is to be replaced, whatever fails later.
    sync_failed: bool,
    is_log: bool,
    most_payload: u64,
    most_fields: u64,
    hello: Hello,
    staged: Vec<u8>,
    ahead: Box<[u8]>,
    ahead_at: usize,
    ahead_end: usize,
    /// How many bytes were received, and after how many of them the last answer begins.
    received: u64,
    answer_from: u64,
}

/// A number of so many bytes, the lowest first.
fn number(bytes: &[u8]) -> u64 {
    bytes
        .iter()
        .rev()
        .fold(0, |number, byte| number << 8 | u64::from(*byte))
}

/// Takes fields from an answer, one after another; `None` past its end.
pub(crate) struct Fields<'a>(pub &'a [u8]);

impl<'a> Fields<'a> {
    pub fn bytes(&mut self, count: usize) -> Option<&'a [u8]> {
        let found = self.0.get(..count)?;
        self.0 = self.0.get(count..)?;
        Some(found)
    }

    pub fn byte(&mut self) -> Option<u8> {
        self.bytes(1)?.first().copied()
    }

    pub fn u32(&mut self) -> Option<u64> {
        self.bytes(4).map(number)
    }

    pub fn u64(&mut self) -> Option<u64> {
        self.bytes(8).map(number)
    }

    fn counted(&mut self) -> Option<&'a [u8]> {
        let count = usize::try_from(self.u64()?).ok()?;
        self.bytes(count)
    }
}

fn read_hello(bytes: &[u8], is_log: bool) -> Option<Hello> {
    let mut fields = Fields(bytes);
    let mut hello = Hello {
        version: fields.byte()?,
        read_only: fields.byte()? == 1,
        ..Hello::default()
    };
    hello.size = fields.u64()?;
    hello.page_size = fields.u64()?;
    hello.most_payload = fields.u64()?;
    hello.most_fields = fields.u64()?;
    let most = fields.u64()?;
    if is_log {
        hello.most_record = most;
    } else {
        hello.most_ranges = most;
    }
    hello.most_records = fields.u64()?;
    hello.cut = fields.u64()?;
    hello.given_up = fields.u64()?;
    hello.checksum = String::from_utf8_lossy(fields.counted()?).into_owned();
    let copy = fields.counted()?;
    if !copy.is_empty() {
        hello.copy = Some(OsStr::from_bytes(copy).to_os_string());
    }
    // (a program before version 0.12 lists no kinds, and a later one may state more behind them)
    if is_log && !fields.0.is_empty() {
        hello.kinds = fields.counted()?.to_vec();
    }
    Some(hello)
}

fn start(options: &Options, words: &[OsString]) -> Result<(Child, Option<Arc<Said>>)> {
    let name = words.first().map(OsString::as_os_str).unwrap_or_default();
    let refused = |error: &io::Error| {
        Error::system(
            ErrorKind::NotStarted,
            Next::MendFirst,
            &name.to_string_lossy(),
            error,
        )
    };
    let mut command = Command::new(name);
    command
        .args(words.iter().skip(1))
        .stdin(Stdio::piped())
        .stdout(Stdio::piped());
    if !options.share_standard_error {
        command.stderr(Stdio::piped());
    }
    if options.own_process_group {
        command.process_group(0);
    }
    let mut child = command.spawn().map_err(|error| refused(&error))?;
    let Some(stream) = child.stderr.take() else {
        return Ok((child, None));
    };
    // A thread, since the program would wait for ever if its standard error were full and nobody
    // read it.
    let said = Arc::new(Said::default());
    let reader = Arc::clone(&said);
    match thread::Builder::new()
        .name("pagedd".into())
        .spawn(move || reader.read(stream))
    {
        Ok(_) => Ok((child, Some(said))),
        Err(error) => {
            // (errors of these two leave nothing to do)
            let _ = child.kill();
            let _ = child.wait();
            Err(refused(&error))
        }
    }
}

impl Session {
    pub fn open(options: &Options, is_log: bool, words: &[OsString]) -> Result<Session> {
        match Session::start_and_agree(options, options.protocol, is_log, words) {
            // A program of version 1 alone ends at an offer. It is to be started again, and met
            // with the byte 1.
            Err(error) if is_of_version_one(&error) && options.protocol == Protocol::Highest => {
                Session::start_and_agree(options, Protocol::One, is_log, words)
            }
            answered => answered,
        }
    }

    fn start_and_agree(
        options: &Options,
        protocol: Protocol,
        is_log: bool,
        words: &[OsString],
    ) -> Result<Session> {
        let (mut child, said) = start(options, words)?;
        let (to, from) = (child.stdin.take(), child.stdout.take());
        let mut session = Session {
            child,
            to,
            from,
            said,
            ended: None,
            is_gone: false,
            lost: None,
            sync_failed: false,
            is_log,
            most_payload: MOST,
            most_fields: MOST,
            hello: Hello::default(),
            staged: Vec::new(),
            ahead: vec![0; BUFFER].into_boxed_slice(),
            ahead_at: 0,
            ahead_end: 0,
            received: 0,
            answer_from: 0,
        };
        let opened = session.greet().and_then(|()| session.agree(protocol));
        match opened {
            Ok(()) => Ok(session),
            Err(error) if error.kind() == ErrorKind::Ended => Err(not_opened(error)),
            Err(error) => Err(error),
        }
    }

    fn greet(&mut self) -> Result<()> {
        let mut first = [0];
        self.receive(&mut first)?;
        if first != [1] {
            return Err(self.bad_answer(format!(
                "it greets with the byte {}, and not 1: is it pagedd?",
                first[0]
            )));
        }
        let head = self.receive_head()?;
        if head.status != 0 {
            let mut error = self.refused(&head);
            if error.status().is_some() {
                // The recovery failed, and the program ends: its line says why.
                self.settle();
                let next = if self.sync_failed {
                    Next::ReplaceFile
                } else {
                    Next::MendFirst
                };
                let status = error.status();
                error = self.note(Error::new(error.kind(), next, ""));
                error.fields().status = status;
            }
            return Err(error);
        }
        let size = self.numbers::<1>(0, head.len)?;
        self.hello.size = size[0];
        Ok(())
    }

    fn agree(&mut self, protocol: Protocol) -> Result<()> {
        let first: &[u8] = match protocol {
            Protocol::Highest => &[2, 2, 1, 2],
            Protocol::One => &[1],
            Protocol::Two => &[2, 1, 2],
        };
        self.stage(first);
        self.send();
        if protocol == Protocol::One {
            self.hello.version = 1;
            return Ok(());
        }
        let head = match self.receive_head() {
            Err(error) if error.exit_status() == Some(2) && self.received == self.answer_from => {
                let words = "the program knows version 1 alone";
                return Err(self.note(Error::new(ErrorKind::NoVersion, Next::AskElse, words)));
            }
            head => head?,
        };
        if head.status == 24 && head.len < 256 {
            let mut error = self.note(Error::new(
                ErrorKind::NoVersion,
                Next::AskElse,
                "the program knows other versions",
            ));
            error.fields().status = Some(24);
            return Err(error);
        }
        if head.status != 0 || head.len == 0 || head.len > MOST_HELLO {
            let words = format!(
                "the answer to the offer has status {} and {} bytes",
                head.status, head.len
            );
            return Err(self.bad_answer(words));
        }
        let bytes = self.payload(head.len)?;
        match bytes.first() {
            Some(1) if protocol == Protocol::Highest => self.hello.version = 1,
            Some(2) => {
                let Some(hello) = read_hello(&bytes, self.is_log) else {
                    return Err(self.bad_answer("a field of the hello passes its end".into()));
                };
                self.most_payload = hello.most_payload.min(MOST);
                self.most_fields = hello.most_fields.min(MOST);
                self.hello = hello;
            }
            version => {
                let words = format!("it chose version {}", version.copied().unwrap_or_default());
                return Err(self.bad_answer(words));
            }
        }
        Ok(())
    }

    pub fn hello(&self) -> &Hello {
        &self.hello
    }

    pub fn process(&self) -> u32 {
        self.child.id()
    }

    pub fn said(&self) -> String {
        self.said
            .as_ref()
            .map(|said| said.text())
            .unwrap_or_default()
    }

    // Failures.

    /// Adds to an error what is known of the program.
    fn note(&self, mut error: Error) -> Error {
        let said = self.said();
        let fields = error.fields();
        if self.sync_failed && fields.next == Next::OpenAnew {
            fields.next = Next::ReplaceFile;
        }
        fields.said = said;
        fields.exit_status = self.ended.and_then(|status| status.code());
        fields.signal = self.ended.and_then(|status| status.signal());
        error
    }

    /// A mistake of the caller: nothing was sent, and the session goes on.
    pub fn mistake(&self, kind: ErrorKind, words: String) -> Error {
        self.lost_earlier()
            .unwrap_or_else(|| self.note(Error::new(kind, Next::AskElse, words)))
    }

    pub fn bad_answer(&mut self, words: String) -> Error {
        let error = self.note(Error::new(ErrorKind::BadAnswer, Next::OpenAnew, words));
        self.lost = Some(error.clone());
        error
    }

    fn wrong_len(&mut self, kind: u8, len: u64) -> Error {
        self.bad_answer(format!(
            "the answer to a request of kind {kind} has {len} bytes"
        ))
    }

    /// The program ended where an answer should be.
    fn ended(&mut self) -> Error {
        self.settle();
        let part = if self.received > self.answer_from {
            "in the midst of an answer"
        } else {
            "in place of an answer"
        };
        let words = format!("its output ended {part}");
        let error = self.note(Error::new(ErrorKind::Ended, Next::OpenAnew, words));
        self.lost = Some(error.clone());
        error
    }

    /// What an earlier call lost the program by.
    fn lost_earlier(&self) -> Option<Error> {
        let mut error = self.lost.clone()?;
        let words = format!("{}: {}", error.kind().words(), error.words());
        let fields = error.fields();
        fields.kind = ErrorKind::SessionOver;
        fields.words = words;
        Some(error)
    }

    /// Ends the program by the end of its input, or kills it if it doesn't end, and waits for it.
    fn settle(&mut self) {
        self.to = None;
        self.from = None;
        let begin = Instant::now();
        let mut pause = Duration::from_micros(200);
        while !self.is_gone {
            match self.child.try_wait() {
                Ok(Some(status)) => {
                    self.ended = Some(status);
                    self.is_gone = true;
                }
                Ok(None) if begin.elapsed() < PATIENCE => {
                    thread::sleep(pause);
                    pause = (pause * 2).min(Duration::from_millis(20));
                }
                Ok(None) => {
                    // (an error means that it has ended meanwhile)
                    let _ = self.child.kill();
                    self.ended = self.child.wait().ok();
                    self.is_gone = true;
                }
                // (this process ignores SIGCHLD, or has waited for it by itself)
                Err(_) => self.is_gone = true,
            }
        }
        if let Some(said) = &self.said {
            said.wait();
        }
    }

    /// Closes the session: the error is why it didn't end as it should.
    pub fn close(&mut self) -> Result<()> {
        if self.lost.is_some() {
            return Err(self.abandon());
        }
        self.stage(&[1, 0, 0, 0, kind::CLOSE]);
        self.send();
        self.settle();
        let error = match self.ended.map(|status| status.code()) {
            None | Some(Some(0)) => None,
            Some(Some(1)) => Some((
                ErrorKind::Closed,
                "what was appended since the last sync may be lost",
            )),
            _ => Some((ErrorKind::Ended, "it was to end with exit status 0")),
        };
        let error = error.map(|(kind, words)| self.note(Error::new(kind, Next::OpenAnew, words)));
        self.lost = Some(Error::new(
            ErrorKind::SessionOver,
            Next::OpenAnew,
            "it was closed",
        ));
        error.map_or(Ok(()), Err)
    }

    /// Kills a program that can't be asked any more, and answers why.
    fn abandon(&mut self) -> Error {
        if !self.is_gone {
            // (an error means that it has ended)
            let _ = self.child.kill();
            self.settle();
        }
        self.lost
            .clone()
            .unwrap_or_else(|| Error::new(ErrorKind::SessionOver, Next::OpenAnew, ""))
    }

    // Bytes.

    fn stage(&mut self, bytes: &[u8]) {
        if self.staged.len() + bytes.len() > BUFFER {
            self.send();
        }
        if bytes.len() > BUFFER {
            self.write(bytes);
        } else {
            self.staged.extend_from_slice(bytes);
        }
    }

    /// If the program takes no more, its answer or its end says why, which is what is received
    /// next.
    fn write(&mut self, bytes: &[u8]) {
        if let Some(to) = &mut self.to {
            if to.write_all(bytes).is_err() {
                self.to = None;
            }
        }
    }

    pub fn send(&mut self) {
        let mut staged = std::mem::take(&mut self.staged);
        self.write(&staged);
        staged.clear();
        self.staged = staged;
    }

    /// Reads what has come; 0 at the end.
    fn read(from: &mut Option<ChildStdout>, to: &mut [u8]) -> usize {
        loop {
            let Some(stream) = from else { return 0 };
            match stream.read(to) {
                Err(error) if error.kind() == io::ErrorKind::Interrupted => {}
                Ok(count) if count > 0 => return count,
                _ => *from = None,
            }
        }
    }

    fn receive(&mut self, mut to: &mut [u8]) -> Result<()> {
        while !to.is_empty() {
            let held = self
                .ahead
                .get(self.ahead_at..self.ahead_end)
                .unwrap_or_default();
            let count = if !held.is_empty() {
                let count = held.len().min(to.len());
                to[..count].copy_from_slice(&held[..count]);
                self.ahead_at += count;
                count
            } else if to.len() < BUFFER {
                self.ahead_at = 0;
                self.ahead_end = Session::read(&mut self.from, &mut self.ahead);
                if self.ahead_end == 0 {
                    return Err(self.ended());
                }
                continue;
            } else {
                Session::read(&mut self.from, to)
            };
            if count == 0 {
                return Err(self.ended());
            }
            self.received += count as u64;
            to = &mut to[count..];
        }
        Ok(())
    }

    fn receive_none(&mut self, mut len: u64) -> Result<()> {
        let mut data = [0; 4096];
        while len > 0 {
            let count = usize::try_from(len).map_or(data.len(), |len| len.min(data.len()));
            self.receive(&mut data[..count])?;
            len -= count as u64;
        }
        Ok(())
    }

    /// Adds so many bytes of an answer to a vector. Without memory they are passed over, and the
    /// session goes on.
    pub fn receive_to(&mut self, to: &mut Vec<u8>, mut len: u64) -> Result<()> {
        while len > 0 {
            let count = usize::try_from(len).map_or(PIECE, |len| len.min(PIECE));
            if to.try_reserve(count).is_err() {
                self.receive_none(len)?;
                return Err(self.note(Error::new(ErrorKind::NoMemory, Next::AskAgain, "")));
            }
            let at = to.len();
            to.resize(at + count, 0);
            self.receive(&mut to[at..])?;
            len -= count as u64;
        }
        Ok(())
    }

    pub fn payload(&mut self, len: u64) -> Result<Vec<u8>> {
        let mut bytes = Vec::new();
        self.receive_to(&mut bytes, len)?;
        Ok(bytes)
    }

    fn receive_head(&mut self) -> Result<Head> {
        let (mut len, mut status) = ([0; 4], [0]);
        self.answer_from = self.received;
        self.receive(&mut len)?;
        let len = number(&len);
        if len == 0 {
            return Err(self.bad_answer("an answer has no status".into()));
        }
        self.receive(&mut status)?;
        Ok(Head {
            status: status[0],
            len: len - 1,
        })
    }

    /// Takes a refusal. In version 1, and before a version is chosen, it is the status alone.
    fn refused(&mut self, head: &Head) -> Error {
        let is_full = self.hello.version == 2;
        let lengths = if is_full {
            REFUSAL..=REFUSAL + REFUSAL_WORDS
        } else {
            0..=0
        };
        if !lengths.contains(&head.len) {
            return self.bad_answer(format!(
                "a refusal with status {} has {} bytes more",
                head.status, head.len
            ));
        }
        let bytes = match self.payload(head.len) {
            Ok(bytes) => bytes,
            Err(error) => return error,
        };
        let mut fields = Fields(&bytes);
        let next = fields.byte().map_or(Next::Unknown, Next::of_byte);
        let (taken, errno) = (fields.u64().unwrap_or(0), fields.u64().unwrap_or(0));
        self.sync_failed |= head.status == 4 || next == Next::ReplaceFile;
        let words = String::from_utf8_lossy(fields.0);
        let mut error = self.note(Error::new(ErrorKind::of_status(head.status), next, words));
        let noted = error.fields();
        noted.status = Some(head.status);
        noted.taken = taken;
        noted.errno = Some(errno).filter(|number| *number != 0);
        error
    }

    // Requests.

    pub fn has_kind(&self, kind: u8) -> bool {
        if self.hello.version == 1 {
            return kind < kind::APPEND_RECORDS || kind == kind::DROP_BEFORE;
        }
        !self.is_log || kind < kind::WHERE || self.hello.kinds.contains(&kind)
    }

    /// Whether a request of this kind can be made, with fields of so many bytes.
    pub fn check(&self, kind: u8, len: u64) -> Result<()> {
        if let Some(error) = self.lost_earlier() {
            return Err(error);
        }
        if !self.has_kind(kind) {
            let words = format!(
                "a request of kind {kind}, in version {}",
                self.hello.version
            );
            return Err(self.mistake(ErrorKind::Unsupported, words));
        }
        if len > self.most_fields {
            let words = format!(
                "a request has at most {} bytes, not {len}",
                self.most_fields
            );
            return Err(self.mistake(ErrorKind::TooLong, words));
        }
        Ok(())
    }

    /// Begins a request whose fields have so many bytes; they are staged next.
    pub fn begin(&mut self, kind: u8, len: u64) -> Result<()> {
        self.check(kind, len)?;
        let len =
            u32::try_from(len + 1).map_err(|_| self.mistake(ErrorKind::TooLong, String::new()))?;
        self.stage(&len.to_le_bytes());
        self.stage(&[kind]);
        Ok(())
    }

    pub fn stage_number(&mut self, number: u64) {
        self.stage(&number.to_le_bytes());
    }

    /// Takes the head of an answer, and all of a refusal. The number is how many bytes follow.
    pub fn answer(&mut self) -> Result<u64> {
        let head = self.receive_head()?;
        if head.status != 0 {
            return Err(self.refused(&head));
        }
        Ok(head.len)
    }

    /// Asks with numbers and then bytes, and takes the head of the answer.
    pub fn ask(&mut self, kind: u8, numbers: &[u64], bytes: &[u8]) -> Result<u64> {
        self.begin(kind, 8 * numbers.len() as u64 + bytes.len() as u64)?;
        for number in numbers {
            self.stage_number(*number);
        }
        self.stage(bytes);
        self.send();
        self.answer()
    }

    /// The rest of an answer, which is to be so many numbers.
    fn numbers<const N: usize>(&mut self, kind: u8, len: u64) -> Result<[u64; N]> {
        if len != 8 * N as u64 {
            return Err(self.wrong_len(kind, len));
        }
        self.take_numbers()
    }

    /// So many numbers of an answer.
    pub fn take_numbers<const N: usize>(&mut self) -> Result<[u64; N]> {
        let mut found = [0; N];
        for to in &mut found {
            let mut bytes = [0; 8];
            self.receive(&mut bytes)?;
            *to = u64::from_le_bytes(bytes);
        }
        Ok(found)
    }

    /// Asks what is answered with so many numbers.
    pub fn ask_numbers<const N: usize>(
        &mut self,
        kind: u8,
        numbers: &[u64],
        bytes: &[u8],
    ) -> Result<[u64; N]> {
        let len = self.ask(kind, numbers, bytes)?;
        self.numbers(kind, len)
    }

    /// Asks what is answered with nothing.
    pub fn ask_nothing(&mut self, kind: u8, numbers: &[u64]) -> Result<()> {
        self.ask_numbers::<0>(kind, numbers, &[]).map(|_| ())
    }

    /// Asks what is answered with a number.
    pub fn ask_number(&mut self, kind: u8, numbers: &[u64], bytes: &[u8]) -> Result<u64> {
        self.ask_numbers::<1>(kind, numbers, bytes)
            .map(|found| found[0])
    }

    /// Whether an answer can hold so many bytes.
    pub fn check_payload(&self, len: u64) -> Result<()> {
        if len > self.most_payload {
            return Err(self.mistake(
                ErrorKind::TooLong,
                format!("an answer has at most {} bytes", self.most_payload),
            ));
        }
        Ok(())
    }

    /// Asks for bytes, the length being the last number; the answer must have exactly so many, or
    /// at most so many.
    pub fn ask_bytes(&mut self, kind: u8, numbers: &[u64], is_exact: bool) -> Result<Vec<u8>> {
        let wanted = numbers.last().copied().unwrap_or(0);
        self.check_payload(wanted)?;
        let len = self.ask(kind, numbers, &[])?;
        if len > wanted || is_exact && len != wanted {
            return Err(self.wrong_len(kind, len));
        }
        self.payload(len)
    }

    /// The same, to memory of the caller.
    pub fn ask_into(&mut self, kind: u8, numbers: &[u64], to: &mut [u8]) -> Result<()> {
        self.check_payload(to.len() as u64)?;
        let len = self.ask(kind, numbers, &[])?;
        if len != to.len() as u64 {
            return Err(self.wrong_len(kind, len));
        }
        self.receive(to)
    }

    pub fn receive_into(&mut self, to: &mut [u8]) -> Result<()> {
        self.receive(to)
    }

    /// Asks with records, and answers how many bytes the payload has.
    pub fn ask_records<R: AsRef<[u8]>>(&mut self, kind: u8, records: &[R]) -> Result<u64> {
        self.check(kind, 0)?;
        // (once for each, so that the lengths that are sent are those of the bytes)
        let records: Vec<&[u8]> = records.iter().map(AsRef::as_ref).collect();
        let count = records.len() as u64;
        let mut total = 4u64.saturating_add(count.saturating_mul(4));
        for record in &records {
            total = total.saturating_add(record.len() as u64);
        }
        let Ok(count_field) = u32::try_from(count) else {
            return Err(self.mistake(ErrorKind::TooLong, format!("a request of {count} records")));
        };
        if count > self.hello.most_records {
            let words = format!("a request has at most {} records", self.hello.most_records);
            return Err(self.mistake(ErrorKind::TooLong, words));
        }
        self.begin(kind, total)?;
        self.stage(&count_field.to_le_bytes());
        for record in &records {
            // (it fits, since all of them together do)
            let len = u32::try_from(record.len()).unwrap_or(u32::MAX);
            self.stage(&len.to_le_bytes());
        }
        for record in &records {
            self.stage(record);
        }
        self.send();
        self.answer()
    }

    pub fn wrong_answer(&mut self, kind: u8, len: u64) -> Error {
        self.wrong_len(kind, len)
    }
}

/// What an open answers if the program ended before it was open.
fn not_opened(mut error: Error) -> Error {
    let (kind, next) = match error.exit_status() {
        Some(1) if error.said().contains("another process has it open") => {
            (ErrorKind::Locked, Next::MendFirst)
        }
        Some(1) => (ErrorKind::NotOpened, Next::MendFirst),
        Some(3) => (ErrorKind::NotWhole, Next::MendFirst),
        Some(126 | 127) => (ErrorKind::NotStarted, Next::MendFirst),
        _ => (ErrorKind::Ended, Next::OpenAnew),
    };
    let fields = error.fields();
    (fields.kind, fields.next) = (kind, next);
    fields.words = if kind == ErrorKind::Ended {
        "it ended while it opened".into()
    } else {
        String::new()
    };
    error
}

/// Whether the program ended at the offer, as one of version 1 alone does.
fn is_of_version_one(error: &Error) -> bool {
    error.kind() == ErrorKind::NoVersion && error.status().is_none()
}

impl Drop for Session {
    fn drop(&mut self) {
        if self.lost.is_some() {
            self.abandon();
        } else if !self.is_gone {
            self.settle();
        }
    }
}
