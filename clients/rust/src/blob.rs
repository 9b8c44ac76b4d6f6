//! A blob: a file of bytes that is appended to, read, and cut while it is recovered.

use std::path::Path;

use crate::session::{kind, Fields, Session};
use crate::{ErrorKind, Hello, Options, Result};

/// A blob, served by a process of `pagedd`.
///
/// It begins in recovery: it can be read, appended to and [truncated](Blob::truncate).
/// [`Blob::begin`] ends that, and then snapshots can be made.
///
/// ```
/// # fn main() -> Result<(), Box<dyn std::error::Error>> {
/// # let Some(_) = std::env::var_os("PAGEDD") else { return Ok(()) };
/// # let room = std::env::temp_dir().join(format!("paged-doc-blob-{}", std::process::id()));
/// # std::fs::create_dir_all(&room)?;
/// # std::env::set_current_dir(&room)?;
/// let mut blob = paged::Blob::open("journal")?;
/// let offset = blob.append(b"hello world")?;
/// blob.sync()?;
/// assert_eq!(blob.read_at(offset + 6, 5)?, b"world");
///
/// blob.begin()?;
/// let snapshot = blob.snapshot()?;
/// blob.append(b", and more")?;
/// assert_eq!(snapshot.read_at(&mut blob, 0, 11)?, b"hello world");
/// snapshot.close(&mut blob)?;
/// blob.close()?;
/// # std::fs::remove_dir_all(&room)?;
/// # Ok(())
/// # }
/// ```
pub struct Blob {
    session: Session,
}

/// A sync that was started, to be [waited for](Blob::wait_for_sync).
#[derive(Clone, Copy, Debug, PartialEq, Eq, Hash)]
pub struct StartedSync {
    process: u32,
    name: u64,
}

/// A snapshot of a blob: its content as it stood. The blob is lent to each call.
///
/// The program keeps it until it is [closed](Snapshot::close), or the blob is; a drop alone lets go
/// of nothing.
#[derive(Debug, PartialEq, Eq)]
#[must_use = "the program keeps it until it is closed"]
pub struct Snapshot {
    process: u32,
    index: u64,
}

/// A replay of a blob: it goes over the content as it stood, from its first byte. The blob is lent
/// to each call.
///
/// The program keeps it until it is [closed](Replay::close), or the blob is; a drop alone lets go
/// of nothing.
///
/// ```
/// # fn main() -> Result<(), Box<dyn std::error::Error>> {
/// # let Some(_) = std::env::var_os("PAGEDD") else { return Ok(()) };
/// # let room = std::env::temp_dir().join(format!("paged-doc-replay-{}", std::process::id()));
/// # std::fs::create_dir_all(&room)?;
/// # std::env::set_current_dir(&room)?;
/// let mut blob = paged::Blob::open("journal")?;
/// blob.append(&[7; 100_000])?;
/// let replay = blob.replay(65_536)?;
/// let mut count = 0;
/// for chunk in replay.chunks(&mut blob, 4096) {
///     count += chunk?.len();
/// }
/// assert_eq!(count, 100_000);
/// replay.seek_to(&mut blob, 99_999)?;
/// assert!(replay.ensure(&mut blob, 1)?);
/// assert_eq!(replay.take(&mut blob, 10)?, [7]);
/// replay.close(&mut blob)?;
/// # drop(blob);
/// # std::fs::remove_dir_all(&room)?;
/// # Ok(())
/// # }
/// ```
#[derive(Debug, PartialEq, Eq)]
#[must_use = "the program keeps it until it is closed"]
pub struct Replay {
    process: u32,
    index: u64,
}

impl Blob {
    pub(crate) fn new(session: Session) -> Blob {
        Blob { session }
    }

    /// Opens a blob with the program's defaults; [`Options::open_blob`] takes others.
    pub fn open(path: impl AsRef<Path>) -> Result<Blob> {
        Options::new().open_blob(path)
    }

    /// Ends the program and waits for it. It syncs nothing. An error says that the writer was lost
    /// before ([`ErrorKind::Closed`]), or that the program ended in another way.
    pub fn close(mut self) -> Result<()> {
        self.session.close()
    }

    /// What the program stated when it opened.
    pub fn hello(&self) -> &Hello {
        self.session.hello()
    }

    /// The number of the process.
    pub fn process(&self) -> u32 {
        self.session.process()
    }

    /// The last lines that the program wrote to its standard error so far.
    pub fn said(&self) -> String {
        self.session.said()
    }

    /// Appends bytes, and answers the offset of the first one.
    pub fn append(&mut self, bytes: &[u8]) -> Result<u64> {
        self.session.ask_number(kind::APPEND, &[], bytes)
    }

    /// Makes all that was appended durable.
    pub fn sync(&mut self) -> Result<()> {
        self.session.ask_nothing(kind::SYNC, &[])
    }

    /// Writes all that was appended, and starts to make it durable. `None`: a sync has made all
    /// durable.
    pub fn start_sync(&mut self) -> Result<Option<StartedSync>> {
        let len = self.session.ask(kind::START_SYNC, &[], &[])?;
        self.take_started(kind::START_SYNC, len)
    }

    /// Waits for a started sync: what was appended before its start is durable then. A later one
    /// covers it too, and it may be waited for more than once.
    pub fn wait_for_sync(&mut self, started: StartedSync) -> Result<()> {
        self.check_owner(started.process)?;
        self.session.ask_nothing(kind::WAIT_SYNC, &[started.name])
    }

    /// How many bytes the content has, those that aren't durable too.
    pub fn size(&mut self) -> Result<u64> {
        self.session.ask_number(kind::SIZE, &[], &[])
    }

    /// Reads exactly `len` bytes from `offset` on.
    pub fn read_at(&mut self, offset: u64, len: usize) -> Result<Vec<u8>> {
        self.session
            .ask_bytes(kind::READ, &[offset, len as u64], true)
    }

    /// Reads as many bytes as `buf` has, from `offset` on.
    pub fn read_into(&mut self, buf: &mut [u8], offset: u64) -> Result<()> {
        self.session
            .ask_into(kind::READ, &[offset, buf.len() as u64], buf)
    }

    /// Reads at most `len` bytes from `offset` on, as many as there are. At the end it is refused
    /// with [`ErrorKind::BlobInsufficientLength`], unless `len` is 0.
    pub fn read_up_to(&mut self, offset: u64, len: usize) -> Result<Vec<u8>> {
        self.session
            .ask_bytes(kind::READ_UP_TO, &[offset, len as u64], false)
    }

    /// Ends the recovery: from then on snapshots can be made, and a truncate is refused.
    pub fn begin(&mut self) -> Result<()> {
        self.session.ask_nothing(kind::BEGIN, &[])
    }

    /// Cuts the content to its first `size` bytes, durably, and answers how many are left.
    pub fn truncate(&mut self, size: u64) -> Result<u64> {
        self.session.ask_number(kind::TRUNCATE, &[size], &[])
    }

    /// Keeps the content as it stands, to be read later. The recovery must have ended.
    pub fn snapshot(&mut self) -> Result<Snapshot> {
        let index = self.session.ask_number(kind::SNAPSHOT, &[], &[])?;
        Ok(Snapshot {
            process: self.process(),
            index,
        })
    }

    /// Begins to go over the content as it stands. The buffer has at least a byte.
    pub fn replay(&mut self, buffer_size: usize) -> Result<Replay> {
        if buffer_size == 0 {
            // (the program would end at such a request)
            return Err(self.session.mistake(
                ErrorKind::WrongArgument,
                "the buffer of a replay has at least a byte".into(),
            ));
        }
        let index = self
            .session
            .ask_number(kind::REPLAY, &[buffer_size as u64], &[])?;
        Ok(Replay {
            process: self.process(),
            index,
        })
    }

    // The rest is of version 2 alone.

    /// Appends records one after another by one request, and answers the offset of each. The blob
    /// keeps their bytes alone. This and the calls below are of version 2 of the protocol: in
    /// version 1 they answer [`ErrorKind::Unsupported`].
    pub fn append_records<R: AsRef<[u8]>>(&mut self, records: &[R]) -> Result<Vec<u64>> {
        let len = self.session.ask_records(kind::APPEND_RECORDS, records)?;
        self.take_offsets(kind::APPEND_RECORDS, len, records.len(), len)
    }

    /// The same, and a sync: all of them are durable at `Ok`. If it is refused, a part may be in
    /// the file, by [`Error::taken`](crate::Error::taken): open anew, and compare the size with
    /// that before it.
    ///
    /// ```
    /// # fn main() -> Result<(), Box<dyn std::error::Error>> {
    /// # let Some(_) = std::env::var_os("PAGEDD") else { return Ok(()) };
    /// # let room = std::env::temp_dir().join(format!("paged-doc-records-{}", std::process::id()));
    /// # std::fs::create_dir_all(&room)?;
    /// # std::env::set_current_dir(&room)?;
    /// let mut blob = paged::Blob::open("journal")?;
    /// assert_eq!(blob.append_records_sync(&["one", "", "three"])?, [0, 3, 3]);
    /// let mut bytes = [0; 8];
    /// blob.read_ranges_into(&mut bytes, &[(0, 3), (3, 5)])?;
    /// assert_eq!(&bytes, b"onethree");
    /// # drop(blob);
    /// # std::fs::remove_dir_all(&room)?;
    /// # Ok(())
    /// # }
    /// ```
    pub fn append_records_sync<R: AsRef<[u8]>>(&mut self, records: &[R]) -> Result<Vec<u64>> {
        let len = self
            .session
            .ask_records(kind::APPEND_RECORDS_SYNC, records)?;
        self.take_offsets(kind::APPEND_RECORDS_SYNC, len, records.len(), len)
    }

    /// The same as [`append_records`](Blob::append_records), and the start of a sync.
    pub fn append_records_start<R: AsRef<[u8]>>(
        &mut self,
        records: &[R],
    ) -> Result<(Vec<u64>, Option<StartedSync>)> {
        let kind = kind::APPEND_RECORDS_START;
        let len = self.session.ask_records(kind, records)?;
        let all = 8 * records.len() as u64;
        let offsets = self.take_offsets(kind, len, records.len(), len.min(all))?;
        let started = self.take_started(kind, len - all)?;
        Ok((offsets, started))
    }

    /// Reads ranges, an offset and a length each, in order and without overlap, one after another
    /// to `buf`, which has as many bytes as they have together. Answers how many were served from
    /// the buffer and the cache.
    pub fn read_ranges_into(&mut self, buf: &mut [u8], ranges: &[(u64, usize)]) -> Result<u64> {
        let kind = kind::READ_RANGES;
        let total = ranges
            .iter()
            .fold(0u64, |total, range| total.saturating_add(range.1 as u64));
        self.session
            .check(kind, (ranges.len() as u64).saturating_mul(16))?;
        self.session.check_payload(total.saturating_add(8))?;
        if total != buf.len() as u64 {
            let words = format!(
                "the ranges have {total} bytes, and the buffer has {}",
                buf.len()
            );
            return Err(self.session.mistake(ErrorKind::WrongArgument, words));
        }
        if ranges.len() as u64 > self.hello().most_ranges {
            let words = format!("a request has at most {} ranges", self.hello().most_ranges);
            return Err(self.session.mistake(ErrorKind::TooLong, words));
        }
        self.session.begin(kind, 16 * ranges.len() as u64)?;
        for (offset, len) in ranges {
            self.session.stage_number(*offset);
            self.session.stage_number(*len as u64);
        }
        self.session.send();
        let len = self.session.answer()?;
        if len != 8 + total {
            return Err(self.session.wrong_answer(kind, len));
        }
        let [served] = self.session.take_numbers()?;
        self.session.receive_into(buf)?;
        Ok(served)
    }

    /// Reads `len` bytes at each of these offsets, one after another to `buf`.
    pub fn read_many_into(&mut self, buf: &mut [u8], offsets: &[u64], len: usize) -> Result<u64> {
        let ranges: Vec<(u64, usize)> = offsets.iter().map(|offset| (*offset, len)).collect();
        self.read_ranges_into(buf, &ranges)
    }

    /// Syncs, and answers how many bytes are durable then.
    pub fn sync_size(&mut self) -> Result<u64> {
        self.session.ask_number(kind::SYNC_SIZE, &[], &[])
    }

    /// How many bytes a recovery would keep of what is written now, synced or not: the protocol's
    /// `look`.
    pub fn recoverable_prefix_len(&mut self) -> Result<u64> {
        self.session.ask_number(kind::LOOK, &[], &[])
    }

    /// Sends all answers: with one request at a time, as this crate asks, they are sent anyway.
    pub fn flush(&mut self) -> Result<()> {
        self.session.ask_nothing(kind::FLUSH, &[])
    }

    /// How many snapshots and how many replays the program keeps.
    pub fn count_open(&mut self) -> Result<(u64, u64)> {
        let [snapshots, replays] = self.session.ask_numbers(kind::COUNT_OPEN, &[], &[])?;
        Ok((snapshots, replays))
    }

    fn check_owner(&self, process: u32) -> Result<()> {
        if process != self.process() {
            return Err(self
                .session
                .mistake(ErrorKind::WrongArgument, "it is of another blob".into()));
        }
        Ok(())
    }

    /// Takes a started sync of so many bytes.
    fn take_started(&mut self, kind: u8, len: u64) -> Result<Option<StartedSync>> {
        if len != 1 && len != 9 {
            return Err(self.session.wrong_answer(kind, len));
        }
        let bytes = self.session.payload(len)?;
        let mut fields = Fields(&bytes);
        match (fields.byte(), fields.u64()) {
            (Some(0), None) => Ok(None),
            (Some(1), Some(name)) => Ok(Some(StartedSync {
                process: self.process(),
                name,
            })),
            _ => Err(self
                .session
                .bad_answer("a started sync has another first byte than its length says".into())),
        }
    }

    /// Takes the offsets of so many records, which are to fill so many bytes of an answer.
    fn take_offsets(&mut self, kind: u8, len: u64, count: usize, filled: u64) -> Result<Vec<u64>> {
        if filled != 8 * count as u64 {
            return Err(self.session.wrong_answer(kind, len));
        }
        let mut offsets = Vec::with_capacity(count);
        for _ in 0..count {
            let [offset] = self.session.take_numbers()?;
            offsets.push(offset);
        }
        Ok(offsets)
    }
}

impl Snapshot {
    /// Reads exactly `len` bytes from `offset` on.
    pub fn read_at(&self, blob: &mut Blob, offset: u64, len: usize) -> Result<Vec<u8>> {
        blob.check_owner(self.process)?;
        blob.session
            .ask_bytes(kind::SNAP, &[self.index, offset, len as u64], true)
    }

    /// Reads as many bytes as `buf` has, from `offset` on.
    pub fn read_into(&self, blob: &mut Blob, buf: &mut [u8], offset: u64) -> Result<()> {
        blob.check_owner(self.process)?;
        blob.session
            .ask_into(kind::SNAP, &[self.index, offset, buf.len() as u64], buf)
    }

    /// Lets go of it, and of the memory that it takes. In version 1 it can't be let go of.
    pub fn close(self, blob: &mut Blob) -> Result<()> {
        blob.check_owner(self.process)?;
        blob.session.ask_nothing(kind::DROP_SNAPSHOT, &[self.index])
    }
}

impl Replay {
    /// Asks it to have `count` bytes at hand, and answers whether so many are left. At the end it
    /// is `false` for 1.
    pub fn ensure(&self, blob: &mut Blob, count: usize) -> Result<bool> {
        blob.check_owner(self.process)?;
        let len = blob
            .session
            .ask(kind::ENSURE, &[self.index, count as u64], &[])?;
        if len != 1 {
            return Err(blob.session.wrong_answer(kind::ENSURE, len));
        }
        let mut yes = [0];
        blob.session.receive_into(&mut yes)?;
        match yes {
            [0] => Ok(false),
            [1] => Ok(true),
            [byte] => Err(blob
                .session
                .bad_answer(format!("an ensure is answered with the byte {byte}"))),
        }
    }

    /// Takes the next bytes that it has at hand, at most `count`. Without an
    /// [`ensure`](Replay::ensure) before it that may be none, even in the middle of the content.
    pub fn take(&self, blob: &mut Blob, count: usize) -> Result<Vec<u8>> {
        blob.check_owner(self.process)?;
        blob.session
            .ask_bytes(kind::TAKE, &[self.index, count as u64], false)
    }

    /// Moves it to an offset.
    pub fn seek_to(&self, blob: &mut Blob, offset: u64) -> Result<()> {
        blob.check_owner(self.process)?;
        blob.session.ask_nothing(kind::SEEK, &[self.index, offset])
    }

    /// The bytes from where it stands to the end, by chunks of at most `size` bytes. After an error
    /// there are no more.
    pub fn chunks<'a>(&'a self, blob: &'a mut Blob, size: usize) -> Chunks<'a> {
        Chunks {
            replay: self,
            blob,
            size: size.max(1),
            is_over: false,
        }
    }

    /// Lets go of it, and of its buffer. In version 1 it can't be let go of.
    pub fn close(self, blob: &mut Blob) -> Result<()> {
        blob.check_owner(self.process)?;
        blob.session.ask_nothing(kind::DROP_REPLAY, &[self.index])
    }
}

/// The chunks of a replay, by [`Replay::chunks`].
pub struct Chunks<'a> {
    replay: &'a Replay,
    blob: &'a mut Blob,
    size: usize,
    is_over: bool,
}

impl Chunks<'_> {
    fn take(&mut self) -> Result<Vec<u8>> {
        self.replay.ensure(self.blob, self.size)?;
        self.replay.take(self.blob, self.size)
    }
}

impl Iterator for Chunks<'_> {
    type Item = Result<Vec<u8>>;

    fn next(&mut self) -> Option<Result<Vec<u8>>> {
        if self.is_over {
            return None;
        }
        let found = self.take();
        self.is_over = found.as_ref().map_or(true, Vec::is_empty);
        Some(found).filter(|found| !found.as_ref().is_ok_and(Vec::is_empty))
    }
}
