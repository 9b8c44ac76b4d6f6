//! A log: a folder of records.

use std::fmt;
use std::path::Path;

use crate::session::{kind, Fields, Session};
use crate::{Error, ErrorKind, Hello, Options, Result};

/// The most bytes of a record.
const MOST_RECORD: u64 = 65_535;
/// How many bytes a frame has beside its record.
const FRAME: u64 = 7;
/// How many bytes an answer to `next_many` has for each record, and the most for all records.
const ENTRY: u64 = 20;
const MOST_MANY: u64 = 16_777_216;
/// How many bytes a scan asks for at once.
const BATCH: u64 = 1 << 20;
/// So many reads on the way fit any pipe, so that writing them never waits for the program.
const WINDOW: usize = 128;

/// Where a record stands: a segment, and an offset in it. Places of later records are greater.
#[derive(Clone, Copy, Debug, Default, PartialEq, Eq, PartialOrd, Ord, Hash)]
pub struct Place {
    /// The number of the segment.
    pub segment: u64,
    /// The offset in the segment.
    pub offset: u64,
}

impl Place {
    /// The start of the log, even if its first segments were dropped.
    pub const START: Place = Place {
        segment: 0,
        offset: 0,
    };
}

impl fmt::Display for Place {
    fn fmt(&self, to: &mut fmt::Formatter<'_>) -> fmt::Result {
        write!(to, "{}:{}", self.segment, self.offset)
    }
}

/// A record, where it stands, and the place behind it.
#[derive(Clone, Debug, PartialEq, Eq)]
pub struct Record {
    /// Where it stands.
    pub place: Place,
    /// The place behind it.
    pub behind: Place,
    /// Its bytes.
    pub data: Vec<u8>,
}

/// What stands at a place: a record, or a frame whose checksum doesn't fit.
#[derive(Clone, Debug, PartialEq, Eq)]
pub struct Frame {
    /// The record's bytes; `None` if the checksum doesn't fit.
    pub data: Option<Vec<u8>>,
    /// The place behind it.
    pub behind: Place,
}

/// Records that came by one answer, in order.
#[derive(Clone, Debug, Default, PartialEq, Eq)]
pub struct Batch {
    payload: Vec<u8>,
    /// The place of each, the place behind it, and where its bytes are in the payload.
    entries: Vec<(Place, Place, std::ops::Range<usize>)>,
}

impl Batch {
    /// How many records it has.
    pub fn len(&self) -> usize {
        self.entries.len()
    }

    /// Whether it has no record.
    pub fn is_empty(&self) -> bool {
        self.entries.is_empty()
    }

    /// The place and the bytes of a record, by its number in the batch.
    pub fn get(&self, number: usize) -> Option<(Place, &[u8])> {
        let (place, _, range) = self.entries.get(number)?;
        Some((*place, self.payload.get(range.clone())?))
    }

    /// The place and the bytes of each record.
    pub fn iter(&self) -> impl Iterator<Item = (Place, &[u8])> + '_ {
        (0..self.len()).filter_map(|number| self.get(number))
    }

    fn record(&self, number: usize) -> Option<Record> {
        let (place, behind, range) = self.entries.get(number)?;
        Some(Record {
            place: *place,
            behind: *behind,
            data: self.payload.get(range.clone())?.to_vec(),
        })
    }
}

/// What is kept of a closed segment.
#[derive(Clone, Copy, Debug, PartialEq, Eq)]
pub struct Closed {
    /// Its number.
    pub segment: u64,
    /// How many records it has.
    pub records: u64,
    /// How many bytes: of its content, or, if `of_file`, of its file.
    pub bytes: u64,
    /// Whether a version before 0.11 closed it.
    pub of_file: bool,
}

/// Where a log begins and ends.
#[derive(Clone, Debug, PartialEq, Eq)]
pub struct Extent {
    /// The first segment that wasn't dropped.
    pub first: u64,
    /// The open segment.
    pub last: u64,
    /// Where the next record goes, unless it begins a new segment.
    pub end: Place,
    /// How many records the open segment has.
    pub records: u64,
    /// The closed segments that were asked for.
    pub closed: Vec<Closed>,
}

/// What was passed behind a damaged page.
#[derive(Clone, Copy, Debug, PartialEq, Eq)]
pub struct Passed {
    /// Where to go on.
    pub place: Place,
    /// How many bytes of the segment were passed.
    pub bytes: u64,
    /// How many records, if that is known.
    pub records: Option<u64>,
}

/// A log of records, served by a process of `pagedd`.
///
/// ```
/// # fn main() -> Result<(), Box<dyn std::error::Error>> {
/// # let Some(_) = std::env::var_os("PAGEDD") else { return Ok(()) };
/// # let room = std::env::temp_dir().join(format!("paged-doc-log-{}", std::process::id()));
/// # std::fs::create_dir_all(&room)?;
/// # std::env::set_current_dir(&room)?;
/// use paged::{Log, Place};
///
/// let mut log = Log::open("events")?;
/// let place = log.append(b"first")?;
/// log.sync()?;
/// assert_eq!(log.read(place)?.data.as_deref(), Some(&b"first"[..]));
///
/// // A reader that keeps its place goes on from there once more was appended.
/// let mut place = Place::START;
/// while let Some(record) = log.next(&mut place)? {
///     println!("{}: {} bytes", record.place, record.data.len());
/// }
/// log.append_records_sync(&["second", "third"])?;
/// assert_eq!(log.next_many(&mut place, 1 << 20)?.len(), 2);
/// log.close()?;
/// # std::fs::remove_dir_all(&room)?;
/// # Ok(())
/// # }
/// ```
pub struct Log {
    session: Session,
}

impl Log {
    pub(crate) fn new(session: Session) -> Log {
        Log { session }
    }

    /// Opens a log with the program's defaults; [`Options::open_log`] takes others.
    pub fn open(folder: impl AsRef<Path>) -> Result<Log> {
        Options::new().open_log(folder)
    }

    /// Ends the program and waits for it. It commits nothing. An error says that a failure had
    /// closed the log ([`ErrorKind::Closed`]), or that the program ended in another way.
    pub fn close(mut self) -> Result<()> {
        self.session.close()
    }

    /// What the program stated when it opened.
    pub fn hello(&self) -> &Hello {
        self.session.hello()
    }

    /// The number of the process.
    pub fn process(&self) -> u32 {
        self.session.process()
    }

    /// The last lines that the program wrote to its standard error so far.
    pub fn said(&self) -> String {
        self.session.said()
    }

    /// Appends a record, and answers its place. It can be read at once, and is durable after a
    /// sync.
    pub fn append(&mut self, record: &[u8]) -> Result<Place> {
        let [segment, offset] = self.session.ask_numbers(kind::APPEND, &[], record)?;
        Ok(Place { segment, offset })
    }

    /// Commits all records: whatever crashes from then on, they come back.
    pub fn sync(&mut self) -> Result<()> {
        self.session.ask_nothing(kind::SYNC, &[])
    }

    /// How many records the log has, those that aren't durable too.
    pub fn size(&mut self) -> Result<u64> {
        self.session.ask_number(kind::SIZE, &[], &[])
    }

    /// Reads what stands at a place that an append or another read answered.
    pub fn read(&mut self, place: Place) -> Result<Frame> {
        self.ask_read(place)?;
        self.session.send();
        self.take_read(place)
    }

    /// Reads what stands at many places, in any order, with at most 128 requests on the way: it
    /// doesn't wait for each. At an error none is answered.
    pub fn read_many(&mut self, places: &[Place]) -> Result<Vec<Frame>> {
        let mut found = Vec::with_capacity(places.len());
        for window in places.chunks(WINDOW) {
            for place in window {
                self.ask_read(*place)?;
            }
            self.session.send();
            let mut refused = None;
            for place in window {
                // Each request on the way is answered, also behind one that was refused.
                match self.take_read(*place) {
                    Ok(frame) => found.push(frame),
                    Err(error) if error.status().is_none() => return Err(error),
                    Err(error) => refused = refused.or(Some(error)),
                }
            }
            if let Some(error) = refused {
                return Err(error);
            }
        }
        Ok(found)
    }

    /// Reads the first record at a place or after it, and moves the place behind it. `None` at the
    /// end of the log: the place stays, and the same call goes on once more was appended.
    pub fn next(&mut self, place: &mut Place) -> Result<Option<Record>> {
        let asked = *place;
        let Some(len) = at_end(
            self.session
                .ask(kind::NEXT, &[asked.segment, asked.offset], &[]),
        )?
        else {
            return Ok(None);
        };
        if !(32..=32 + MOST_RECORD).contains(&len) {
            return Err(self.session.wrong_answer(kind::NEXT, len));
        }
        let [segment, offset, behind_segment, behind_offset] = self.session.take_numbers()?;
        let data = self.session.payload(len - 32)?;
        let found = Place { segment, offset };
        let behind = Place {
            segment: behind_segment,
            offset: behind_offset,
        };
        if behind <= asked || found < asked {
            return Err(self
                .session
                .bad_answer("the next record stands before the place that was asked for".into()));
        }
        *place = behind;
        Ok(Some(Record {
            place: found,
            behind,
            data,
        }))
    }

    /// Drops all segments before this one, durably. The open segment is never dropped.
    pub fn drop_before(&mut self, segment: u64) -> Result<()> {
        self.session.ask_nothing(kind::DROP_BEFORE, &[segment])
    }

    /// The records from the start on, by batches.
    pub fn records(&mut self) -> Records<'_> {
        self.records_from(Place::START)
    }

    /// The records from a place on, by batches: one request for each. In version 1, and with a
    /// program before version 0.12, it asks for each record.
    pub fn records_from(&mut self, place: Place) -> Records<'_> {
        Records {
            log: self,
            place,
            asked: place,
            most: BATCH,
            batch: Batch::default(),
            at: 0,
            is_over: false,
        }
    }

    // The rest is of version 2 alone.

    /// Appends records one after another by one request, and answers the place of each. If it is
    /// refused, the first [`Error::taken`] of them were appended. This and the calls below are of
    /// version 2 of the protocol: in version 1 they answer [`ErrorKind::Unsupported`].
    pub fn append_records<R: AsRef<[u8]>>(&mut self, records: &[R]) -> Result<Vec<Place>> {
        self.append_all(kind::APPEND_RECORDS, records)
    }

    /// The same, and a commit: all of them are durable at `Ok`.
    pub fn append_records_sync<R: AsRef<[u8]>>(&mut self, records: &[R]) -> Result<Vec<Place>> {
        self.append_all(kind::APPEND_RECORDS_SYNC, records)
    }

    /// Commits, and answers how many records the log has.
    pub fn sync_size(&mut self) -> Result<u64> {
        self.session.ask_number(kind::SYNC_SIZE, &[], &[])
    }

    /// Sends all answers: with one request at a time, as this crate asks, they are sent anyway.
    pub fn flush(&mut self) -> Result<()> {
        self.session.ask_nothing(kind::FLUSH, &[])
    }

    /// Where the log begins and ends, and what is kept of its closed segments from one to before
    /// another; 0 and `u64::MAX` ask for all. It is the protocol's `where`, of programs from
    /// version 0.12 on.
    ///
    /// ```
    /// # fn main() -> Result<(), Box<dyn std::error::Error>> {
    /// # let Some(_) = std::env::var_os("PAGEDD") else { return Ok(()) };
    /// # let room = std::env::temp_dir().join(format!("paged-doc-extent-{}", std::process::id()));
    /// # std::fs::create_dir_all(&room)?;
    /// # std::env::set_current_dir(&room)?;
    /// // Keeps about the last 10,000 bytes of a log.
    /// let mut log = paged::Options::new().segment_size(1000).open_log("events")?;
    /// log.append_records_sync(&[[7; 500]; 100])?;
    /// let extent = log.extent(0, u64::MAX)?;
    /// let mut bytes = extent.end.offset;
    /// for closed in extent.closed.iter().rev() {
    ///     bytes += closed.bytes;
    ///     if bytes > 10_000 {
    ///         log.drop_before(closed.segment)?;
    ///         break;
    ///     }
    /// }
    /// assert!(log.size()? < 30);
    /// # drop(log);
    /// # std::fs::remove_dir_all(&room)?;
    /// # Ok(())
    /// # }
    /// ```
    pub fn extent(&mut self, from: u64, to: u64) -> Result<Extent> {
        let mut closed = Vec::new();
        let mut start = from;
        loop {
            let len = self.session.ask(kind::WHERE, &[start, to], &[])?;
            if len < 48 || (len - 48) % 17 != 0 {
                return Err(self.session.wrong_answer(kind::WHERE, len));
            }
            let [first, last, offset, records, listed, count] = self.session.take_numbers()?;
            let is_within =
                count == 0 || listed >= start && listed <= last && count <= last - listed;
            if count != (len - 48) / 17 || first > last || !is_within {
                let words = "the closed segments of an answer aren't those that were asked for";
                return Err(self.session.bad_answer(words.into()));
            }
            let bytes = self.session.payload(len - 48)?;
            for (entry, segment) in bytes.chunks_exact(17).zip(listed..) {
                let mut fields = Fields(entry);
                if let (Some(records), Some(bytes), Some(kind)) =
                    (fields.u64(), fields.u64(), fields.byte())
                {
                    closed.push(Closed {
                        segment,
                        records,
                        bytes,
                        of_file: kind == 1,
                    });
                }
            }
            start = listed.saturating_add(count);
            if count == 0 || start >= to || start >= last {
                return Ok(Extent {
                    first,
                    last,
                    end: Place {
                        segment: last,
                        offset,
                    },
                    records,
                    closed,
                });
            }
        }
    }

    /// Reads the next records at a place or after it, and moves the place behind the last: as many
    /// as fit `most` bytes, if each counts 20 bytes more than it has, and at least one. No record
    /// at the end of the log. Of programs from version 0.12 on.
    pub fn next_many(&mut self, place: &mut Place, most: u64) -> Result<Batch> {
        let kind = kind::NEXT_MANY;
        let asked = *place;
        let Some(len) = at_end(
            self.session
                .ask(kind, &[asked.segment, asked.offset, most], &[]),
        )?
        else {
            return Ok(Batch::default());
        };
        if !(24 + ENTRY..=24 + MOST_MANY).contains(&len) {
            return Err(self.session.wrong_answer(kind, len));
        }
        let payload = self.session.payload(len)?;
        let Some((batch, behind)) = batch_of(payload, asked) else {
            let words = "the records of an answer don't follow one another, or have other lengths";
            return Err(self.session.bad_answer(words.into()));
        };
        *place = behind;
        Ok(batch)
    }

    /// Where record `number` of a segment stands, the first being 0; `None` if it has no such
    /// record. Of programs from version 0.13 on.
    pub fn nth(&mut self, segment: u64, number: u64) -> Result<Option<Place>> {
        let found = self
            .session
            .ask_numbers::<2>(kind::NTH, &[segment, number], &[]);
        Ok(at_end(found)?.map(|[segment, offset]| Place { segment, offset }))
    }

    /// After [`ErrorKind::Damaged`]: where the first record behind the page of a place stands, and
    /// what is passed. Of programs from version 0.13 on.
    pub fn pass_damage(&mut self, place: Place) -> Result<Passed> {
        let asked = [place.segment, place.offset];
        let [segment, offset, bytes, records] =
            self.session.ask_numbers(kind::PASS_DAMAGE, &asked, &[])?;
        let behind = Place { segment, offset };
        if behind < place {
            return Err(self.session.bad_answer("what is passed goes back".into()));
        }
        Ok(Passed {
            place: behind,
            bytes,
            records: Some(records).filter(|count| *count != u64::MAX),
        })
    }

    fn append_all<R: AsRef<[u8]>>(&mut self, kind: u8, records: &[R]) -> Result<Vec<Place>> {
        let len = self.session.ask_records(kind, records)?;
        if len != 16 * records.len() as u64 {
            return Err(self.session.wrong_answer(kind, len));
        }
        let mut places = Vec::with_capacity(records.len());
        for _ in records {
            let [segment, offset] = self.session.take_numbers()?;
            places.push(Place { segment, offset });
        }
        Ok(places)
    }

    fn ask_read(&mut self, place: Place) -> Result<()> {
        self.session.begin(kind::READ, 16)?;
        self.session.stage_number(place.segment);
        self.session.stage_number(place.offset);
        Ok(())
    }

    fn take_read(&mut self, place: Place) -> Result<Frame> {
        let len = self.session.answer()?;
        if !(9..=9 + MOST_RECORD).contains(&len) {
            return Err(self.session.wrong_answer(kind::READ, len));
        }
        let [offset] = self.session.take_numbers()?;
        let mut mark = [0];
        self.session.receive_into(&mut mark)?;
        let is_empty = len == 9;
        let behind = Place {
            segment: place.segment,
            offset,
        };
        match mark {
            [0] if is_empty => Ok(Frame { data: None, behind }),
            [1] => Ok(Frame {
                data: Some(self.session.payload(len - 9)?),
                behind,
            }),
            [mark] => Err(self.session.bad_answer(format!(
                "a frame has the mark {mark}, and {} bytes",
                len - 9
            ))),
        }
    }
}

/// `None` for a refusal at the end.
fn at_end<T>(answered: Result<T>) -> Result<Option<T>> {
    match answered {
        Ok(found) => Ok(Some(found)),
        Err(error) if error.kind() == ErrorKind::BlobInsufficientLength => Ok(None),
        Err(error) => Err(error),
    }
}

/// The records of an answer to `next_many`, and the place behind them, if they follow the place
/// that was asked for.
fn batch_of(payload: Vec<u8>, asked: Place) -> Option<(Batch, Place)> {
    let mut fields = Fields(&payload);
    let behind = Place {
        segment: fields.u64()?,
        offset: fields.u64()?,
    };
    let count = usize::try_from(fields.u64()?).ok()?;
    let list = fields.bytes(count.checked_mul(20)?)?;
    let mut at = payload.len() - fields.0.len();
    let mut entries: Vec<(Place, Place, std::ops::Range<usize>)> = Vec::with_capacity(count);
    let mut least = asked;
    for entry in list.chunks_exact(20) {
        let mut fields = Fields(entry);
        let place = Place {
            segment: fields.u64()?,
            offset: fields.u64()?,
        };
        let len = fields.u32()?;
        let end = at.checked_add(usize::try_from(len).ok()?)?;
        if place < least || end > payload.len() {
            return None;
        }
        // The next frame of a segment begins where this one ends.
        least = Place {
            segment: place.segment,
            offset: place.offset.checked_add(FRAME + len)?,
        };
        entries.push((place, least, at..end));
        at = end;
    }
    entries.last_mut()?.1 = behind;
    if at != payload.len() || behind < least {
        return None;
    }
    Some((Batch { payload, entries }, behind))
}

/// The records of a log from a place on, by [`Log::records`] and [`Log::records_from`].
///
/// After an error there are no more, except that [`Records::pass_damage`] goes on behind a damaged
/// page. At the end of the log there are none until more was appended.
///
/// ```
/// # fn main() -> Result<(), Box<dyn std::error::Error>> {
/// # let Some(_) = std::env::var_os("PAGEDD") else { return Ok(()) };
/// # let room = std::env::temp_dir().join(format!("paged-doc-scan-{}", std::process::id()));
/// # std::fs::create_dir_all(&room)?;
/// # std::env::set_current_dir(&room)?;
/// # paged::Log::open("events")?.append_records_sync(&["first", "second"])?;
/// use paged::ErrorKind;
///
/// // All records that can be read, and how many bytes can't.
/// let mut log = paged::Log::open("events")?;
/// let mut records = log.records().batch_bytes(65_536);
/// let (mut count, mut lost) = (0, 0);
/// while let Some(record) = records.next() {
///     match record {
///         Ok(_) => count += 1,
///         Err(error) if error.kind() == ErrorKind::Damaged => lost += records.pass_damage()?.bytes,
///         Err(error) => return Err(error.into()),
///     }
/// }
/// assert_eq!((count, lost), (2, 0));
/// # drop(log);
/// # std::fs::remove_dir_all(&room)?;
/// # Ok(())
/// # }
/// ```
pub struct Records<'a> {
    log: &'a mut Log,
    /// Behind the last record that was answered.
    place: Place,
    /// Behind the last record that was read.
    asked: Place,
    most: u64,
    batch: Batch,
    at: usize,
    is_over: bool,
}

impl Records<'_> {
    /// How many bytes a batch may have; 1 MiB unless this says otherwise.
    pub fn batch_bytes(mut self, most: u64) -> Self {
        self.most = most;
        self
    }

    /// The place behind the last record that was answered.
    pub fn place(&self) -> Place {
        self.place
    }

    /// Goes on behind the damaged page at which it stands, after [`ErrorKind::Damaged`].
    pub fn pass_damage(&mut self) -> Result<Passed> {
        let passed = self.log.pass_damage(self.place)?;
        self.place = passed.place;
        self.asked = passed.place;
        self.batch = Batch::default();
        self.at = 0;
        self.is_over = false;
        Ok(passed)
    }

    fn one(&mut self) -> Result<Option<Record>> {
        if !self.log.session.has_kind(kind::NEXT_MANY) {
            return self.log.next(&mut self.asked);
        }
        if self.at == self.batch.len() {
            self.batch = self.log.next_many(&mut self.asked, self.most)?;
            self.at = 0;
        }
        let found = self.batch.record(self.at);
        self.at += usize::from(found.is_some());
        Ok(found)
    }
}

impl Iterator for Records<'_> {
    type Item = std::result::Result<Record, Error>;

    fn next(&mut self) -> Option<Result<Record>> {
        if self.is_over {
            return None;
        }
        match self.one().transpose()? {
            Ok(record) => {
                self.place = record.behind;
                Some(Ok(record))
            }
            Err(error) => {
                self.is_over = true;
                Some(Err(error))
            }
        }
    }
}
