//! Tests with a built pagedd, by the variable PAGEDD; without it they are left out. PAGED_KILLS
//! says how often the program is killed (20), PAGED_SEED when, and PAGED_FIGURES has this program
//! measure instead.

mod common;

use std::fs;
use std::os::unix::fs::PermissionsExt;
use std::path::{Path, PathBuf};
use std::process::{Command, ExitCode};
use std::sync::OnceLock;
use std::thread;
use std::time::{Duration, Instant};

use common::{play, remove, room};
use paged::{Blob, Error, ErrorKind, Log, Next, Options, Place, Protocol};

/// The folder of all of these tests.
fn base() -> &'static Path {
    static BASE: OnceLock<PathBuf> = OnceLock::new();
    BASE.get_or_init(|| room("served"))
}

fn path(name: &str) -> PathBuf {
    base().join(name)
}

fn pagedd() -> PathBuf {
    PathBuf::from(std::env::var_os("PAGEDD").expect("the program is named"))
}

fn kind_of<T: std::fmt::Debug>(answered: Result<T, Error>) -> ErrorKind {
    answered.expect_err("it is refused").kind()
}

/// Why an open is refused.
fn refusal<T>(answered: Result<T, Error>) -> Error {
    answered.err().expect("it is refused")
}

fn some(number: usize) -> String {
    format!("record {number}, record {number}")
}

const SOME: usize = 60;

fn append_some(log: &mut Log) -> Vec<Place> {
    let records: Vec<String> = (0..SOME).map(some).collect();
    log.append_records_sync(&records).unwrap()
}

// A blob.

fn blob_calls(protocol: Protocol) {
    let options = Options::new().protocol(protocol);
    let path = path(&format!("blob-{protocol:?}"));
    let mut blob = options.open_blob(&path).unwrap();
    assert_eq!(blob.hello().size, 0);
    assert_eq!(blob.append(b"hello").unwrap(), 0);
    assert_eq!(blob.append(b"").unwrap(), 5);
    assert_eq!(kind_of(blob.snapshot()), ErrorKind::StillRecovering);
    assert_eq!(blob.truncate(4).unwrap(), 4);
    blob.begin().unwrap();
    assert_eq!(kind_of(blob.truncate(1)), ErrorKind::RecoveryEnded);
    let snapshot = blob.snapshot().unwrap();
    let replay = blob.replay(65_536).unwrap();
    blob.append(b" world").unwrap();
    let started = blob.start_sync().unwrap().expect("one is pending");
    blob.wait_for_sync(started).unwrap();
    blob.wait_for_sync(started).unwrap();
    assert_eq!(
        blob.start_sync().unwrap(),
        Some(started),
        "nothing was appended since"
    );
    blob.sync().unwrap();
    assert_eq!(blob.start_sync().unwrap(), None);
    assert_eq!(blob.read_at(0, 10).unwrap(), b"hell world");
    assert_eq!(
        kind_of(blob.read_at(0, 11)),
        ErrorKind::BlobInsufficientLength
    );
    assert_eq!(
        kind_of(blob.read_at(u64::MAX, 2)),
        ErrorKind::OffsetOverflow
    );
    assert_eq!(blob.read_up_to(5, 100).unwrap(), b"world");
    assert_eq!(blob.read_up_to(99, 0).unwrap(), b"");
    let mut buf = [0; 4];
    snapshot.read_into(&mut blob, &mut buf, 0).unwrap();
    assert_eq!(&buf, b"hell");
    assert_eq!(
        kind_of(snapshot.read_at(&mut blob, 0, 5)),
        ErrorKind::BlobInsufficientLength
    );
    assert!(replay.ensure(&mut blob, 4).unwrap());
    assert_eq!(replay.take(&mut blob, 100).unwrap(), b"hell");
    assert!(!replay.ensure(&mut blob, 1).unwrap());
    replay.seek_to(&mut blob, 2).unwrap();
    let chunks: Vec<u8> = replay
        .chunks(&mut blob, 1)
        .flat_map(Result::unwrap)
        .collect();
    assert_eq!(chunks, b"ll");
    assert_eq!(blob.size().unwrap(), 10);
    if protocol == Protocol::One {
        assert_eq!(kind_of(snapshot.close(&mut blob)), ErrorKind::Unsupported);
        assert_eq!(kind_of(blob.sync_size()), ErrorKind::Unsupported);
    } else {
        snapshot.close(&mut blob).unwrap();
        replay.close(&mut blob).unwrap();
        assert_eq!(blob.count_open().unwrap(), (0, 0));
    }
    blob.close().unwrap();
    let blob = options.open_blob(&path).unwrap();
    assert_eq!(blob.hello().size, 10);
}

fn blob_calls_of_two() {
    let mut blob = Blob::open(path("blob-two")).unwrap();
    assert_eq!(
        blob.append_records(&["one", "", "three"]).unwrap(),
        [0, 3, 3]
    );
    assert_eq!(blob.append_records_sync(&[b"one".to_vec()]).unwrap(), [8]);
    let (offsets, started) = blob.append_records_start(&["one", "", "three"]).unwrap();
    assert_eq!(offsets, [11, 14, 14]);
    blob.wait_for_sync(started.expect("one is pending"))
        .unwrap();
    assert_eq!(blob.append_records::<&[u8]>(&[]).unwrap(), [0; 0]);
    let mut buf = [0; 8];
    blob.read_ranges_into(&mut buf, &[(0, 3), (3, 5)]).unwrap();
    assert_eq!(&buf, b"onethree");
    assert_eq!(
        kind_of(blob.read_ranges_into(&mut buf, &[(3, 5), (0, 3)])),
        ErrorKind::UnorderedRanges
    );
    blob.read_many_into(&mut buf[..6], &[0, 8], 3).unwrap();
    assert_eq!(&buf[..6], b"oneone");
    assert_eq!(blob.sync_size().unwrap(), 19);
    assert_eq!(blob.recoverable_prefix_len().unwrap(), 19);
    blob.flush().unwrap();
    let great: Vec<u8> = (0..5 << 20).map(|at| (at * 7 % 251) as u8).collect();
    let offset = blob.append(&great).unwrap();
    assert_eq!(blob.read_at(offset, great.len()).unwrap(), great);
    let replay = blob.replay(1 << 20).unwrap();
    let all: usize = replay
        .chunks(&mut blob, 100_000)
        .map(|chunk| chunk.unwrap().len())
        .sum();
    assert_eq!(all, 19 + great.len());
    blob.close().unwrap();
}

// A log.

fn log_calls() {
    let options = Options::new().segment_size(300);
    let mut log = options.open_log(path("log")).unwrap();
    let places = append_some(&mut log);
    let frames = log.read_many(&places).unwrap();
    assert!(frames
        .iter()
        .enumerate()
        .all(|(at, frame)| frame.data.as_deref() == Some(some(at).as_bytes())));
    let mut place = Place::START;
    for (at, stands) in places.iter().enumerate() {
        let record = log.next(&mut place).unwrap().expect("a record");
        assert_eq!(
            (record.place, record.data, record.behind),
            (*stands, some(at).into_bytes(), place)
        );
    }
    assert_eq!(log.next(&mut place).unwrap(), None);
    for most in [0, 200, 1 << 30] {
        let (mut place, mut at) = (Place::START, 0);
        loop {
            let batch = log.next_many(&mut place, most).unwrap();
            if batch.is_empty() {
                break;
            }
            for (stands, data) in batch.iter() {
                assert_eq!((stands, data), (places[at], some(at).as_bytes()));
                at += 1;
            }
        }
        assert_eq!(at, SOME);
        let records: Vec<_> = log
            .records()
            .batch_bytes(most)
            .map(Result::unwrap)
            .collect();
        assert!(records
            .iter()
            .enumerate()
            .all(|(at, found)| found.data == some(at).as_bytes() && found.place == places[at]));
        assert_eq!(log.records_from(places[10]).count(), SOME - 10);
    }
    // A scan goes on once more was appended, from its place.
    let mut found = log.records_from(places[SOME - 1]);
    assert!(found.next().is_some() && found.next().is_none());
    let end = found.place();
    let mut number = 0;
    for (at, stands) in places.iter().enumerate() {
        number = if at > 0 && places[at - 1].segment == stands.segment {
            number + 1
        } else {
            0
        };
        assert_eq!(log.nth(stands.segment, number).unwrap(), Some(*stands));
    }
    assert_eq!(log.nth(0, 1000).unwrap(), None);
    let extent = log.extent(0, u64::MAX).unwrap();
    assert_eq!(
        (extent.first, extent.last, extent.end),
        (0, places[SOME - 1].segment, end)
    );
    assert_eq!(
        extent
            .closed
            .iter()
            .map(|closed| closed.records)
            .sum::<u64>()
            + extent.records,
        SOME as u64
    );
    assert_eq!(log.extent(1, 3).unwrap().closed, extent.closed[1..3]);
    assert_eq!(
        log.append(b"more").map(|place| place >= end).ok(),
        Some(true)
    );
    assert_eq!(
        log.records_from(end)
            .map(|record| record.unwrap().data)
            .collect::<Vec<_>>(),
        [b"more"]
    );
    assert_eq!(
        kind_of(log.read(Place {
            segment: 0,
            offset: 1
        })),
        ErrorKind::NoFrame
    );
    // Of many places one isn't there; the session goes on.
    let error = log
        .read_many(&[
            places[0],
            Place {
                segment: 999,
                offset: 0,
            },
            places[1],
        ])
        .expect_err("one isn't there");
    assert_eq!(
        (error.kind(), error.status()),
        (ErrorKind::NoSegment, Some(38))
    );
    assert_eq!(log.sync_size().unwrap(), SOME as u64 + 1);
    log.drop_before(2).unwrap();
    assert_eq!(kind_of(log.read(places[0])), ErrorKind::NoSegment);
    assert_eq!(log.records().next().unwrap().unwrap().place.segment, 2);
    log.close().unwrap();
    let mut log = options
        .protocol(Protocol::One)
        .open_log(path("log"))
        .unwrap();
    let place = log.append(b"one").unwrap();
    log.sync().unwrap();
    assert_eq!(log.read(place).unwrap().data.as_deref(), Some(&b"one"[..]));
    let last = log.records().last().expect("a record").unwrap();
    assert_eq!((last.place, last.data), (place, b"one".to_vec()));
    log.drop_before(3).unwrap();
    log.close().unwrap();
}

fn lengths() {
    let mut log = Log::open(path("lengths")).unwrap();
    let great = vec![b'x'; 65_536];
    let place = log.append(b"").unwrap();
    assert_eq!(log.read(place).unwrap().data, Some(Vec::new()));
    log.append(&great[1..]).unwrap();
    let error = log.append(&great).expect_err("it is too long");
    assert_eq!(
        (error.kind(), error.status(), error.next()),
        (ErrorKind::WrongFields, Some(23), Next::AskElse)
    );
    assert_eq!(
        kind_of(log.append_records_sync(&[&b"a"[..], &great[..]])),
        ErrorKind::WrongFields
    );
    log.append_records_sync(&[&great[1..], b"", &great[1..]])
        .unwrap();
    let found: Vec<usize> = log
        .records()
        .map(|record| record.unwrap().data.len())
        .collect();
    assert_eq!(found, [0, 65_535, 65_535, 0, 65_535]);
    log.close().unwrap();
}

fn unicode() {
    use std::os::unix::ffi::OsStrExt;
    for name in [
        "\u{436}\u{443}\u{440}\u{43d}\u{430}\u{43b}",
        "\u{65e5}\u{8a8c} \u{1f5d2}",
        "a name with 'quotes' \"and\" blanks",
    ] {
        let mut log = Log::open(path(name)).unwrap();
        log.append(name.as_bytes()).unwrap();
        log.sync().unwrap();
        log.close().unwrap();
        assert!(path(name).is_dir());
    }
    let error = refusal(Log::open(
        base().join(std::ffi::OsStr::from_bytes(b"\xff\xfe")),
    ));
    assert_eq!(
        (error.kind(), error.next()),
        (ErrorKind::NotOpened, Next::MendFirst)
    );
}

// What is wrong.

fn wrong_words() {
    let error = refusal(Options::new().checksum("md5").open_blob(path("words")));
    assert!(error.kind() == ErrorKind::NotOpened && error.said().contains("md5"));
    assert_eq!(
        refusal(Options::new().page_size(0).open_log(path("words"))).kind(),
        ErrorKind::NotOpened
    );
    assert_eq!(refusal(Blob::open("")).kind(), ErrorKind::NotOpened);
    assert_eq!(
        refusal(Blob::open(path("no/such/folder"))).kind(),
        ErrorKind::NotOpened
    );
    assert_eq!(refusal(Blob::open(base())).kind(), ErrorKind::NotOpened);
    fs::write(path("file"), "a file").unwrap();
    assert_eq!(
        refusal(Log::open(path("file"))).kind(),
        ErrorKind::NotOpened
    );
    fs::write(path("text"), vec![b'd'; 12_000]).unwrap();
    let error = refusal(Blob::open(path("text")));
    assert_eq!(
        (error.kind(), error.exit_status()),
        (ErrorKind::NotWhole, Some(3))
    );
    assert!(error.said().contains("nothing was cut"));
    let blob = Options::new().cut(true).open_blob(path("text")).unwrap();
    assert_eq!((blob.hello().cut, blob.hello().given_up), (12_000, 12_000));
    assert_eq!(
        blob.hello().copy.as_deref(),
        Some(path("text.cut-1").as_os_str())
    );
    blob.close().unwrap();
}

fn locked() {
    let blob = Blob::open(path("locked")).unwrap();
    assert_eq!(
        refusal(Blob::open(path("locked"))).kind(),
        ErrorKind::Locked
    );
    drop(blob);
    let log = Log::open(path("locked-log")).unwrap();
    let error = refusal(Options::new().read_only(true).open_log(path("locked-log")));
    assert_eq!(
        (error.kind(), error.next()),
        (ErrorKind::Locked, Next::MendFirst)
    );
    drop(log);
    Log::open(path("locked-log")).unwrap().close().unwrap();
}

fn read_only() {
    let options = Options::new().read_only(true);
    assert_eq!(
        refusal(options.open_log(path("none"))).kind(),
        ErrorKind::NotOpened
    );
    assert!(!path("none").exists());
    let places = append_some(&mut Log::open(path("alone")).unwrap());
    let mut log = options.open_log(path("alone")).unwrap();
    assert!(log.hello().read_only && log.hello().size == SOME as u64);
    assert_eq!(kind_of(log.append(b"x")), ErrorKind::ReadOnly);
    assert_eq!(
        kind_of(log.append_records_sync(&["x"])),
        ErrorKind::ReadOnly
    );
    assert_eq!(kind_of(log.sync()), ErrorKind::ReadOnly);
    assert_eq!(
        log.read(places[7]).unwrap().data,
        Some(some(7).into_bytes())
    );
    log.close().unwrap();
}

/// The program without the right to write any file, if this user has that.
fn unprivileged() -> Options {
    let is_root = Command::new("id").arg("-u").output().unwrap().stdout == b"0\n";
    if !is_root {
        return Options::new();
    }
    let words = "setpriv --bounding-set=-dac_override,-dac_read_search";
    let script = format!("#!/bin/sh\nexec {words} '{}' \"$@\"\n", pagedd().display());
    fs::write(path("unprivileged"), script).unwrap();
    fs::set_permissions(path("unprivileged"), fs::Permissions::from_mode(0o755)).unwrap();
    Options::new().program(path("unprivileged"))
}

fn protected_file() {
    let mut blob = Blob::open(path("protected")).unwrap();
    blob.append_records_sync(&["hello"]).unwrap();
    blob.close().unwrap();
    let options = unprivileged();
    fs::set_permissions(path("protected"), fs::Permissions::from_mode(0o444)).unwrap();
    fs::set_permissions(base(), fs::Permissions::from_mode(0o555)).unwrap();
    let alone = options.clone().read_only(true).open_blob(path("protected"));
    let written = options.open_blob(path("protected"));
    let log = options.open_log(path("protected-log"));
    fs::set_permissions(base(), fs::Permissions::from_mode(0o755)).unwrap();
    match alone {
        Ok(blob) => assert_eq!(blob.hello().size, 5),
        Err(_) => {
            return println!("left out: this user may write any file, and there is no setpriv")
        }
    }
    let error = refusal(written);
    assert_eq!(
        (error.kind(), error.next()),
        (ErrorKind::NotOpened, Next::MendFirst)
    );
    assert!(error.said().contains("Permission denied"));
    assert_eq!(refusal(log).kind(), ErrorKind::NotOpened);
}

fn rotten() {
    let options = Options::new().page_size(100).segment_size(500);
    let places = append_some(&mut options.open_log(path("rotten")).unwrap());
    // Page 2 of segment 1 has the bytes of the content from 200 on, and those of the file from 2 *
    // 112 on.
    let file = path("rotten").join("00000000000000000001.segment");
    let mut bytes = fs::read(&file).unwrap();
    bytes[2 * 112 + 5] ^= 1;
    fs::write(&file, bytes).unwrap();
    let mut log = options.open_log(path("rotten")).unwrap();
    let mut records = log.records();
    let (mut at, mut lost) = (0, 0);
    while let Some(record) = records.next() {
        match record {
            Ok(record) => {
                assert_eq!(
                    (record.place, &*record.data),
                    (places[at], some(at).as_bytes())
                );
                at += 1;
            }
            Err(error) => {
                assert_eq!(
                    (error.kind(), error.status(), error.next()),
                    (ErrorKind::Damaged, Some(39), Next::AskElse)
                );
                assert!(records.next().is_none(), "it ends behind an error");
                let count =
                    usize::try_from(records.pass_damage().unwrap().records.unwrap()).unwrap();
                at += count;
                lost += count;
            }
        }
    }
    assert_eq!(at, SOME);
    let touching = (0..SOME).filter(|at| {
        let (place, len) = (places[*at], some(*at).len() as u64 + 7);
        place.segment == 1 && place.offset < 300 && place.offset + len > 200
    });
    let touching: Vec<usize> = touching.collect();
    assert_eq!(touching.len(), lost);
    for (at, place) in places.iter().enumerate() {
        let found = log
            .read(*place)
            .map(|frame| frame.data)
            .map_err(|error| error.kind());
        let wanted = if touching.contains(&at) {
            Err(ErrorKind::Damaged)
        } else {
            Ok(Some(some(at).into_bytes()))
        };
        assert_eq!(found, wanted);
    }
}

fn torn() {
    append_some(&mut Log::open(path("torn")).unwrap());
    let file = path("torn").join("00000000000000000000.segment");
    let mut bytes = fs::read(&file).unwrap();
    bytes.extend([0x55; 3000]);
    fs::write(&file, bytes).unwrap();
    let log = Log::open(path("torn")).unwrap();
    let hello = log.hello();
    assert_eq!(
        (hello.size, hello.cut, hello.given_up, hello.copy.is_some()),
        (SOME as u64, 3000, 3000, true)
    );
    log.close().unwrap();
    fs::write(path("torn").join("manifest"), "").unwrap();
    assert_eq!(refusal(Log::open(path("torn"))).kind(), ErrorKind::NotWhole);
}

/// The program under a limit on the size of files, with or without the signal.
fn limited(name: &str, blocks: u32, has_signal: bool) -> Options {
    let trap = if has_signal { "" } else { "trap '' XFSZ\n" };
    let script = format!(
        "#!/bin/sh\n{trap}ulimit -f {blocks}\nexec '{}' \"$@\"\n",
        pagedd().display()
    );
    fs::write(path(name), script).unwrap();
    fs::set_permissions(path(name), fs::Permissions::from_mode(0o700)).unwrap();
    Options::new().program(path(name))
}

fn full() {
    const FILE_TOO_LARGE: u64 = 27;
    const SIGXFSZ: i32 = 25;
    let records = [vec![0; 20_000], vec![0; 20_000]];
    let options = limited("limit", 32, false);
    let mut blob = options.open_blob(path("full")).unwrap();
    let error = blob
        .append_records_sync(&records)
        .expect_err("there is no room");
    assert_eq!(
        (error.kind(), error.status(), error.next()),
        (ErrorKind::WriteFailed, Some(2), Next::OpenAnew)
    );
    assert_eq!((error.taken(), error.errno()), (1, Some(FILE_TOO_LARGE)));
    assert!(error.words().contains("File too large"));
    assert_eq!(kind_of(blob.sync()), ErrorKind::Closed);
    let error = blob.close().expect_err("the writer was lost");
    assert!(error.kind() == ErrorKind::Closed && error.said().contains("File too large"));
    let mut log = options.open_log(path("full-log")).unwrap();
    log.append_records_sync(&["kept"]).unwrap();
    let error = log
        .append_records_sync(&records)
        .expect_err("there is no room");
    assert_eq!(
        (error.kind(), error.errno()),
        (ErrorKind::WriteFailed, Some(FILE_TOO_LARGE))
    );
    assert_eq!(kind_of(log.append(b"x")), ErrorKind::Closed);
    drop(log);
    let mut log = Log::open(path("full-log")).unwrap();
    assert_eq!(log.records().next().unwrap().unwrap().data, b"kept");
    let mut blob = limited("limit-signal", 32, true)
        .open_blob(path("full-signal"))
        .unwrap();
    let error = blob
        .append_records_sync(&records)
        .expect_err("a signal ends it");
    assert_eq!(
        (error.kind(), error.signal()),
        (ErrorKind::Ended, Some(SIGXFSZ))
    );
}

// What dies.

fn kill(process: u32) {
    let killed = Command::new("kill")
        .args(["-9", &process.to_string()])
        .status()
        .unwrap();
    assert!(killed.success());
}

fn dead_program() {
    let mut log = Log::open(path("dead")).unwrap();
    log.append(b"kept").unwrap();
    log.sync().unwrap();
    kill(log.process());
    let error = log.append(b"lost").expect_err("it was killed");
    assert_eq!(
        (error.kind(), error.signal(), error.next()),
        (ErrorKind::Ended, Some(9), Next::OpenAnew)
    );
    assert_eq!(kind_of(log.sync()), ErrorKind::SessionOver);
    assert_eq!(
        log.records().map(kind_of).collect::<Vec<_>>(),
        [ErrorKind::SessionOver]
    );
    assert_eq!(kind_of(log.close()), ErrorKind::Ended);
    let log = Log::open(path("dead")).unwrap();
    assert_eq!(log.hello().size, 1);
    kill(log.process());
    assert_eq!(log.close().expect_err("it was killed").signal(), Some(9));
}

/// A client that is this program itself, and dies without a close.
fn dead_client() {
    let died = Command::new(std::env::current_exe().unwrap())
        .arg("--die")
        .arg(path("client"))
        .status()
        .unwrap();
    assert_eq!(died.code(), None);
    let begin = Instant::now();
    let log = loop {
        match Log::open(path("client")) {
            Ok(log) => break log,
            Err(error) => assert_eq!(error.kind(), ErrorKind::Locked),
        }
        assert!(
            begin.elapsed() < Duration::from_secs(20),
            "the program goes on without its client"
        );
        thread::sleep(Duration::from_millis(10));
    };
    assert!(log.hello().size >= 1);
}

fn die(folder: &str) -> ! {
    let mut log = Log::open(folder).unwrap();
    let _other = Log::open([folder, "-other"].concat()).unwrap();
    log.append(b"synced").unwrap();
    log.sync().unwrap();
    log.append(b"not synced").unwrap();
    std::process::abort()
}

// Kills.

struct Random(u64);

impl Random {
    fn below(&mut self, limit: u64) -> u64 {
        self.0 = self
            .0
            .wrapping_mul(6_364_136_223_846_793_005)
            .wrapping_add(1_442_695_040_888_963_407);
        (self.0 >> 33) % limit
    }
}

/// A record: its number, and some bytes that follow from it.
fn numbered(number: u64) -> Vec<u8> {
    let mut bytes = number.to_le_bytes().to_vec();
    bytes.extend((0..number * 7919 % 120).map(|at| (number + at) as u8));
    bytes
}

/// What is known of the log from one start of the program to the next.
#[derive(Default)]
struct Known {
    /// The number of the next record to be appended.
    next: u64,
    /// The records before this one are durable, by an answer.
    committed: u64,
    /// The records before this one may be there.
    sent: u64,
    /// The records before this one may have been dropped.
    first: u64,
    segments: u64,
    in_appends: u64,
}

fn number_of(bytes: &[u8]) -> u64 {
    u64::from_le_bytes(bytes[..8].try_into().expect("a record has its number"))
}

impl Known {
    /// Holds the records of the log against what is known, and sets where to go on.
    fn compare(&mut self, log: &mut Log) {
        let (mut first, mut count) = (0, 0);
        for record in log.records().batch_bytes(4096) {
            let data = record.unwrap().data;
            if count == 0 {
                first = number_of(&data);
            }
            assert_eq!(
                data,
                numbered(first + count),
                "a record is missing, there twice, or another one"
            );
            count += 1;
        }
        assert_eq!((log.size().unwrap(), log.hello().size), (count, count));
        assert!(
            count > 0 || self.committed == self.first,
            "all records are gone"
        );
        assert!(
            count == 0 || first <= self.first,
            "a record is gone that wasn't dropped"
        );
        let end = if count > 0 {
            first + count
        } else {
            self.committed
        };
        assert!(
            end >= self.committed,
            "a durable record is gone: {end} of {}",
            self.committed
        );
        assert!(end <= self.sent, "a record is there that wasn't appended");
        (self.next, self.sent) = (end, end);
    }

    /// Appends until the program is gone.
    fn work(&mut self, log: &mut Log, random: &mut Random) -> Error {
        loop {
            let what = random.below(100);
            let count = if what < 40 { 1 } else { 1 + random.below(9) };
            let records: Vec<Vec<u8>> = (self.next..self.next + count).map(numbered).collect();
            self.sent = if what < 90 {
                self.next + count
            } else {
                self.next
            };
            let answered = match what {
                0..=39 => log.append(&records[0]).map(|_| ()),
                40..=59 => log.append_records(&records).map(|_| ()),
                60..=89 => log.append_records_sync(&records).map(|_| ()),
                _ => log.sync(),
            };
            if let Err(error) = answered {
                self.in_appends += u64::from(what < 90);
                return error;
            }
            self.next = self.sent;
            if what >= 60 {
                self.committed = self.next;
            }
        }
    }

    /// Drops all segments apart from the last ones, so that a scan stays short.
    fn drop_some(&mut self, log: &mut Log) {
        log.sync().unwrap();
        self.committed = self.next;
        let extent = log.extent(0, 0).unwrap();
        self.segments = extent.last + 1;
        if extent.last >= extent.first + 12 {
            log.drop_before(extent.last - 4).unwrap();
            self.first = number_of(&log.records().next().unwrap().unwrap().data);
        }
    }
}

fn number_named(name: &str, default: u64) -> u64 {
    std::env::var(name)
        .ok()
        .map_or(default, |word| word.parse().expect("a number"))
}

fn kills() {
    let (count, mut random) = (
        number_named("PAGED_KILLS", 20),
        Random(number_named("PAGED_SEED", 1)),
    );
    let options = Options::new().segment_size(3000);
    let (mut known, mut most_more) = (Known::default(), 0);
    for _ in 0..count {
        let mut log = options.open_log(path("kills")).unwrap();
        let committed = known.committed;
        known.compare(&mut log);
        most_more = most_more.max(known.next - committed);
        known.drop_some(&mut log);
        let (process, pause) = (
            log.process(),
            Duration::from_micros(100 + random.below(30_000)),
        );
        let killer = thread::spawn(move || {
            thread::sleep(pause);
            kill(process);
        });
        let error = known.work(&mut log, &mut random);
        assert_eq!((error.kind(), error.signal()), (ErrorKind::Ended, Some(9)));
        killer.join().expect("it was killed");
    }
    let mut log = options.open_log(path("kills")).unwrap();
    known.compare(&mut log);
    log.close().unwrap();
    println!(
        "{count} kills, {} of them in the midst of an append, over {} segments and {} records, and at most {most_more} records \
         more than were durable",
        known.in_appends, known.segments, known.next
    );
}

// Figures.

fn figures() {
    use std::io::{Read, Seek, Write};
    const COUNT: usize = 100_000;
    let record = vec![b'x'; 200];
    for batch in [100, 1000, 10_000] {
        let records = vec![record.as_slice(); batch];
        let joined = records.concat();
        let begin = Instant::now();
        let mut file = fs::OpenOptions::new()
            .read(true)
            .write(true)
            .create_new(true)
            .open(path("plain"))
            .unwrap();
        for _ in 0..COUNT / batch {
            file.write_all(&joined).unwrap();
            file.sync_data().unwrap();
        }
        let appended = begin.elapsed();
        file.rewind().unwrap();
        let mut found = Vec::new();
        file.read_to_end(&mut found).unwrap();
        let read = begin.elapsed() - appended;
        assert_eq!(found.len(), COUNT * record.len());
        fs::remove_file(path("plain")).unwrap();
        println!("a plain file, batches of {batch}: appended with a sync each in {appended:.3?}, read in {read:.3?}");
        let mut log = Log::open(path(&format!("figures-{batch}"))).unwrap();
        let begin = Instant::now();
        for _ in 0..COUNT / batch {
            log.append_records_sync(&records).unwrap();
        }
        let appended = begin.elapsed();
        assert_eq!(
            log.records()
                .map(|found| found.unwrap().data.len())
                .sum::<usize>(),
            found.len()
        );
        let scanned = begin.elapsed() - appended;
        let (mut place, mut count) = (Place::START, 0);
        while let Some(found) = log.next(&mut place).unwrap() {
            count += found.data.len();
        }
        let one_by_one = begin.elapsed() - appended - scanned;
        assert_eq!(count, found.len());
        println!(
            "a log, batches of {batch}: appended with a sync each in {appended:.3?}, read by its records in {scanned:.3?}, one by \
             one in {one_by_one:.3?}"
        );
    }
}

fn main() -> ExitCode {
    let words: Vec<String> = std::env::args().skip(1).collect();
    if let [first, folder] = words.as_slice() {
        if first == "--die" {
            die(folder);
        }
    }
    if std::env::var_os("PAGEDD").is_none() {
        println!("left out: PAGEDD names no program");
        return ExitCode::SUCCESS;
    }
    if std::env::var_os("PAGED_FIGURES").is_some() {
        figures();
        remove(base());
        return ExitCode::SUCCESS;
    }
    let tests: &[(&str, fn())] = &[
        ("each call of a blob, in version 1", || blob_calls(Protocol::One)),
        ("each call of a blob, in version 2", || blob_calls(Protocol::Highest)),
        ("each call of a blob that is of version 2 alone; an append and reads of 5 MiB", blob_calls_of_two),
        ("each call of a log, over several segments, and in version 1", log_calls),
        ("records of 0 and of 65,535 bytes; 65,536 are refused", lengths),
        ("Unicode names, and names with blanks; a name that isn't UTF-8 is refused", unicode),
        ("wrong options, paths that aren't there, a folder, and a text, which is emptied with cut alone", wrong_words),
        ("what another process has open is locked, and isn't after a close", locked),
        ("what is served for reading alone is read, and changes are refused", read_only),
        (
            "a file and a folder that may not be written: refused, and served for reading alone",
            protected_file,
        ),
        ("a rotten page of a closed segment: the records in it alone are lost", rotten),
        ("a torn end is cut, and the hello says so; a log without its manifest is refused", torn),
        ("a full disk, and a signal by ulimit -f; what was synced is kept", full),
        ("a killed program is lost at once; what was synced is there when it is opened again", dead_program),
        ("a client that dies takes its programs with it, and what was synced is kept", dead_client),
        ("kills: each durable record is there, in order and once", kills),
    ];
    play(
        tests,
        words
            .first()
            .filter(|word| !word.starts_with('-'))
            .map(String::as_str),
    );
    remove(base());
    ExitCode::SUCCESS
}
