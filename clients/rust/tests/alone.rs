//! Tests that need no pagedd: the bytes of each side are written by hand, by docs/PROTOCOL.md,
//! in a script that this program plays when it is started as `serve PATH`.
//!
//! Lines of a script: `> HEX` writes bytes, `< HEX` reads bytes and compares them, `! WORDS` writes
//! a line to standard error, `x N` ends with that exit status, `k` by a signal, `z` never, `b` ends
//! with 2 unless the next byte is 1 (as a program of version 1 alone does), `e N` writes N bytes to
//! standard error, `w WORD` compares the next word of the command line. In HEX a blank says
//! nothing, and `..` is seven bytes 00.

mod common;

use std::io::{self, Read, Write};
use std::path::PathBuf;
use std::process::{Command, ExitCode};
use std::time::{Duration, Instant};

use common::{play, remove, room};
use paged::{Blob, Closed, Error, ErrorKind, Frame, Log, Next, Options, Passed, Place, Protocol};

fn bytes_of(hex: &str) -> Vec<u8> {
    let mut found = Vec::new();
    let hex: Vec<char> = hex
        .chars()
        .filter(|letter| !letter.is_whitespace())
        .collect();
    for two in hex.chunks(2) {
        let two: String = two.iter().collect();
        if two == ".." {
            found.extend([0; 7]);
        } else {
            found.push(u8::from_str_radix(&two, 16).expect("two letters of HEX"));
        }
    }
    found
}

fn say(bytes: &[u8]) {
    let mut out = io::stdout().lock();
    // (the other side may be gone, which isn't this side's fault)
    let _ = out.write_all(bytes).and_then(|()| out.flush());
}

fn play_script(words: &[String]) -> u8 {
    let script = std::fs::read_to_string(words.last().expect("a path")).expect("a script");
    let mut next_word = words.iter();
    for (number, line) in script.lines().enumerate() {
        let rest = line.get(2..).unwrap_or("");
        match line.get(..1).unwrap_or("") {
            ">" => say(&bytes_of(rest)),
            "<" => {
                let wanted = bytes_of(rest);
                let mut found = Vec::new();
                let _ = io::stdin()
                    .lock()
                    .take(wanted.len() as u64)
                    .read_to_end(&mut found);
                if found != wanted {
                    eprintln!(
                        "line {} of the script: it was sent {found:02x?}",
                        number + 1
                    );
                    return 99;
                }
            }
            "!" => eprintln!("{rest}"),
            "x" => return rest.parse().expect("an exit status"),
            "k" => {
                let _ = Command::new("kill")
                    .args(["-9", &std::process::id().to_string()])
                    .status();
            }
            "z" => loop {
                std::thread::sleep(Duration::from_secs(1));
            },
            "b" => {
                let mut first = [0];
                if io::stdin().lock().read_exact(&mut first).is_err() || first != [1] {
                    return 2;
                }
            }
            "e" => {
                let _ = io::stderr().write_all(&vec![b'e'; rest.parse().expect("a number")]);
            }
            "w" => {
                let word = next_word.next().expect("a word");
                if word != rest {
                    eprintln!("line {} of the script: the word is {word}", number + 1);
                    return 99;
                }
            }
            _ => {}
        }
    }
    0
}

const GREETING: &str = "> 01 09 00 00 00 00 00..\n";
const OFFER: &str = "< 02 02 01 02\n";
const HELLO: &str = "\
> 59 00 00 00 00 02 00 00.. f4 0f 00 00 00 00 00 00 fe ff ff ff 00 00 00 00 fe ff ff ff 00 00 00 00
> ff ff ff 0f 00 00 00 00 fe ff ff 1f 00 00 00 00 00.. 00.. 06.. 63 72 63 33 32 63 00..
";
const LOG_HELLO: &str = "\
> 70 00 00 00 00 02 00 00.. f4 0f 00 00 00 00 00 00 fe ff ff ff 00 00 00 00 fe ff ff ff 00 00 00 00
> ff ff 00 00 00 00 00 00 ff ff ff 0f 00 00 00 00 00.. 00.. 06.. 63 72 63 33 32 63 00..
> 0f.. 01 02 05 06 07 10 11 12 15 19 1b 1c 1d 1e 1f
";
const CLOSED: &str = "< 01 00 00 00 10\nx 0\n";

/// A program that plays a script, in a folder of its own.
struct Recorded {
    room: PathBuf,
    options: Options,
}

impl Recorded {
    fn new(script: &str) -> Recorded {
        let room = room("script");
        std::fs::write(room.join("script"), script).expect("a script is written");
        let program = std::env::current_exe().expect("this program has a path");
        Recorded {
            room,
            options: Options::new().program(program),
        }
    }

    fn blob(&self) -> Result<Blob, Error> {
        self.options.open_blob(self.room.join("script"))
    }

    fn log(&self) -> Result<Log, Error> {
        self.options.open_log(self.room.join("script"))
    }
}

impl Drop for Recorded {
    fn drop(&mut self) {
        remove(&self.room);
    }
}

/// Opens a blob of version 2 whose program answers so then.
fn blob_of(script: &str) -> Blob {
    Recorded::new(&[GREETING, OFFER, HELLO, script].concat())
        .blob()
        .expect("it opens")
}

fn log_of(script: &str) -> Log {
    Recorded::new(&[GREETING, OFFER, LOG_HELLO, script].concat())
        .log()
        .expect("it opens")
}

fn open(script: &str, protocol: Protocol) -> Result<Blob, Error> {
    let mut recorded = Recorded::new(script);
    recorded.options = recorded.options.clone().protocol(protocol);
    recorded.blob()
}

fn kind_of<T: std::fmt::Debug>(answered: Result<T, Error>) -> ErrorKind {
    answered.expect_err("it is refused").kind()
}

fn opening(script: &str) -> Error {
    match open(script, Protocol::Highest) {
        Ok(_) => panic!("it opens: {script}"),
        Err(error) => error,
    }
}

fn page_blob_one() {
    let script = "< 01
< 06 00 00 00 01 68 65 6c 6c 6f\n> 09 00 00 00 00 00..
< 01 00 00 00 02\n> 01 00 00 00 00
< 11 00 00 00 06 00.. 05..\n> 06 00 00 00 00 68 65 6c 6c 6f
";
    let mut blob = open(&[GREETING, script, CLOSED].concat(), Protocol::One).expect("it opens");
    assert_eq!((blob.hello().version, blob.hello().size), (1, 0));
    assert_eq!(blob.append(b"hello").unwrap(), 0);
    blob.sync().unwrap();
    assert_eq!(blob.read_at(0, 5).unwrap(), b"hello");
    blob.close().unwrap();
}

fn page_blob_two() {
    let mut blob = blob_of(
        &[
            "< 16 00 00 00 12 03 00 00 00 02 00 00 00 00 00 00 00 03 00 00 00 61 62 63 64 65
> 19 00 00 00 00 00.. 02.. 02..
< 21 00 00 00 14 00.. 02.. 02.. 03..\n> 0e 00 00 00 00 02.. 61 62 63 64 65
< 01 00 00 00 0a\n> 09 00 00 00 00 00..
< 09 00 00 00 17 00..\n> 12 00 00 00 14 00 00.. 00..
",
            CLOSED,
        ]
        .concat(),
    );
    let hello = blob.hello().clone();
    assert_eq!(
        (hello.version, hello.read_only, hello.size, hello.page_size),
        (2, false, 0, 4084)
    );
    assert_eq!(
        (hello.most_payload, hello.most_fields),
        (4_294_967_294, 4_294_967_294)
    );
    assert_eq!(
        (hello.most_ranges, hello.most_record, hello.most_records),
        (268_435_455, 0, 536_870_910)
    );
    assert_eq!(
        (hello.cut, hello.given_up, &*hello.checksum, hello.copy),
        (0, 0, "crc32c", None)
    );
    assert_eq!(
        blob.append_records_sync(&["ab", "", "cde"]).unwrap(),
        [0, 2, 2]
    );
    let mut bytes = [0; 5];
    assert_eq!(
        blob.read_ranges_into(&mut bytes, &[(0, 2), (2, 3)])
            .unwrap(),
        2
    );
    assert_eq!(&bytes, b"abcde");
    // (the page lets go of a snapshot that isn't there; so here the program forgets one that it
    // made)
    let snapshot = blob.snapshot().unwrap();
    let error = snapshot.close(&mut blob).expect_err("it isn't there");
    assert_eq!(
        (error.kind(), error.status(), error.next()),
        (ErrorKind::UnknownNumber, Some(20), Next::AskElse)
    );
    assert_eq!((error.taken(), error.errno(), error.words()), (0, None, ""));
    blob.close().unwrap();
}

fn page_worked() {
    let mut blob = blob_of(
        "< 10 00 00 00 11 02 00 00 00 02 00 00 00 01 00 00 00 61 62 63\n> 11 00 00 00 00 06.. 08..
< 0a 00 00 00 12 01 00 00 00 01 00 00 00 64\n> 09 00 00 00 00 09..
< 0a 00 00 00 13 01 00 00 00 01 00 00 00 65\n> 12 00 00 00 00 0a.. 01 00..
< 11 00 00 00 14 01.. 02..\n> 0b 00 00 00 00 01.. 62 63
< 01 00 00 00 15\n> 09 00 00 00 00 0b..
< 01 00 00 00 16\n> 09 00 00 00 00 0b..
< 01 00 00 00 0a\n> 09 00 00 00 00 00..
< 09 00 00 00 17 00..\n> 01 00 00 00 00
< 09 00 00 00 0c 01..\n> 09 00 00 00 00 00..
< 09 00 00 00 18 00..\n> 01 00 00 00 00
< 01 00 00 00 19\n> 01 00 00 00 00
< 01 00 00 00 1a\n> 11 00 00 00 00 00.. 00..
< 0a 00 00 00 12 01 00 00 00 01 00 00 00 66\n> 16 00 00 00 02 02 01.. 1c.. 66 75 6c 6c
< 01 00 00 00 10\nx 1
",
    );
    assert_eq!(blob.append_records(&["ab", "c"]).unwrap(), [6, 8]);
    assert_eq!(blob.append_records_sync(&["d"]).unwrap(), [9]);
    let (offsets, started) = blob.append_records_start(&["e"]).unwrap();
    assert!(offsets == [10] && started.is_some());
    let mut bytes = [0; 2];
    assert_eq!(blob.read_many_into(&mut bytes, &[1], 2).unwrap(), 1);
    assert_eq!(&bytes, b"bc");
    assert_eq!(blob.sync_size().unwrap(), 11);
    assert_eq!(blob.recoverable_prefix_len().unwrap(), 11);
    let snapshot = blob.snapshot().unwrap();
    snapshot.close(&mut blob).unwrap();
    let replay = blob.replay(1).unwrap();
    replay.close(&mut blob).unwrap();
    blob.flush().unwrap();
    assert_eq!(blob.count_open().unwrap(), (0, 0));
    let error = blob
        .append_records_sync(&["f"])
        .expect_err("the disk is full");
    assert_eq!(
        (error.kind(), error.status(), error.next()),
        (ErrorKind::WriteFailed, Some(2), Next::OpenAnew)
    );
    assert_eq!(
        (error.taken(), error.errno(), error.words()),
        (1, Some(28), "full")
    );
    let error = blob.close().expect_err("the writer was lost");
    assert_eq!(
        (error.kind(), error.exit_status()),
        (ErrorKind::Closed, Some(1))
    );
}

fn page_log_one() {
    let script = "< 01
< 06 00 00 00 01 68 65 6c 6c 6f\n> 11 00 00 00 00 00.. 00..
< 01 00 00 00 02\n> 01 00 00 00 00
< 11 00 00 00 06 00.. 00..\n> 0f 00 00 00 00 0c.. 01 68 65 6c 6c 6f
< 11 00 00 00 07 00.. 00..\n> 26 00 00 00 00 00.. 00.. 00.. 0c.. 68 65 6c 6c 6f
< 11 00 00 00 07 00.. 0c..\n> 01 00 00 00 06
";
    let mut recorded = Recorded::new(&[GREETING, script, CLOSED].concat());
    recorded.options = recorded.options.clone().protocol(Protocol::One);
    let mut log = recorded.log().expect("it opens");
    let mut place = log.append(b"hello").unwrap();
    assert_eq!(place, Place::START);
    log.sync().unwrap();
    let behind = Place {
        segment: 0,
        offset: 12,
    };
    assert_eq!(
        log.read(place).unwrap(),
        Frame {
            data: Some(b"hello".to_vec()),
            behind
        }
    );
    let record = log.next(&mut place).unwrap().expect("a record");
    assert_eq!(
        (&*record.data, record.place, place),
        (&b"hello"[..], Place::START, behind)
    );
    assert_eq!(log.next(&mut place).unwrap(), None);
    assert_eq!(kind_of(log.append_records(&["x"])), ErrorKind::Unsupported);
    assert_eq!(kind_of(log.nth(0, 0)), ErrorKind::Unsupported);
    log.close().unwrap();
}

fn page_log_two() {
    let mut log = log_of(
        &[
            "< 16 00 00 00 12 03 00 00 00 02 00 00 00 00 00 00 00 03 00 00 00 61 62 63 64 65
> 31 00 00 00 00 00.. 00.. 00.. 09.. 00.. 10..
< 11 00 00 00 07 00.. 00..\n> 23 00 00 00 00 00.. 00.. 00.. 09.. 61 62
< 19 00 00 00 1d 00.. 00.. 30..
> 43 00 00 00 00 00.. 10.. 02.. 00.. 00.. 02 00 00 00 00.. 09.. 00 00 00 00 61 62
< 11 00 00 00 1c 00.. ff ff ff ff ff ff ff ff\n> 31 00 00 00 00 00.. 00.. 1a.. 03.. 00.. 00..
< 09 00 00 00 1b 05..\n> 12 00 00 00 26 00 00.. 00..
",
            CLOSED,
        ]
        .concat(),
    );
    assert_eq!(
        (log.hello().most_record, log.hello().kinds.len()),
        (65_535, 15)
    );
    let places = log.append_records_sync(&["ab", "", "cde"]).unwrap();
    assert_eq!(
        places.iter().map(|place| place.offset).collect::<Vec<_>>(),
        [0, 9, 16]
    );
    let mut place = Place::START;
    assert_eq!(log.next(&mut place).unwrap().expect("a record").data, b"ab");
    assert_eq!(place.offset, 9);
    place = Place::START;
    let batch = log.next_many(&mut place, 48).unwrap();
    let found: Vec<(u64, &[u8])> = batch
        .iter()
        .map(|(place, data)| (place.offset, data))
        .collect();
    assert_eq!((found, place.offset), (vec![(0, &b"ab"[..]), (9, b"")], 16));
    let extent = log.extent(0, u64::MAX).unwrap();
    assert_eq!(
        (extent.first, extent.last, extent.end.offset, extent.records),
        (0, 0, 26, 3)
    );
    assert!(extent.closed.is_empty());
    let error = log.drop_before(5).expect_err("it isn't there");
    assert_eq!(
        (error.kind(), error.status(), error.next()),
        (ErrorKind::NoSegment, Some(38), Next::AskElse)
    );
    log.close().unwrap();
}

fn other_requests() {
    let mut blob = blob_of(
        &[
            "< 01 00 00 00 03\n> 0a 00 00 00 00 01 07..
< 09 00 00 00 04 07..\n> 01 00 00 00 00
< 01 00 00 00 03\n> 02 00 00 00 00 00
< 01 00 00 00 05\n> 09 00 00 00 00 03..
< 11 00 00 00 07 01.. 08..\n> 03 00 00 00 00 62 63
< 09 00 00 00 09 02..\n> 09 00 00 00 00 02..
< 01 00 00 00 08\n> 01 00 00 00 00
< 01 00 00 00 0a\n> 09 00 00 00 00 05..
< 19 00 00 00 0b 05.. 01.. 01..\n> 02 00 00 00 00 62
< 09 00 00 00 0c 40..\n> 09 00 00 00 00 04..
< 11 00 00 00 0d 04.. 08..\n> 02 00 00 00 00 00
< 11 00 00 00 0e 04.. 08..\n> 03 00 00 00 00 61 62
< 11 00 00 00 0f 04.. 00..\n> 01 00 00 00 00
",
            CLOSED,
        ]
        .concat(),
    );
    let started = blob.start_sync().unwrap().expect("one is pending");
    blob.wait_for_sync(started).unwrap();
    assert_eq!(blob.start_sync().unwrap(), None);
    assert_eq!(blob.size().unwrap(), 3);
    assert_eq!(blob.read_up_to(1, 8).unwrap(), b"bc");
    assert_eq!(blob.truncate(2).unwrap(), 2);
    blob.begin().unwrap();
    let snapshot = blob.snapshot().unwrap();
    let mut byte = [0];
    snapshot.read_into(&mut blob, &mut byte, 1).unwrap();
    assert_eq!(byte, *b"b");
    let replay = blob.replay(64).unwrap();
    assert!(!replay.ensure(&mut blob, 8).unwrap());
    assert_eq!(replay.take(&mut blob, 8).unwrap(), b"ab");
    replay.seek_to(&mut blob, 0).unwrap();
    blob.close().unwrap();
}

fn log_requests() {
    let mut log = log_of(
        &[
            "< 0a 00 00 00 11 01 00 00 00 01 00 00 00 78\n> 11 00 00 00 00 03.. 08..
< 01 00 00 00 15\n> 09 00 00 00 00 02..
< 01 00 00 00 05\n> 09 00 00 00 00 02..
< 01 00 00 00 19\n> 01 00 00 00 00
< 11 00 00 00 06 03.. 00.. 11 00 00 00 06 03.. 08..
> 0b 00 00 00 00 08.. 01 79 0a 00 00 00 00 10.. 00
< 11 00 00 00 1e 03.. 01..\n> 11 00 00 00 00 03.. 08..
< 11 00 00 00 1e 03.. 09..\n> 12 00 00 00 06 00 00.. 00..
< 11 00 00 00 1f 02.. 07..\n> 21 00 00 00 00 03.. 00.. 64.. 09..
< 11 00 00 00 1f 02.. 07..\n> 21 00 00 00 00 03.. 00.. 64.. ff ff ff ff ff ff ff ff
< 11 00 00 00 1c 00.. 09..\n> 42 00 00 00 00 01.. 03.. 10.. 02.. 01.. 01.. 05.. 32.. 00
< 11 00 00 00 1c 02.. 09..\n> 42 00 00 00 00 01.. 03.. 10.. 02.. 02.. 01.. 06.. 33.. 01
",
            CLOSED,
        ]
        .concat(),
    );
    let at = |segment, offset| Place { segment, offset };
    assert_eq!(log.append_records(&["x"]).unwrap(), [at(3, 8)]);
    assert_eq!(log.sync_size().unwrap(), 2);
    assert_eq!(log.size().unwrap(), 2);
    log.flush().unwrap();
    let frames = log.read_many(&[at(3, 0), at(3, 8)]).unwrap();
    assert_eq!(
        frames[0],
        Frame {
            data: Some(b"y".to_vec()),
            behind: at(3, 8)
        }
    );
    assert_eq!(
        frames[1],
        Frame {
            data: None,
            behind: at(3, 16)
        }
    );
    assert_eq!(log.nth(3, 1).unwrap(), Some(at(3, 8)));
    assert_eq!(log.nth(3, 9).unwrap(), None);
    let passed = Passed {
        place: at(3, 0),
        bytes: 100,
        records: Some(9),
    };
    assert_eq!(log.pass_damage(at(2, 7)).unwrap(), passed);
    assert_eq!(log.pass_damage(at(2, 7)).unwrap().records, None);
    let extent = log.extent(0, 9).unwrap();
    assert_eq!(
        (extent.first, extent.last, extent.end, extent.records),
        (1, 3, at(3, 16), 2)
    );
    let closed = [
        Closed {
            segment: 1,
            records: 5,
            bytes: 50,
            of_file: false,
        },
        Closed {
            segment: 2,
            records: 6,
            bytes: 51,
            of_file: true,
        },
    ];
    assert_eq!(extent.closed, closed);
    log.close().unwrap();
}

fn versions() {
    let sync = "< 01 00 00 00 02\n> 01 00 00 00 00\n";
    let mut blob =
        open(&[GREETING, "b\n", sync, CLOSED].concat(), Protocol::Highest).expect("it opens");
    assert_eq!(blob.hello().version, 1);
    blob.sync().unwrap();
    let error = blob
        .recoverable_prefix_len()
        .expect_err("version 1 has no such request");
    assert_eq!(
        (error.kind(), error.status()),
        (ErrorKind::Unsupported, None)
    );
    blob.close().unwrap();
    let error = open(&[GREETING, "b\n"].concat(), Protocol::Two)
        .err()
        .expect("it has no version 2");
    assert_eq!(
        (error.kind(), error.exit_status()),
        (ErrorKind::NoVersion, Some(2))
    );
    let blob = open(
        &[GREETING, OFFER, "> 02 00 00 00 00 01\n", CLOSED].concat(),
        Protocol::Highest,
    )
    .expect("it opens");
    assert_eq!(blob.hello().version, 1);
    blob.close().unwrap();
    let script = [GREETING, "< 02 01 02\n> 03 00 00 00 18 01 03\nx 2\n"].concat();
    let error = open(&script, Protocol::Two)
        .err()
        .expect("it has no version 2");
    assert_eq!(
        (error.kind(), error.status()),
        (ErrorKind::NoVersion, Some(24))
    );
    assert_eq!(
        opening(&[GREETING, OFFER, "> 02 00 00 00 00 03\nz\n"].concat()).kind(),
        ErrorKind::BadAnswer
    );
}

fn other_hellos() {
    // The hello of a program before version 0.12 ends before the kinds.
    let hello = LOG_HELLO
        .replace("> 70", "> 59")
        .replace("> 0f.. 01 02 05 06 07 10 11 12 15 19 1b 1c 1d 1e 1f\n", "");
    let script = "< 11 00 00 00 07 00.. 00..\n> 22 00 00 00 00 00.. 00.. 00.. 08.. 78
< 11 00 00 00 07 00.. 08..\n> 12 00 00 00 06 00 00.. 00..
";
    let mut log = Recorded::new(&[GREETING, OFFER, &hello, script, CLOSED].concat())
        .log()
        .expect("it opens");
    assert_eq!(kind_of(log.extent(0, 1)), ErrorKind::Unsupported);
    let records: Vec<_> = log
        .records()
        .map(|record| record.expect("it is read").data)
        .collect();
    assert_eq!(records, [b"x"]);
    log.close().unwrap();
    // A later one may have more at its end.
    let hello = "\
> 5b 00 00 00 00 02 01 03.. f4 0f 00 00 00 00 00 00 fe ff ff ff 00 00 00 00 fe ff ff ff 00 00 00 00
> ff ff ff 0f 00 00 00 00 fe ff ff 1f 00 00 00 00 07.. 08.. 03.. 61 64 64 05.. 66 2e 63 2d 31 aa bb
";
    let blob = Recorded::new(&[GREETING, OFFER, hello, CLOSED].concat())
        .blob()
        .expect("it opens");
    let hello = blob.hello();
    assert_eq!(
        (hello.read_only, hello.size, hello.cut, hello.given_up),
        (true, 3, 7, 8)
    );
    assert_eq!(
        (&*hello.checksum, hello.copy.as_deref()),
        ("add", Some("f.c-1".as_ref()))
    );
    blob.close().unwrap();
}

fn refusals() {
    let statuses = (1..10).chain(16..25).chain(32..46);
    let mut kinds = Vec::new();
    for status in statuses {
        for version in [1, 2] {
            let (front, len, rest) = match version {
                1 => ([GREETING, "< 01\n"].concat(), "01", ""),
                _ => (
                    [GREETING, "< 02 01 02\n", HELLO].concat(),
                    "16",
                    "03 05.. 1c.. 77 6f 72 64",
                ),
            };
            let script =
                format!("{front}< 01 00 00 00 02\n> {len} 00 00 00 {status:02x} {rest}\n{CLOSED}");
            let protocol = if version == 1 {
                Protocol::One
            } else {
                Protocol::Two
            };
            let mut blob = open(&script, protocol).expect("it opens");
            let error = blob.sync().expect_err("it is refused");
            assert_eq!(
                (error.status(), error.exit_status(), error.signal()),
                (Some(status), None, None)
            );
            let wanted = if version == 1 {
                (Next::Unknown, 0, None, "")
            } else {
                (Next::ReplaceFile, 5, Some(28), "word")
            };
            assert_eq!(
                (error.next(), error.taken(), error.errno(), error.words()),
                wanted
            );
            assert!(error.to_string().contains(&format!("status {status}")));
            if version == 1 {
                kinds.push(error.kind());
            }
            blob.close().unwrap();
        }
    }
    assert!(!kinds.contains(&ErrorKind::UnknownStatus) && kinds.len() == 32);
    kinds.dedup();
    assert_eq!(kinds.len(), 32);
    let mut blob = blob_of(&["< 01 00 00 00 02\n> 12 00 00 00 63 09 00.. 00..\n", CLOSED].concat());
    let error = blob.sync().expect_err("it is refused");
    assert_eq!(
        (error.kind(), error.status(), error.next()),
        (ErrorKind::UnknownStatus, Some(99), Next::Unknown)
    );
}

fn failed_sync() {
    let script = "< 01 00 00 00 02\n> 12 00 00 00 04 03 00.. 00..\n! pagedd: f: SyncFailed\nx 1\n";
    let mut blob = blob_of(script);
    assert_eq!(kind_of(blob.sync()), ErrorKind::SyncFailed);
    let error = blob.sync().expect_err("it ended");
    assert_eq!(
        (error.kind(), error.next(), error.exit_status()),
        (ErrorKind::Ended, Next::ReplaceFile, Some(1))
    );
    assert_eq!(error.said(), "pagedd: f: SyncFailed\n");
    assert_eq!(kind_of(blob.sync()), ErrorKind::SessionOver);
    let error = blob.close().expect_err("it ended");
    assert_eq!(
        (error.kind(), error.next()),
        (ErrorKind::Ended, Next::ReplaceFile)
    );
}

fn lost_opening() {
    let error = Options::new()
        .program("/nowhere/pagedd")
        .open_blob("f")
        .err()
        .expect("there is no such program");
    assert_eq!(
        (error.kind(), error.errno(), error.next()),
        (ErrorKind::NotStarted, Some(2), Next::MendFirst)
    );
    let printed = format!("{error:?}");
    for words in [
        "NotStarted: ",
        "/nowhere/pagedd",
        "PAGEDD",
        "errno 2",
        "next: mend",
    ] {
        assert!(printed.contains(words), "{printed} lacks {words}");
    }
    for (script, kind, exit_status) in [
        ("x 127\n", ErrorKind::NotStarted, 127),
        (
            "! pagedd: f: no such folder\nx 1\n",
            ErrorKind::NotOpened,
            1,
        ),
        (
            "! pagedd: f: another process has it open: end that one first\nx 1\n",
            ErrorKind::Locked,
            1,
        ),
        (
            "! pagedd: f: nothing was cut\nx 3\n",
            ErrorKind::NotWhole,
            3,
        ),
    ] {
        let error = opening(script);
        assert_eq!(
            (error.kind(), error.exit_status(), error.next()),
            (kind, Some(exit_status), Next::MendFirst)
        );
        let line = script
            .lines()
            .next()
            .and_then(|line| line.strip_prefix("! "))
            .unwrap_or("");
        assert_eq!(error.said().trim_end(), line);
    }
    assert_eq!(
        (opening("x 5\n").kind(), opening("x 5\n").next()),
        (ErrorKind::Ended, Next::OpenAnew)
    );
    assert_eq!(
        (opening("k\n").kind(), opening("k\n").signal()),
        (ErrorKind::Ended, Some(9))
    );
    let error = opening("> 01 01 00 00 00 01\n! pagedd: f: input/output error\nx 1\n");
    assert_eq!(
        (error.kind(), error.status(), error.exit_status()),
        (ErrorKind::ReadFailed, Some(1), Some(1))
    );
    assert!(error.next() == Next::MendFirst && error.said().contains("input/output"));
    assert_eq!(
        opening("> 01 01 00 00 00 04\nx 1\n").next(),
        Next::ReplaceFile
    );
}

fn cut_answers() {
    for count in 0..13 {
        let answer = &"09000000000000000000000000"[..2 * count];
        let mut blob = blob_of(&format!("< 02 00 00 00 01 61\n> {answer}\nx 7\n"));
        let error = blob.append(b"a").expect_err("it ended");
        assert_eq!(
            (error.kind(), error.exit_status(), error.next()),
            (ErrorKind::Ended, Some(7), Next::OpenAnew)
        );
        assert!(error.words().contains(if count > 0 {
            "in the midst"
        } else {
            "in place"
        }));
        assert_eq!(kind_of(blob.append(b"a")), ErrorKind::SessionOver);
        assert_eq!(kind_of(blob.close()), ErrorKind::Ended);
    }
    for count in 0..14 {
        let error = opening(&format!(
            "> {}\nk\n",
            &"0109000000000000000000000000"[..2 * count]
        ));
        assert_eq!((error.kind(), error.signal()), (ErrorKind::Ended, Some(9)));
    }
    let hello: String = HELLO.lines().map(|line| &line[2..]).collect();
    let hello = bytes_of(&hello);
    assert_eq!(hello.len(), 93);
    for count in 0..93 {
        let cut: String = hello[..count]
            .iter()
            .map(|byte| format!("{byte:02x}"))
            .collect();
        let error = opening(&format!("{GREETING}{OFFER}> {cut}\nx 1\n"));
        assert_eq!(
            (error.kind(), error.exit_status()),
            (ErrorKind::NotOpened, Some(1))
        );
    }
}

fn wrong_openings() {
    let long = HELLO.replace("06.. 63", "07.. 63");
    let endless = HELLO.replace("06.. 63", "ff ff ff ff ff ff ff ff 63");
    for script in [
        "> 02\nz\n".to_string(),
        "> 48 65 6c 6c 6f\nz\n".into(),
        "> 01 0a 00 00 00 00 00.. 00\nz\n".into(),
        "> 01 02 00 00 00 01 00\nz\n".into(),
        [GREETING, OFFER, "> 02 00 00 00 00 02\nz\n"].concat(),
        [GREETING, OFFER, "> ff ff ff ff 00 02\nz\n"].concat(),
        [GREETING, OFFER, &long, "z\n"].concat(),
        [GREETING, OFFER, &endless, "z\n"].concat(),
    ] {
        assert_eq!(opening(&script).kind(), ErrorKind::BadAnswer, "{script}");
    }
}

/// Plays an answer that can't be to a call, and expects that the call says so, and that the session
/// is over then.
fn is_bad<T: std::fmt::Debug>(answer: &str, call: impl FnOnce(&mut Blob) -> Result<T, Error>) {
    let mut blob = blob_of(&format!("{answer}\nz\n"));
    assert_eq!(kind_of(call(&mut blob)), ErrorKind::BadAnswer, "{answer}");
    assert_eq!(kind_of(blob.sync()), ErrorKind::SessionOver);
    assert_eq!(kind_of(blob.close()), ErrorKind::BadAnswer);
}

fn wrong_answers() {
    for answer in [
        "> 00 00 00 00",
        "> ff ff ff ff 00",
        "> 02 00 00 00 00 00",
        "> 02 00 00 00 02 00",
        "> 13 01 00 00 02",
        "> 09 00 00 00 02 00..",
    ] {
        is_bad(answer, Blob::sync);
    }
    is_bad("> 08 00 00 00 00 00..", |blob| blob.append(b"x"));
    for answer in [
        "> 03 00 00 00 00 01 00",
        "> 0a 00 00 00 00 00 00..",
        "> 02 00 00 00 00 01",
        "> 02 00 00 00 00 05",
    ] {
        is_bad(answer, Blob::start_sync);
    }
    is_bad("> 06 00 00 00 00 61 62 63 64 65", |blob| blob.read_at(0, 4));
    is_bad("> 06 00 00 00 00 61 62 63 64 65", |blob| {
        blob.read_into(&mut [0; 4], 0)
    });
    is_bad("> 06 00 00 00 00 61 62 63 64 65", |blob| {
        blob.read_up_to(0, 4)
    });
    is_bad("> ff ff ff ff 00", |blob| blob.read_up_to(0, 4));
    is_bad("> 01 00 00 00 00", |blob| blob.append_records(&["x"]));
    is_bad("> 09 00 00 00 00 00..", |blob| {
        blob.append_records_start(&["x"])
    });
    is_bad("> 01 00 00 00 00", |blob| blob.append_records_start(&["x"]));
    is_bad("> 0b 00 00 00 00 00.. 61 62", |blob| {
        blob.read_ranges_into(&mut [0], &[(0, 1)])
    });
    is_bad("> 09 00 00 00 00 00..", Blob::count_open);
    is_bad("> 09 00 00 00 00 00.. 02 00 00 00 00 07", |blob| {
        let replay = blob.replay(1)?;
        replay.ensure(blob, 1)
    });
    is_bad("> 09 00 00 00 00 00.. 03 00 00 00 00 61 62", |blob| {
        let replay = blob.replay(1)?;
        replay.take(blob, 1)
    });
}

fn is_bad_log<T: std::fmt::Debug>(answer: &str, call: impl FnOnce(&mut Log) -> Result<T, Error>) {
    let mut log = log_of(&format!("{answer}\nz\n"));
    assert_eq!(kind_of(call(&mut log)), ErrorKind::BadAnswer, "{answer}");
    assert_eq!(
        kind_of(log.read_many(&[Place::START])),
        ErrorKind::SessionOver
    );
    assert_eq!(kind_of(log.close()), ErrorKind::BadAnswer);
}

fn wrong_log_answers() {
    let at = Place {
        segment: 0,
        offset: 5,
    };
    is_bad_log("> 09 00 00 00 00 00..", |log| log.append(b"x"));
    is_bad_log("> 01 00 00 00 00", |log| log.append_records(&["x"]));
    for answer in [
        "> 09 00 00 00 00 00..",
        "> 0a 00 00 00 00 0c.. 02",
        "> 0b 00 00 00 00 0c.. 00 61",
        "> 0a 00 01 00 00 0c.. 01",
        "> ff ff ff ff 00 0c.. 01",
    ] {
        is_bad_log(answer, |log| log.read(at));
    }
    for answer in [
        "> 20 00 00 00 00 00.. 00.. 00.. 09..",
        "> 22 00 00 00 00 00.. 05.. 00.. 05.. 61",
        "> 22 00 00 00 00 00.. 04.. 00.. 0c.. 61",
    ] {
        is_bad_log(answer, |log| log.next(&mut at.clone()));
    }
    // No record, more than fit, lengths that don't add up, places that go back.
    for answer in ["> 19 00 00 00 00 00.. 10.. 00..", "> 2d 00 00 00 00 00.. 0c.. 00.. 00.. 05.. 00 00 00 00",
        "> 2d 00 00 00 00 00.. 0c.. ff ff ff ff ff ff ff ff 00.. 05.. 00 00 00 00",
        "> 2d 00 00 00 00 00.. 0c.. 02.. 00.. 05.. 00 00 00 00", "> 2d 00 00 00 00 00.. 0d.. 01.. 00.. 05.. 01 00 00 00",
        "> 2e 00 00 00 00 00.. 0d.. 01.. 00.. 05.. ff ff ff ff 61",
        "> 2e 00 00 00 00 00.. 0d.. 01.. 00.. 04.. 01 00 00 00 61",
        "> 2e 00 00 00 00 00.. 0c.. 01.. 00.. 05.. 01 00 00 00 61",
        "> 2d 00 00 00 00 ff ff ff ff ff ff ff ff 0c.. 01.. 00.. ff ff ff ff ff ff ff ff 00 00 00 00", "> ff ff ff ff 00"]
    {
        is_bad_log(answer, |log| log.next_many(&mut at.clone(), 9));
    }
    // A length that isn't of segments, another count, segments that weren't asked for, a log that
    // ends before it begins.
    for answer in [
        "> 30 00 00 00 00 00.. 00.. 00.. 00.. 00.. 00 00 00 00 00 00 00",
        "> 31 00 00 00 00 00.. 00.. 00.. 00.. 00.. 01..",
        "> 42 00 00 00 00 00.. 01.. 00.. 00.. 01.. 01.. 00.. 00.. 00",
        "> 42 00 00 00 00 00.. 05.. 00.. 00.. 00.. 01.. 00.. 00.. 00",
        "> 31 00 00 00 00 02.. 01.. 00.. 00.. 00.. 00..",
    ] {
        is_bad_log(answer, |log| log.extent(1, 9));
    }
    is_bad_log("> 09 00 00 00 00 00..", |log| log.nth(0, 0));
    is_bad_log("> 21 00 00 00 00 00.. 04.. 00.. 00..", |log| {
        log.pass_damage(at)
    });
    // An iterator ends behind its error.
    let mut log = log_of("> 09 00 00 00 00 00..\nz\n");
    let found: Vec<_> = log
        .records()
        .map(|record| record.map_err(|error| error.kind()))
        .collect();
    assert_eq!(found, [Err(ErrorKind::BadAnswer)]);
}

/// Frames of random bytes, most of which begin as an answer does, and then the end.
fn random_frames(state: &mut u32) -> String {
    let mut next = || {
        *state = state.wrapping_mul(1_664_525).wrapping_add(1_013_904_223);
        *state
    };
    let mut script = String::new();
    for _ in 0..12 {
        let size = next() >> 8 & 63;
        let status = if next() >> 28 == 0 { 20 } else { 0 };
        script += &format!("> {:02x} 00 00 00 {status:02x}", size + 1);
        for count in 0..size {
            // (small numbers, and some great ones)
            let byte = match next() {
                byte if count % 8 == 0 => byte >> 24 & 31,
                byte if byte >> 28 == 0 => byte >> 16 & 255,
                _ => 0,
            };
            script += &format!(" {byte:02x}");
        }
        script += "\n";
    }
    script
}

/// No call panics or waits for ever, whatever is answered.
fn random_answers() {
    let mut state = 1;
    for _ in 0..75 {
        let mut blob = blob_of(&random_frames(&mut state));
        let _ = blob.size();
        let _ = blob.append_records_start(&["x", "yy"]);
        let _ = blob.read_up_to(0, 64);
        let _ = blob.start_sync();
        let _ = blob
            .replay(1)
            .and_then(|replay| replay.ensure(&mut blob, 1));
        let _ = blob.read_ranges_into(&mut [0; 4], &[(0, 4)]);
        let _ = blob.close();
        let mut log = log_of(&random_frames(&mut state));
        log.records().for_each(drop);
        let mut place = Place::START;
        let _ = log
            .next_many(&mut place, 9)
            .map(|batch| batch.iter().count());
        let _ = log.next(&mut place);
        let _ = log.extent(0, u64::MAX);
        let _ = log.read_many(&[place, place]);
        let _ = log.pass_damage(place);
        let _ = log.append_records(&["x", "yy"]);
        let _ = log.close();
    }
}

fn too_long() {
    let mut blob = blob_of(&["< 01 00 00 00 02\n> 01 00 00 00 00\n", CLOSED].concat());
    let great = vec![0; 1 << 20];
    let many = vec![&great; 5000];
    assert_eq!(kind_of(blob.append_records(&many)), ErrorKind::TooLong);
    assert_eq!(kind_of(blob.read_at(0, 4_294_967_295)), ErrorKind::TooLong);
    assert_eq!(kind_of(blob.read_up_to(0, usize::MAX)), ErrorKind::TooLong);
    assert_eq!(
        kind_of(blob.read_ranges_into(&mut [], &[(0, usize::MAX), (9, usize::MAX)])),
        ErrorKind::TooLong
    );
    assert_eq!(
        kind_of(blob.read_ranges_into(&mut [0; 3], &[(0, 2)])),
        ErrorKind::WrongArgument
    );
    let error = blob.replay(0).expect_err("it has no buffer");
    assert_eq!(
        (error.kind(), error.status(), error.next()),
        (ErrorKind::WrongArgument, None, Next::AskElse)
    );
    blob.sync().unwrap();
    blob.close().unwrap();
}

fn owners() {
    let both = "< 01 00 00 00 0a\n> 09 00 00 00 00 00..\n";
    let mut first = blob_of(&[both, CLOSED].concat());
    let mut second = blob_of(&[both, CLOSED].concat());
    let (of_first, of_second) = (first.snapshot().unwrap(), second.snapshot().unwrap());
    assert_eq!(
        kind_of(of_first.read_at(&mut second, 0, 1)),
        ErrorKind::WrongArgument
    );
    assert_eq!(
        kind_of(of_second.close(&mut first)),
        ErrorKind::WrongArgument
    );
    first.close().unwrap();
    second.close().unwrap();
}

fn process() {
    let mut blob = blob_of("x 4\n");
    let error = blob.append(&vec![0; 1 << 20]).expect_err("it ended");
    assert_eq!(
        (error.kind(), error.exit_status()),
        (ErrorKind::Ended, Some(4))
    );
    let mut blob = blob_of("> 12 00 00 00 23 02 00.. 00..\nx 2\n");
    assert_eq!(
        kind_of(blob.append(&vec![0; 1 << 20])),
        ErrorKind::WrongLength
    );
    assert_eq!(blob.sync().expect_err("it ended").exit_status(), Some(2));
    let script = "e 2000000\n< 01 00 00 00 02\ne 2000000\n! last\n> 01 00 00 00 00\n";
    let mut blob = blob_of(&[script, CLOSED].concat());
    blob.sync().unwrap();
    blob.close().unwrap();
    // Words that aren't UTF-8, in a refusal.
    let mut blob = blob_of(
        &[
            "< 01 00 00 00 02\n> 14 00 00 00 02 02 00.. 00.. ff fe\n",
            CLOSED,
        ]
        .concat(),
    );
    assert_eq!(kind_of(blob.sync()), ErrorKind::WriteFailed);
}

fn hanging() {
    let begin = Instant::now();
    let mut blob = blob_of("< 01 00 00 00 02\n> 00 00 00 00\nz\n");
    assert_eq!(kind_of(blob.sync()), ErrorKind::BadAnswer);
    drop(blob);
    assert!(
        begin.elapsed() < Duration::from_secs(9),
        "nonsense is killed at once"
    );
    drop(blob_of("z\n"));
    assert!(
        begin.elapsed() < Duration::from_secs(60),
        "a program that doesn't end is killed"
    );
}

fn command_lines() {
    let recorded = Recorded::new("");
    let path = recorded.room.join("words \u{436}\u{65e5}");
    let options = recorded
        .options
        .clone()
        .read_only(true)
        .cut(true)
        .cut_limit(0)
        .page_size(100)
        .buffer(200)
        .cache(300);
    let options = options
        .checksum("md5")
        .checksum("add")
        .segment_size(u64::MAX)
        .digest("poly61")
        .own_process_group(true);
    let words = "w --read-only\nw --cut\nw --cut-limit\nw 0\nw --page-size\nw 100\nw --buffer\nw 200\nw --cache\nw 300
w --checksum\nw add\n";
    let log_words = "w --segment-size\nw 18446744073709551615\nw --digest\nw poly61\n";
    let name = format!("w {}\n", path.display());
    let script = [
        "w serve-log\n",
        words,
        log_words,
        &name,
        GREETING,
        OFFER,
        LOG_HELLO,
        CLOSED,
    ]
    .concat();
    std::fs::write(&path, script).unwrap();
    options.open_log(&path).expect("it opens").close().unwrap();
    let script = ["w serve\n", words, &name, GREETING, OFFER, HELLO, CLOSED].concat();
    std::fs::write(&path, script).unwrap();
    options.open_blob(&path).expect("it opens").close().unwrap();
    // A name that looks like an option, and the variable PAGEDD.
    let here = std::env::current_dir().unwrap();
    std::env::set_current_dir(&recorded.room).unwrap();
    std::env::set_var("PAGEDD", std::env::current_exe().unwrap());
    std::fs::write(
        "./-name",
        ["w serve\nw ./-name\n", GREETING, OFFER, HELLO, CLOSED].concat(),
    )
    .unwrap();
    Blob::open("-name").expect("it opens").close().unwrap();
    std::env::remove_var("PAGEDD");
    std::env::set_current_dir(here).unwrap();
}

fn main() -> ExitCode {
    let words: Vec<String> = std::env::args().skip(1).collect();
    if matches!(
        words.first().map(String::as_str),
        Some("serve" | "serve-log")
    ) {
        return ExitCode::from(play_script(&words));
    }
    let tests: &[(&str, fn())] = &[
        ("the bytes of PROTOCOL's example of version 1", page_blob_one),
        ("the bytes of PROTOCOL's example of version 2", page_blob_two),
        ("PROTOCOL's worked bytes of each request of version 2, and the end with exit status 1", page_worked),
        ("the bytes of PROTOCOL's example of a log, version 1; requests of version 2 aren't sent", page_log_one),
        ("the bytes of PROTOCOL's example of a log, version 2", page_log_two),
        ("the bytes of each other request of a blob", other_requests),
        ("the bytes of each other request of a log; extent asks again for what an answer didn't hold", log_requests),
        ("a program of version 1 alone is started again; versions that aren't there", versions),
        ("hellos of earlier and later programs", other_hellos),
        ("each status has a kind of its own, in both versions", refusals),
        ("after a failed sync each later error says to replace the file", failed_sync),
        ("programs that can't be started, or end before they are open", lost_opening),
        ("answers, a greeting and a hello that are cut in the midst", cut_answers),
        ("greetings and hellos that are nonsense", wrong_openings),
        ("answers of a blob that are nonsense", wrong_answers),
        ("answers of a log that are nonsense", wrong_log_answers),
        ("150 sessions of random answers", random_answers),
        ("what is too long isn't sent, and the session goes on", too_long),
        ("a snapshot is refused by another blob", owners),
        ("a program that ends while it is written to, and one that writes much to standard error", process),
        ("the command line has the options, a Unicode name, and a name that begins like an option", command_lines),
        ("a program that hangs is killed", hanging),
    ];
    play(
        tests,
        words
            .first()
            .filter(|word| !word.starts_with('-'))
            .map(String::as_str),
    );
    ExitCode::SUCCESS
}
