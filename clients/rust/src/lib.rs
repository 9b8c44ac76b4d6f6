//! Blobs and logs that survive a crash, served by the program `pagedd`.
//!
//! - A [`Blob`] is a file of bytes that is appended to, read by offset, and cut while it is
//!   recovered. All of its bytes stand in the memory of the program.
//! - A [`Log`] is a folder of records of at most 65,535 bytes, which are appended, committed, read
//!   by their [`Place`], and dropped from the oldest on. It may be greater than memory.
//!
//! Each open starts a process of `pagedd` and speaks with it by its standard input and output. The
//! process belongs to the value: it ends as the value is closed or dropped. What was appended is
//! durable after `sync`, `sync_size`, `append_records_sync` or `wait_for_sync` has answered `Ok`,
//! and not before. **A close and a drop sync nothing.**
//!
//! ```
//! # fn main() -> Result<(), Box<dyn std::error::Error>> {
//! # let Some(_) = std::env::var_os("PAGEDD") else { return Ok(()) };
//! # let room = std::env::temp_dir().join(format!("paged-doc-lib-{}", std::process::id()));
//! # std::fs::create_dir_all(&room)?;
//! # std::env::set_current_dir(&room)?;
//! let mut log = paged::Log::open("events")?;
//! log.append_records_sync(&["first", "second"])?;
//! for record in log.records() {
//!     let record = record?;
//!     println!("{}: {}", record.place, String::from_utf8_lossy(&record.data));
//! }
//! log.close()?;
//! # std::fs::remove_dir_all(&room)?;
//! # Ok(())
//! # }
//! ```
//!
//! The program is found by [`Options::program`], by the variable `PAGEDD`, or in `PATH`.
//!
//! # Errors
//!
//! An [`Error`] has a [`kind`](Error::kind), and what the program stated: the status, what to do
//! [`next`](Error::next), how much was [`taken`](Error::taken), the system's `errno`, words, and
//! the last lines of its standard error. [`ErrorKind::Ended`] and [`ErrorKind::BadAnswer`] mean
//! that the program is lost, and that nobody knows whether the last request was done: open again,
//! and look at what is there before anything is appended again. Each later call answers
//! [`ErrorKind::SessionOver`]. No call retries a request, and none panics at what a program
//! answers.
//!
//! # For users of `commonware-runtime`
//!
//! [`Blob`] has the calls of a paged `Writer` under their names: `append`, `sync`, `start_sync`,
//! `wait_for_sync`, `read_at`, `read_into`, `read_up_to`, `read_many_into`, `read_ranges_into`,
//! `truncate`, `snapshot`, `replay`, `size`, `recoverable_prefix_len`. They are direct calls,
//! without `async`. A blob begins in recovery, as a `Recovery` does; [`Blob::begin`] ends that, as
//! `Writer::from` does. A [`Snapshot`] is a `Sealed`, and a [`Replay`] has `ensure` and `seek_to`.
//! An error doesn't consume the blob; [`Error::next`] says whether it is of use still.
//!
//! # Threads
//!
//! A value is used by one call at a time, and may be sent to another thread. For each program one
//! thread reads its standard error, so that the program never waits for a reader, and its last
//! lines can stand in an error. With [`Options::share_standard_error`] there is no such thread.
#![forbid(unsafe_code)]
#![warn(missing_docs)]

mod blob;
mod error;
mod log;
mod options;
mod session;

pub use blob::{Blob, Chunks, Replay, Snapshot, StartedSync};
pub use error::{Error, ErrorKind, Next, Result};
pub use log::{Batch, Closed, Extent, Frame, Log, Passed, Place, Record, Records};
pub use options::{Options, Protocol};
pub use session::Hello;
