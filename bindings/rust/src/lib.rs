//! The codes of NWS products, read and written by a proved library: P-VTEC and H-VTEC texts (NWS
//! Instruction 10-1703), UGC texts (10-1702), the frames of products (10-1701), and what the
//! products of an archive say of each event.
//!
//! ```
//! use warn_codes::{Reader, Vtec};
//!
//! let vtec: Vtec = "/O.NEW.KLWX.WS.W.0001.180103T1530Z-180104T0000Z/".parse()?;
//! assert_eq!(vtec.office(), "KLWX");
//! assert_eq!(vtec.begin().unwrap().to_string(), "180103T1530Z");
//!
//! let mut reader = Reader::new("KLWX", 'O')?;
//! reader.take(b"WWUS41 KLWX 031530\nWSWLWX\n1030 AM EST Wed Jan 3 2018\n\nMDZ003-032330-\n\
//!     /O.NEW.KLWX.WS.W.0001.180103T1530Z-180104T0000Z/\n\n$$\n")?;
//! for life in reader.lives()? {
//!     assert_eq!(life.to_string(), "WS.W.0001.2018 MDZ003 NEW@180103T1530Z");
//! }
//! # Ok::<(), warn_codes::Error>(())
//! ```
//!
//! No call panics or reads beyond what it is given, whatever the bytes. Want of memory within the
//! library is
//! [`Error::NoMemory`]; the lists that this crate returns are Rust's own.
#![warn(missing_docs)]

mod calls;
mod error;
mod frame;
mod minute;
mod reader;
mod ugc;
mod vtec;

pub use error::{Error, FrameFault, Result, UgcFault};
pub use frame::{products, Frame, Line, Products, Segment};
pub use minute::{DayTime, Minute};
pub use reader::{Breach, Event, Findings, Found, Gap, Life, Reader, Shown, Step};
pub use ugc::{Ugc, Zone};
pub use vtec::{Hvtec, Vtec};
