//! Why a text is not read or written.
use std::fmt;

/// What a call of this crate returns.
pub type Result<T> = std::result::Result<T, Error>;

/// Why a text is not read or written.
#[derive(Clone, Copy, Debug, PartialEq, Eq, Hash)]
pub enum Error {
    /// There was too little memory.
    NoMemory,
    /// No reader has such an office or class.
    BadArgument,
    /// The reader was closed when memory ran out.
    Closed,
    /// The bytes are no P-VTEC text.
    NotVtec,
    /// The bytes are no H-VTEC text.
    NotHvtec,
    /// No text has these values.
    BadValue,
    /// The bytes begin with no UGC text: the first fault.
    Ugc(UgcFault),
    /// The text has no frame: the first fault.
    Frame(FrameFault),
}

/// The first fault of a UGC text. Bytes count from 0.
#[derive(Clone, Copy, Debug, PartialEq, Eq, Hash)]
pub enum UgcFault {
    /// No zone, run of zones or expiry begins at this byte.
    NotACode {
        /// Where it begins.
        at: usize,
    },
    /// The run that begins at this byte does not go up.
    BadRange {
        /// Where it begins.
        at: usize,
    },
    /// The bytes end before the expiry does.
    CutShort,
}

/// The first fault of a frame. Lines count from the heading, which is line 1.
#[derive(Clone, Copy, Debug, PartialEq, Eq, Hash)]
pub enum FrameFault {
    /// No line is a heading.
    NoHeading,
    /// The line after the heading is no identifier.
    NoIdentifier,
    /// No line is the time of issue.
    NoIssueTime,
    /// The heading's time is not within twelve hours of the time of issue.
    IssueDisagrees,
    /// The product ends within the segment whose zones begin on this line.
    NoSegmentEnd {
        /// The line.
        line: usize,
    },
    /// The zones that begin on this line are no UGC text, or do not fill their last line.
    BadUgc {
        /// The line.
        line: usize,
    },
    /// This line is neither a P-VTEC text nor the one H-VTEC text behind it.
    BadVtec {
        /// The line.
        line: usize,
    },
}

impl Error {
    /// The error of a status, and the byte or line of the fault.
    pub(crate) fn of(status: u32, place: usize) -> Error {
        match status {
            1 => Error::NoMemory,
            4 => Error::NotVtec,
            5 => Error::NotHvtec,
            6 => Error::BadValue,
            10 => Error::Ugc(UgcFault::NotACode { at: place }),
            11 => Error::Ugc(UgcFault::BadRange { at: place }),
            12 => Error::Ugc(UgcFault::CutShort),
            20 => Error::Frame(FrameFault::NoHeading),
            21 => Error::Frame(FrameFault::NoIdentifier),
            22 => Error::Frame(FrameFault::NoIssueTime),
            23 => Error::Frame(FrameFault::IssueDisagrees),
            24 => Error::Frame(FrameFault::NoSegmentEnd { line: place }),
            25 => Error::Frame(FrameFault::BadUgc { line: place }),
            26 => Error::Frame(FrameFault::BadVtec { line: place }),
            _ => Error::BadArgument,
        }
    }
}

impl fmt::Display for Error {
    fn fmt(&self, f: &mut fmt::Formatter<'_>) -> fmt::Result {
        match self {
            Error::NoMemory => write!(f, "out of memory"),
            Error::BadArgument => write!(f, "no such office or class"),
            Error::Closed => write!(f, "the reader was closed when memory ran out"),
            Error::NotVtec => write!(f, "no P-VTEC text"),
            Error::NotHvtec => write!(f, "no H-VTEC text"),
            Error::BadValue => write!(f, "no text has these values"),
            Error::Ugc(fault) => fault.fmt(f),
            Error::Frame(fault) => fault.fmt(f),
        }
    }
}

impl fmt::Display for UgcFault {
    fn fmt(&self, f: &mut fmt::Formatter<'_>) -> fmt::Result {
        match self {
            UgcFault::NotACode { at } => {
                write!(f, "byte {at}: no zone, run of zones or expiry begins here")
            }
            UgcFault::BadRange { at } => write!(f, "byte {at}: a range must run upwards"),
            UgcFault::CutShort => write!(f, "the bytes end before the expiry does"),
        }
    }
}

impl fmt::Display for FrameFault {
    fn fmt(&self, f: &mut fmt::Formatter<'_>) -> fmt::Result {
        match self {
            FrameFault::NoHeading => write!(f, "no line is a heading, such as WWUS41 KLWX 031530"),
            FrameFault::NoIdentifier => write!(
                f,
                "the line after the heading is no identifier, such as WSWLWX"
            ),
            FrameFault::NoIssueTime => {
                write!(
                    f,
                    "no line is the time of issue, such as 1030 AM EST Wed Jan 3 2018"
                )
            }
            FrameFault::IssueDisagrees => {
                write!(
                    f,
                    "the heading's time is not within twelve hours of the time of issue"
                )
            }
            FrameFault::NoSegmentEnd { line } => {
                write!(f, "line {line}: the segment that begins here has no end")
            }
            FrameFault::BadUgc { line } => {
                write!(f, "line {line}: no zone codes (UGC), or text behind them")
            }
            FrameFault::BadVtec { line } => {
                write!(
                    f,
                    "line {line}: neither a P-VTEC text nor the one H-VTEC text behind it"
                )
            }
        }
    }
}

impl std::error::Error for Error {}

impl std::error::Error for UgcFault {}

impl std::error::Error for FrameFault {}
