//! UGC texts.
use crate::calls::{self, RawZone};
use crate::error::Result;
use crate::minute::DayTime;
use crate::vtec::text;
use std::cmp::Ordering;
use std::fmt;

/// A public zone or a county (NWS Instruction 10-1702), printed as `MDZ003`. In order by state,
/// kind (C before Z), number.
#[derive(Clone, Copy, Debug, PartialEq, Eq, Hash)]
pub struct Zone(RawZone);

impl Zone {
    pub(crate) fn of(raw: RawZone) -> Zone {
        Zone(raw)
    }

    /// The state's two letters.
    pub fn state(&self) -> &str {
        text(&self.0.state)
    }

    /// `Z`: a public zone; `C`: a county.
    pub fn kind(&self) -> char {
        char::from(self.0.kind)
    }

    /// 1 to 999.
    pub fn number(&self) -> u16 {
        self.0.number
    }
}

impl PartialOrd for Zone {
    fn partial_cmp(&self, other: &Zone) -> Option<Ordering> {
        Some(self.cmp(other))
    }
}

impl Ord for Zone {
    fn cmp(&self, other: &Zone) -> Ordering {
        (self.state(), self.kind(), self.number()).cmp(&(
            other.state(),
            other.kind(),
            other.number(),
        ))
    }
}

impl fmt::Display for Zone {
    fn fmt(&self, f: &mut fmt::Formatter<'_>) -> fmt::Result {
        write!(f, "{}{}{:03}", self.state(), self.kind(), self.number())
    }
}

/// What a UGC text says (NWS Instruction 10-1702).
#[derive(Clone, Debug, PartialEq, Eq)]
pub struct Ugc {
    /// The zones, in order, each once, with those within runs.
    pub zones: Vec<Zone>,
    /// When it expires.
    pub expires: DayTime,
    /// How many bytes the text has, up to the hyphen of its expiry.
    pub used: usize,
}

impl Ugc {
    /// Reads the UGC text that bytes begin with, and passes over what follows it.
    ///
    /// ```
    /// use warn_codes::{Error, Ugc, UgcFault};
    /// let ugc = Ugc::read(b"MDZ003>005-VAZ028-031500-\nWashington-")?;
    /// let zones: Vec<String> = ugc.zones.iter().map(ToString::to_string).collect();
    /// assert_eq!(zones, ["MDZ003", "MDZ004", "MDZ005", "VAZ028"]);
    /// assert_eq!((ugc.expires.to_string().as_str(), ugc.used), ("031500", 25));
    /// let fault = Ugc::read(b"MDZ003-04-031500-").unwrap_err();
    /// assert_eq!(fault, Error::Ugc(UgcFault::NotACode { at: 7 }));
    /// assert_eq!(fault.to_string(), "byte 7: no zone, run of zones or expiry begins here");
    /// # Ok::<(), warn_codes::Error>(())
    /// ```
    ///
    /// # Errors
    ///
    /// [`Error::Ugc`](crate::Error::Ugc) with the first fault.
    pub fn read(text: &[u8]) -> Result<Ugc> {
        let (ugc, zones) = calls::read_ugc(text)?;
        Ok(Ugc {
            zones: zones.into_iter().map(Zone).collect(),
            expires: DayTime {
                day: ugc.day,
                hour: ugc.hour,
                minute: ugc.minute,
            },
            used: ugc.used,
        })
    }
}
