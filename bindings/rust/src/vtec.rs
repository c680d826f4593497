//! P-VTEC and H-VTEC texts.
use crate::calls::{self, RawHvtec, RawVtec};
use crate::error::{Error, Result};
use crate::minute::Minute;
use std::fmt;
use std::str::FromStr;

/// The characters of a code, which the library gives as A to Z and 0 to 9.
pub(crate) fn text(code: &[u8]) -> &str {
    std::str::from_utf8(code).unwrap_or("")
}

/// The bytes of a code that has so many characters.
pub(crate) fn code<const N: usize>(text: &str) -> Result<[u8; N]> {
    text.as_bytes().try_into().map_err(|_| Error::BadValue)
}

fn letter(letter: char) -> Result<u8> {
    u8::try_from(letter).map_err(|_| Error::BadValue)
}

/// The values of a P-VTEC text (NWS Instruction 10-1703). Each value has one text, which is how
/// it is printed.
///
/// ```
/// use warn_codes::Vtec;
/// let text = "/O.NEW.KLWX.FG.Y.0001.180103T1000Z-000000T0000Z/";
/// let vtec: Vtec = text.parse()?;
/// assert_eq!((vtec.action(), vtec.hazard().as_str(), vtec.number()), ("NEW", "FG.Y", 1));
/// assert_eq!(vtec.end(), None);
/// assert_eq!(vtec.to_string(), text);
/// assert_eq!(vtec.with("CON", None, None)?.to_string(),
/// "/O.CON.KLWX.FG.Y.0001.000000T0000Z-000000T0000Z/");
/// # Ok::<(), warn_codes::Error>(())
/// ```
#[derive(Clone, Copy, Debug, PartialEq, Eq, Hash)]
pub struct Vtec(RawVtec);

impl Vtec {
    /// Reads 48 bytes, from slash to slash.
    ///
    /// # Errors
    ///
    /// [`Error::NotVtec`] for any other bytes.
    pub fn read(text: &[u8]) -> Result<Vtec> {
        calls::read_vtec(text).map(Vtec)
    }

    /// A begin of None has begun; an end of None is until further notice.
    ///
    /// # Errors
    ///
    /// [`Error::BadValue`] where no text has these values.
    #[allow(clippy::too_many_arguments)]
    pub fn new(
        class: char,
        action: &str,
        office: &str,
        phenomenon: &str,
        significance: char,
        number: u16,
        begin: Option<Minute>,
        end: Option<Minute>,
    ) -> Result<Vtec> {
        Vtec(RawVtec {
            begin: Minute::to_raw(begin),
            end: Minute::to_raw(end),
            number,
            phenomenon: code(phenomenon)?,
            office: code(office)?,
            action: code(action)?,
            class: letter(class)?,
            significance: letter(significance)?,
        })
        .checked()
    }

    /// The same event with another action, begin and end.
    ///
    /// # Errors
    ///
    /// [`Error::BadValue`] where there is no such action.
    pub fn with(&self, action: &str, begin: Option<Minute>, end: Option<Minute>) -> Result<Vtec> {
        let action = code(action)?;
        Vtec(RawVtec {
            action,
            begin: Minute::to_raw(begin),
            end: Minute::to_raw(end),
            ..self.0
        })
        .checked()
    }

    fn checked(self) -> Result<Vtec> {
        calls::write_vtec(&self.0).map(|_| self)
    }

    pub(crate) fn of(raw: RawVtec) -> Vtec {
        Vtec(raw)
    }

    /// `O` operational, `T` test, `E` experimental, `X` experimental VTEC in an operational
    /// product.
    pub fn class(&self) -> char {
        char::from(self.0.class)
    }

    /// `NEW`, `CON`, `EXA`, `EXT`, `EXB`, `UPG`, `CAN`, `EXP`, `COR` or `ROU`.
    pub fn action(&self) -> &str {
        text(&self.0.action)
    }

    /// The office's four characters.
    pub fn office(&self) -> &str {
        text(&self.0.office)
    }

    /// The phenomenon's two letters.
    pub fn phenomenon(&self) -> &str {
        text(&self.0.phenomenon)
    }

    /// `W` warning, `A` watch, `Y` advisory, `S` statement, `F` forecast, `O` outlook, `N`
    /// synopsis.
    pub fn significance(&self) -> char {
        char::from(self.0.significance)
    }

    /// Phenomenon and significance, as `WS.W`.
    pub fn hazard(&self) -> String {
        format!("{}.{}", self.phenomenon(), self.significance())
    }

    /// The event tracking number.
    pub fn number(&self) -> u16 {
        self.0.number
    }

    /// When the event begins; None is zeros: it has begun.
    pub fn begin(&self) -> Option<Minute> {
        Minute::from_raw(self.0.begin)
    }

    /// When the event ends; None is zeros: until further notice.
    pub fn end(&self) -> Option<Minute> {
        Minute::from_raw(self.0.end)
    }
}

impl FromStr for Vtec {
    type Err = Error;

    fn from_str(text: &str) -> Result<Vtec> {
        Vtec::read(text.as_bytes())
    }
}

impl fmt::Display for Vtec {
    fn fmt(&self, f: &mut fmt::Formatter<'_>) -> fmt::Result {
        f.write_str(text(&calls::write_vtec(&self.0).map_err(|_| fmt::Error)?))
    }
}

/// The values of an H-VTEC text (NWS Instruction 10-1703). Each value has one text, which is how
/// it is printed.
///
/// ```
/// use warn_codes::Hvtec;
/// let text = "/FREV2.1.ER.180103T1530Z.180104T0000Z.180104T1200Z.NO/";
/// let flood: Hvtec = text.parse()?;
/// assert_eq!((flood.location(), flood.severity(), flood.cause()), ("FREV2", '1', "ER"));
/// assert_eq!(flood.to_string(), text);
/// # Ok::<(), warn_codes::Error>(())
/// ```
#[derive(Clone, Copy, Debug, PartialEq, Eq, Hash)]
pub struct Hvtec(RawHvtec);

impl Hvtec {
    /// Reads 54 bytes, from slash to slash.
    ///
    /// # Errors
    ///
    /// [`Error::NotHvtec`] for any other bytes.
    pub fn read(text: &[u8]) -> Result<Hvtec> {
        calls::read_hvtec(text).map(Hvtec)
    }

    /// The values, if a text has them.
    ///
    /// # Errors
    ///
    /// [`Error::BadValue`] where no text has them.
    pub fn new(
        location: &str,
        severity: char,
        cause: &str,
        times: [Option<Minute>; 3],
        record_status: &str,
    ) -> Result<Hvtec> {
        let [begin, crest, end] = times.map(Minute::to_raw);
        let raw = RawHvtec {
            begin,
            crest,
            end,
            location: code(location)?,
            severity: letter(severity)?,
            cause: code(cause)?,
            record_status: code(record_status)?,
        };
        calls::write_hvtec(&raw).map(|_| Hvtec(raw))
    }

    pub(crate) fn of(raw: RawHvtec) -> Hvtec {
        Hvtec(raw)
    }

    /// The location's five characters (NWSLI).
    pub fn location(&self) -> &str {
        text(&self.0.location)
    }

    /// `N` none, `0` areal or flash flood, `1` minor, `2` moderate, `3` major, `U` unknown.
    pub fn severity(&self) -> char {
        char::from(self.0.severity)
    }

    /// The immediate cause's two letters.
    pub fn cause(&self) -> &str {
        text(&self.0.cause)
    }

    /// When the flood begins, or None for zeros.
    pub fn begin(&self) -> Option<Minute> {
        Minute::from_raw(self.0.begin)
    }

    /// When it crests, or None for zeros.
    pub fn crest(&self) -> Option<Minute> {
        Minute::from_raw(self.0.crest)
    }

    /// When it ends, or None for zeros.
    pub fn end(&self) -> Option<Minute> {
        Minute::from_raw(self.0.end)
    }

    /// `NO`, `NR`, `UU` or `OO`.
    pub fn record_status(&self) -> &str {
        text(&self.0.record_status)
    }
}

impl FromStr for Hvtec {
    type Err = Error;

    fn from_str(text: &str) -> Result<Hvtec> {
        Hvtec::read(text.as_bytes())
    }
}

impl fmt::Display for Hvtec {
    fn fmt(&self, f: &mut fmt::Formatter<'_>) -> fmt::Result {
        f.write_str(text(&calls::write_hvtec(&self.0).map_err(|_| fmt::Error)?))
    }
}
