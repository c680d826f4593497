//! What the products of an archive say of each event.
use crate::calls::{OpenReader, RawEvent, RawRow};
use crate::error::{Error, Result};
use crate::minute::Minute;
use crate::ugc::Zone;
use crate::vtec::{code, text, Hvtec};
use std::fmt;

/// An event: its hazard, its number, and the year in which it was opened. Printed as
/// `WS.W.0001.2018`.
#[derive(Clone, Copy, Debug, PartialEq, Eq, Hash)]
pub struct Event(RawEvent);

impl Event {
    /// The phenomenon's two letters.
    pub fn phenomenon(&self) -> &str {
        text(&self.0.phenomenon)
    }

    /// The letter of the significance.
    pub fn significance(&self) -> char {
        char::from(self.0.significance)
    }

    /// The event tracking number.
    pub fn number(&self) -> u16 {
        self.0.number
    }

    /// The year in which it was opened.
    pub fn year(&self) -> u16 {
        self.0.year
    }
}

impl fmt::Display for Event {
    fn fmt(&self, f: &mut fmt::Formatter<'_>) -> fmt::Result {
        write!(
            f,
            "{}.{}.{:04}.{}",
            self.phenomenon(),
            self.significance(),
            self.number(),
            self.year()
        )
    }
}

/// A lawful line of a life. Printed as `NEW@180103T1530Z`.
#[derive(Clone, Copy, Debug, PartialEq, Eq, Hash)]
pub struct Step {
    action: [u8; 3],
    /// The time of issue of its product.
    pub issue: Minute,
}

impl Step {
    /// The action's three letters.
    pub fn action(&self) -> &str {
        text(&self.action)
    }
}

impl fmt::Display for Step {
    fn fmt(&self, f: &mut fmt::Formatter<'_>) -> fmt::Result {
        write!(f, "{}@{}", self.action(), self.issue)
    }
}

/// What the lawful lines did to an event in a zone, in the order of the products.
#[derive(Clone, Debug, PartialEq, Eq)]
pub struct Life {
    /// The event.
    pub event: Event,
    /// The zone.
    pub zone: Zone,
    /// The lines.
    pub steps: Vec<Step>,
}

impl fmt::Display for Life {
    fn fmt(&self, f: &mut fmt::Formatter<'_>) -> fmt::Result {
        write!(f, "{} {}", self.event, self.zone)?;
        self.steps.iter().try_for_each(|step| write!(f, " {step}"))
    }
}

macro_rules! breaches {
    ($($(#[$doc:meta])* $name:ident = $number:literal),+ $(,)?) => {
        /// The rule of the desk from which a line differs.
        #[derive(Clone, Copy, Debug, PartialEq, Eq, Hash)]
        pub enum Breach {
            $($(#[$doc])* $name),+
        }

        impl Breach {
            fn of(number: u8) -> Option<Breach> {
                match number {
                    $($number => Some(Breach::$name),)+
                    _ => None,
                }
            }
        }
    };
}

breaches! {
    /// NEW of an event that was opened before; EXA or EXB where the event has a life that no line
    /// has ended.
    Reopened = 1,
    /// EXA or EXB of an event that is open nowhere.
    NotOpening = 2,
    /// NEW with a number that an open event of an earlier year still has.
    NumberHeld = 3,
    /// A begin of zeros where a begin is wanted, or a begin that has passed where zeros are.
    ZeroBegin = 4,
    /// Opens with a begin before the time of issue; EXP more than half an hour before the end.
    TooEarly = 5,
    /// Ends no later than it begins, or no later than the time of issue.
    NoLength = 6,
    /// Another period where the action keeps it.
    PeriodMoved = 7,
    /// EXT that keeps the period; EXB with the period of a live row of the event.
    PeriodSame = 8,
    /// Goes on with an event, or ends it, in a zone where it has no life, or one that has ended.
    NotLive = 9,
    /// A later begin for an event that has begun.
    BegunMoved = 10,
    /// CAN within the last half hour; EXP more than half an hour after the end; UPG at the end or
    /// later.
    TooLate = 11,
    /// UPG where no live event of a higher rank of the family overlaps.
    NoHigher = 12,
    /// The second line of its event and zone in one product.
    Twice = 13,
}

impl fmt::Display for Breach {
    fn fmt(&self, f: &mut fmt::Formatter<'_>) -> fmt::Result {
        fmt::Debug::fmt(self, f)
    }
}

/// A line in breach of a rule.
#[derive(Clone, Copy, Debug, PartialEq, Eq, Hash)]
pub struct Found {
    /// The number of its product among all, from 1.
    pub product: u32,
    /// The event.
    pub event: Event,
    /// The zone.
    pub zone: Zone,
    /// The rule.
    pub breach: Breach,
}

impl fmt::Display for Found {
    fn fmt(&self, f: &mut fmt::Formatter<'_>) -> fmt::Result {
        write!(
            f,
            "{} {} {} {}",
            self.product, self.event, self.zone, self.breach
        )
    }
}

/// An event that was opened with another number than the next of its hazard and year.
#[derive(Clone, Copy, Debug, PartialEq, Eq, Hash)]
pub struct Gap {
    /// The event that was opened.
    pub event: Event,
    /// The number that was wanted.
    pub wanted: u16,
}

/// An event that is live in a zone at a minute. Printed as
/// `MDZ003 WS.W.0001.2018 180103T1530Z-180104T0000Z`, with its H-VTEC text behind if it has one.
#[derive(Clone, Copy, Debug, PartialEq, Eq, Hash)]
pub struct Shown {
    /// The event.
    pub event: Event,
    /// The zone.
    pub zone: Zone,
    /// When it begins.
    pub begin: Minute,
    /// When it ends; None is until further notice.
    pub end: Option<Minute>,
    /// The values of its last H-VTEC line, if it has one.
    pub hvtec: Option<Hvtec>,
}

impl fmt::Display for Shown {
    fn fmt(&self, f: &mut fmt::Formatter<'_>) -> fmt::Result {
        write!(f, "{} {} {}-", self.zone, self.event, self.begin)?;
        match self.end {
            Some(end) => write!(f, "{end}")?,
            None => f.write_str("000000T0000Z")?,
        }
        self.hvtec
            .iter()
            .try_for_each(|hvtec| write!(f, " {hvtec}"))
    }
}

/// The answers to all questions.
#[derive(Clone, Debug, Default, PartialEq, Eq)]
pub struct Findings {
    /// The lives, by event, then zone.
    pub lives: Vec<Life>,
    /// The lines in breach, in the order of the text.
    pub breaches: Vec<Found>,
    /// The gaps, in the order in which the events were opened.
    pub gaps: Vec<Gap>,
    /// The events that are live at the minute, by zone, then event.
    pub shown: Vec<Shown>,
}

impl Findings {
    fn of(rows: Vec<RawRow>) -> Result<Findings> {
        let mut findings = Findings::default();
        for row in rows {
            findings.put(&row).ok_or(Error::BadValue)?;
        }
        Ok(findings)
    }

    /// Adds a row. None where it has a time or a rule that no row of the library has.
    fn put(&mut self, row: &RawRow) -> Option<()> {
        let (event, zone) = (Event(row.event), Zone::of(row.zone));
        match row.kind {
            1 => {
                let issue = Minute::new(row.issue)?;
                let step = Step {
                    action: row.action,
                    issue,
                };
                match self.lives.last_mut() {
                    Some(life) if life.event == event && life.zone == zone => life.steps.push(step),
                    _ => self.lives.push(Life {
                        event,
                        zone,
                        steps: vec![step],
                    }),
                }
            }
            2 => {
                let breach = Breach::of(row.breach)?;
                self.breaches.push(Found {
                    product: row.product,
                    event,
                    zone,
                    breach,
                });
            }
            3 => self.gaps.push(Gap {
                event,
                wanted: row.wanted,
            }),
            _ => {
                let begin = Minute::new(row.begin)?;
                let hvtec = (row.has_hvtec == 1).then(|| Hvtec::of(row.hvtec));
                self.shown.push(Shown {
                    event,
                    zone,
                    begin,
                    end: Minute::from_raw(row.end),
                    hvtec,
                });
            }
        }
        Some(())
    }
}

/// Takes the products of an office in the order in which they were sent, in whatever pieces their
/// bytes come, and says what became of each event of a class. Lines of others are passed over,
/// and so are products that have a fault.
///
/// The answers speak of the products that have ended: those behind which another one's heading
/// line has come, and all of them where [`Reader::end`] said so. Where memory runs out while it
/// takes, the reader is closed, and each later call returns [`Error::Closed`].
///
/// ```
/// use warn_codes::{Minute, Reader};
/// let mut reader = Reader::new("KLWX", 'O')?;
/// reader.push(b"WWUS41 KLWX 031530\nWSWLWX\n1030 AM EST Wed Jan 3 2018\n\nMDZ003-")?;
/// reader.push(b"032330-\n/O.NEW.KLWX.WS.W.0002.180103T1530Z-180104T0000Z/\n\n$$\n")?;
/// assert!(reader.lives()?.is_empty());
/// reader.end()?;
/// let found = reader.all(Minute::from_stamp("180103T1900Z").unwrap())?;
/// assert_eq!(found.lives[0].to_string(), "WS.W.0002.2018 MDZ003 NEW@180103T1530Z");
/// assert_eq!((found.gaps[0].wanted, found.gaps[0].event.number()), (1, 2));
/// assert_eq!(found.shown[0].zone.to_string(), "MDZ003");
/// assert!(found.breaches.is_empty());
/// # Ok::<(), warn_codes::Error>(())
/// ```
pub struct Reader(OpenReader);

impl Reader {
    /// A reader of an office's products, of which it follows one class (`O`, `T`, `E` or `X`).
    ///
    /// # Errors
    ///
    /// [`Error::BadArgument`] where there is no such office or class.
    pub fn new(office: &str, class: char) -> Result<Reader> {
        let office = code(office).map_err(|_| Error::BadArgument)?;
        let class = u8::try_from(class).map_err(|_| Error::BadArgument)?;
        OpenReader::new(&office, class).map(Reader)
    }

    /// Takes the next bytes of the stream, which may end anywhere.
    ///
    /// # Errors
    ///
    /// [`Error::NoMemory`], which closes the reader; [`Error::Closed`].
    pub fn push(&mut self, piece: &[u8]) -> Result<()> {
        self.0.take(piece)
    }

    /// Says that what was taken is whole: its last product has ended. The next bytes begin with
    /// another.
    ///
    /// # Errors
    ///
    /// As of [`Reader::push`].
    pub fn end(&mut self) -> Result<()> {
        self.0.end()
    }

    /// Takes products that are whole.
    ///
    /// # Errors
    ///
    /// As of [`Reader::push`].
    pub fn take(&mut self, products: &[u8]) -> Result<()> {
        self.push(products)?;
        self.end()
    }

    fn tell(&mut self, question: u32, minute: u32) -> Result<Findings> {
        self.0.tell(question, minute).and_then(Findings::of)
    }

    /// What the lawful lines did to each event in each zone.
    ///
    /// # Errors
    ///
    /// [`Error::NoMemory`], which leaves the reader as it was, as of all answers;
    /// [`Error::Closed`].
    pub fn lives(&mut self) -> Result<Vec<Life>> {
        Ok(self.tell(1, 0)?.lives)
    }

    /// The lines that break a rule.
    ///
    /// # Errors
    ///
    /// As of [`Reader::lives`].
    pub fn breaches(&mut self) -> Result<Vec<Found>> {
        Ok(self.tell(2, 0)?.breaches)
    }

    /// Where the numbers of a hazard's events are not 1, 2, 3 and so on.
    ///
    /// # Errors
    ///
    /// As of [`Reader::lives`].
    pub fn gaps(&mut self) -> Result<Vec<Gap>> {
        Ok(self.tell(3, 0)?.gaps)
    }

    /// The events that are live at a minute.
    ///
    /// # Errors
    ///
    /// As of [`Reader::lives`].
    pub fn shown(&mut self, minute: Minute) -> Result<Vec<Shown>> {
        Ok(self.tell(4, minute.count())?.shown)
    }

    /// The answers to all questions.
    ///
    /// # Errors
    ///
    /// As of [`Reader::lives`].
    pub fn all(&mut self, minute: Minute) -> Result<Findings> {
        self.tell(5, minute.count())
    }
}

impl fmt::Debug for Reader {
    fn fmt(&self, f: &mut fmt::Formatter<'_>) -> fmt::Result {
        f.debug_struct("Reader").finish_non_exhaustive()
    }
}
