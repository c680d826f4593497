//! Products and their frames.
use crate::calls::{self, RawLine, RawSpan};
use crate::error::{Error, Result};
use crate::minute::{DayTime, Minute};
use crate::ugc::Zone;
use crate::vtec::{text, Hvtec, Vtec};
use std::vec;

/// A P-VTEC line, and the H-VTEC line behind it if there is one.
#[derive(Clone, Copy, Debug, PartialEq, Eq, Hash)]
pub struct Line {
    /// The P-VTEC line.
    pub vtec: Vtec,
    /// The H-VTEC line behind it.
    pub hvtec: Option<Hvtec>,
}

/// A segment of a product (NWS Instruction 10-1701).
#[derive(Clone, Debug, PartialEq, Eq)]
pub struct Segment {
    /// Its zones, in order, each once.
    pub zones: Vec<Zone>,
    /// When it expires.
    pub expires: DayTime,
    /// Its P-VTEC lines as they stand.
    pub lines: Vec<Line>,
}

/// What a reader takes from a product (NWS Instruction 10-1701).
#[derive(Clone, Debug, PartialEq, Eq)]
pub struct Frame {
    /// TTAAii, as `WWUS41`.
    pub heading: String,
    /// CCCC, as `KLWX`.
    pub office: String,
    /// The heading's day and time.
    pub day: DayTime,
    /// BBB, as `COR`, if there is one.
    pub bbb: Option<String>,
    /// The AWIPS identifier, as `WSWLWX`.
    pub identifier: String,
    /// The time of issue.
    pub issue: Minute,
    /// The segments.
    pub segments: Vec<Segment>,
}

fn line(raw: RawLine) -> Line {
    let hvtec = (raw.has_hvtec == 1).then(|| Hvtec::of(raw.hvtec));
    Line {
        vtec: Vtec::of(raw.vtec),
        hvtec,
    }
}

impl Frame {
    /// Reads the first product of a text. Bytes before its heading are passed over.
    ///
    /// ```
    /// use warn_codes::{Error, Frame, FrameFault};
    /// let text = "WWUS41 KLWX 031530\nWSWLWX\n1030 AM EST Wed Jan 3 2018\n\nMDZ003-032330-\n\
    ///     /O.NEW.KLWX.WS.W.0001.180103T1530Z-180104T0000Z/\n\n$$\n";
    /// let frame = Frame::read(text.as_bytes())?;
    /// assert_eq!((frame.identifier.as_str(), frame.segments.len()), ("WSWLWX", 1));
    /// assert_eq!(frame.segments[0].lines[0].vtec.hazard(), "WS.W");
    /// let cut = Frame::read(&text.as_bytes()[..118]).unwrap_err();
    /// assert_eq!(cut, Error::Frame(FrameFault::NoSegmentEnd { line: 5 }));
    /// # Ok::<(), warn_codes::Error>(())
    /// ```
    ///
    /// # Errors
    ///
    /// [`Error::Frame`](crate::Error::Frame) with the first fault.
    pub fn read(bytes: &[u8]) -> Result<Frame> {
        let parts = calls::read_frame(bytes)?;
        let frame = parts.frame;
        let mut zones = parts.zones.into_iter().map(Zone::of);
        let mut lines = parts.lines.into_iter().map(line);
        let segments = parts
            .segments
            .iter()
            .map(|segment| Segment {
                zones: zones.by_ref().take(segment.zones).collect(),
                expires: DayTime {
                    day: segment.day,
                    hour: segment.hour,
                    minute: segment.minute,
                },
                lines: lines.by_ref().take(segment.lines).collect(),
            })
            .collect();
        let letters = frame
            .identifier
            .iter()
            .position(|byte| *byte == 0)
            .unwrap_or(6);
        Ok(Frame {
            heading: text(&frame.heading).to_owned(),
            office: text(&frame.office).to_owned(),
            day: DayTime {
                day: frame.day,
                hour: frame.hour,
                minute: frame.minute,
            },
            bbb: (frame.bbb != [0; 3]).then(|| text(&frame.bbb).to_owned()),
            identifier: text(&frame.identifier[..letters]).to_owned(),
            issue: Minute::new(frame.issue).ok_or(Error::BadValue)?,
            segments,
        })
    }
}

/// The products of a text, one after another: an iterator over their bytes.
#[derive(Clone, Debug)]
pub struct Products<'a> {
    text: &'a [u8],
    spans: vec::IntoIter<Span>,
}

#[derive(Clone, Copy, Debug)]
struct Span {
    from: usize,
    to: usize,
}

impl<'a> Iterator for Products<'a> {
    type Item = &'a [u8];

    fn next(&mut self) -> Option<&'a [u8]> {
        self.spans
            .next()
            .and_then(|span| self.text.get(span.from..span.to))
    }

    fn size_hint(&self) -> (usize, Option<usize>) {
        self.spans.size_hint()
    }
}

impl ExactSizeIterator for Products<'_> {}

/// Splits a text into its products: one for each heading line, up to the next one or the end.
///
/// ```
/// use warn_codes::{products, Frame};
/// let text = b"ABC\nWWUS41 KLWX 031530\nWSWLWX\nWWUS41 KLWX 031531\nWSWLWX\n";
/// let faults: Vec<String> = products(text)?.map(|p|
/// Frame::read(p).unwrap_err().to_string()).collect();
/// assert_eq!(faults.len(), 2);
/// # Ok::<(), warn_codes::Error>(())
/// ```
///
/// # Errors
///
/// [`Error::NoMemory`](crate::Error::NoMemory) alone.
pub fn products(text: &[u8]) -> Result<Products<'_>> {
    let spans: Vec<Span> = calls::split(text)?
        .into_iter()
        .map(|RawSpan { from, to }| Span { from, to })
        .collect();
    Ok(Products {
        text,
        spans: spans.into_iter(),
    })
}
