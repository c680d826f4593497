//! The functions of the library, and the structs that cross. `bindings/c/warn_codes.h` describes
//! each.
use crate::error::{Error, Result};
use std::ffi::c_void;
use std::mem::MaybeUninit;
use std::ptr;

pub const NO_TIME: u32 = u32::MAX;

#[repr(C)]
#[derive(Clone, Copy, Debug, PartialEq, Eq, Hash)]
pub struct RawVtec {
    pub begin: u32,
    pub end: u32,
    pub number: u16,
    pub phenomenon: [u8; 2],
    pub office: [u8; 4],
    pub action: [u8; 3],
    pub class: u8,
    pub significance: u8,
}

#[repr(C)]
#[derive(Clone, Copy, Debug, PartialEq, Eq, Hash)]
pub struct RawHvtec {
    pub begin: u32,
    pub crest: u32,
    pub end: u32,
    pub location: [u8; 5],
    pub severity: u8,
    pub cause: [u8; 2],
    pub record_status: [u8; 2],
}

#[repr(C)]
#[derive(Clone, Copy, Debug, PartialEq, Eq, Hash)]
pub struct RawZone {
    pub number: u16,
    pub state: [u8; 2],
    pub kind: u8,
}

#[repr(C)]
#[derive(Clone, Copy, Default)]
pub struct RawUgc {
    pub zones: usize,
    pub used: usize,
    pub fault_at: usize,
    pub day: u8,
    pub hour: u8,
    pub minute: u8,
}

#[repr(C)]
#[derive(Clone, Copy)]
pub struct RawSegment {
    pub zones: usize,
    pub lines: usize,
    pub day: u8,
    pub hour: u8,
    pub minute: u8,
}

#[repr(C)]
#[derive(Clone, Copy)]
pub struct RawLine {
    pub vtec: RawVtec,
    pub hvtec: RawHvtec,
    pub has_hvtec: u8,
}

#[repr(C)]
#[derive(Clone, Copy, Default)]
pub struct RawFrame {
    pub segments: usize,
    pub zones: usize,
    pub lines: usize,
    pub fault_line: usize,
    pub issue: u32,
    pub heading: [u8; 6],
    pub identifier: [u8; 6],
    pub office: [u8; 4],
    pub bbb: [u8; 3],
    pub day: u8,
    pub hour: u8,
    pub minute: u8,
}

#[repr(C)]
#[derive(Clone, Copy)]
pub struct RawSpan {
    pub from: usize,
    pub to: usize,
}

#[repr(C)]
#[derive(Clone, Copy, Debug, PartialEq, Eq, Hash)]
pub struct RawEvent {
    pub number: u16,
    pub year: u16,
    pub phenomenon: [u8; 2],
    pub significance: u8,
}

#[repr(C)]
#[derive(Clone, Copy)]
pub struct RawRow {
    pub product: u32,
    pub issue: u32,
    pub begin: u32,
    pub end: u32,
    pub hvtec: RawHvtec,
    pub event: RawEvent,
    pub zone: RawZone,
    pub wanted: u16,
    pub action: [u8; 3],
    pub breach: u8,
    pub has_hvtec: u8,
    pub kind: u8,
}

#[repr(C)]
struct RawReader {
    at: *mut c_void,
    is_open: u32,
}

mod foreign {
    use super::*;

    // Nothing compares these with crates/warn_codes_c/src; the tests compare what comes back.
    extern "C" {
        pub fn warn_codes_c_read_vtec(text: *const u8, length: usize, out: *mut RawVtec) -> u32;
        pub fn warn_codes_c_write_vtec(fields: *const RawVtec, out: *mut u8) -> u32;
        pub fn warn_codes_c_read_hvtec(text: *const u8, length: usize, out: *mut RawHvtec) -> u32;
        pub fn warn_codes_c_write_hvtec(fields: *const RawHvtec, out: *mut u8) -> u32;
        pub fn warn_codes_c_read_ugc(
            text: *const u8,
            length: usize,
            zones: *mut RawZone,
            room: usize,
            out: *mut RawUgc,
        ) -> u32;
        pub fn warn_codes_c_read_frame(
            text: *const u8,
            length: usize,
            segments: *mut RawSegment,
            segment_room: usize,
            zones: *mut RawZone,
            zone_room: usize,
            lines: *mut RawLine,
            line_room: usize,
            out: *mut RawFrame,
        ) -> u32;
        pub fn warn_codes_c_split(
            text: *const u8,
            length: usize,
            spans: *mut RawSpan,
            room: usize,
            needed: *mut usize,
        ) -> u32;
        pub fn warn_codes_c_open(reader: *mut RawReader, office: *const u8, class: u8) -> u32;
        pub fn warn_codes_c_take(reader: *mut RawReader, piece: *const u8, length: usize) -> u32;
        pub fn warn_codes_c_end(reader: *mut RawReader) -> u32;
        pub fn warn_codes_c_tell(
            reader: *mut RawReader,
            question: u32,
            minute: u32,
            rows: *mut RawRow,
            room: usize,
            needed: *mut usize,
        ) -> u32;
        pub fn warn_codes_c_close(reader: *mut RawReader) -> u32;
    }
}

const OK: u32 = 0;

const TOO_SMALL: u32 = 2;

const BAD_ARGUMENT: u32 = 3;

pub fn read_vtec(text: &[u8]) -> Result<RawVtec> {
    let mut out = MaybeUninit::uninit();
    // SAFETY: the slice and the struct are whole, and apart, for the call. The struct is written
    // where the call ends well.
    unsafe {
        match foreign::warn_codes_c_read_vtec(text.as_ptr(), text.len(), out.as_mut_ptr()) {
            OK => Ok(out.assume_init()),
            status => Err(Error::of(status, 0)),
        }
    }
}

pub fn write_vtec(fields: &RawVtec) -> Result<[u8; 48]> {
    let mut out = [0; 48];
    // SAFETY: the struct is whole, and the 48 bytes are apart from it.
    match unsafe { foreign::warn_codes_c_write_vtec(fields, out.as_mut_ptr()) } {
        OK => Ok(out),
        status => Err(Error::of(status, 0)),
    }
}

pub fn read_hvtec(text: &[u8]) -> Result<RawHvtec> {
    let mut out = MaybeUninit::uninit();
    // SAFETY: as in `read_vtec`.
    unsafe {
        match foreign::warn_codes_c_read_hvtec(text.as_ptr(), text.len(), out.as_mut_ptr()) {
            OK => Ok(out.assume_init()),
            status => Err(Error::of(status, 0)),
        }
    }
}

pub fn write_hvtec(fields: &RawHvtec) -> Result<[u8; 54]> {
    let mut out = [0; 54];
    // SAFETY: as in `write_vtec`.
    match unsafe { foreign::warn_codes_c_write_hvtec(fields, out.as_mut_ptr()) } {
        OK => Ok(out),
        status => Err(Error::of(status, 0)),
    }
}

pub fn read_ugc(text: &[u8]) -> Result<(RawUgc, Vec<RawZone>)> {
    let mut zones = Vec::with_capacity(16);
    loop {
        let mut out = RawUgc::default();
        let room = zones.capacity();
        // SAFETY: slice, struct and room are whole, and apart.
        let status = unsafe {
            foreign::warn_codes_c_read_ugc(
                text.as_ptr(),
                text.len(),
                zones.as_mut_ptr(),
                room,
                &mut out,
            )
        };
        match status {
            OK => {
                // SAFETY: so many zones were written.
                unsafe { zones.set_len(out.zones) };
                return Ok((out, zones));
            }
            TOO_SMALL => zones.reserve_exact(out.zones),
            status => return Err(Error::of(status, out.fault_at)),
        }
    }
}

pub struct FrameParts {
    pub frame: RawFrame,
    pub segments: Vec<RawSegment>,
    pub zones: Vec<RawZone>,
    pub lines: Vec<RawLine>,
}

pub fn read_frame(text: &[u8]) -> Result<FrameParts> {
    let mut segments = Vec::with_capacity(8);
    let mut zones = Vec::with_capacity(64);
    let mut lines = Vec::with_capacity(16);
    loop {
        let mut frame = RawFrame::default();
        // SAFETY: slice, struct and rooms are whole, and apart.
        let status = unsafe {
            foreign::warn_codes_c_read_frame(
                text.as_ptr(),
                text.len(),
                segments.as_mut_ptr(),
                segments.capacity(),
                zones.as_mut_ptr(),
                zones.capacity(),
                lines.as_mut_ptr(),
                lines.capacity(),
                &mut frame,
            )
        };
        match status {
            OK => {
                // SAFETY: so many rows were written into each.
                unsafe {
                    segments.set_len(frame.segments);
                    zones.set_len(frame.zones);
                    lines.set_len(frame.lines);
                }
                return Ok(FrameParts {
                    frame,
                    segments,
                    zones,
                    lines,
                });
            }
            TOO_SMALL => {
                segments.reserve_exact(frame.segments);
                zones.reserve_exact(frame.zones);
                lines.reserve_exact(frame.lines);
            }
            status => return Err(Error::of(status, frame.fault_line)),
        }
    }
}

pub fn split(text: &[u8]) -> Result<Vec<RawSpan>> {
    let mut spans = Vec::with_capacity(64);
    loop {
        let mut needed = 0;
        let room = spans.capacity();
        // SAFETY: slice, count and room are whole, and apart.
        let status = unsafe {
            foreign::warn_codes_c_split(
                text.as_ptr(),
                text.len(),
                spans.as_mut_ptr(),
                room,
                &mut needed,
            )
        };
        match status {
            OK => {
                // SAFETY: so many spans were written.
                unsafe { spans.set_len(needed) };
                return Ok(spans);
            }
            TOO_SMALL => spans.reserve_exact(needed),
            status => return Err(Error::of(status, 0)),
        }
    }
}

/// An open reader, which is closed when it is dropped.
pub struct OpenReader(RawReader);

// SAFETY: what a reader owns is bound to no thread, and nothing else points to it.
unsafe impl Send for OpenReader {}

impl OpenReader {
    pub fn new(office: &[u8; 4], class: u8) -> Result<OpenReader> {
        let mut reader = RawReader {
            at: ptr::null_mut(),
            is_open: 0,
        };
        // SAFETY: the reader is closed, and apart from the four bytes.
        match unsafe { foreign::warn_codes_c_open(&mut reader, office.as_ptr(), class) } {
            OK => Ok(OpenReader(reader)),
            status => Err(Error::of(status, 0)),
        }
    }

    pub fn take(&mut self, piece: &[u8]) -> Result<()> {
        // SAFETY: the reader is as the last call left it, and apart from the slice.
        let status =
            unsafe { foreign::warn_codes_c_take(&mut self.0, piece.as_ptr(), piece.len()) };
        went_well(status)
    }

    pub fn end(&mut self) -> Result<()> {
        // SAFETY: the reader is as the last call left it.
        went_well(unsafe { foreign::warn_codes_c_end(&mut self.0) })
    }

    pub fn tell(&mut self, question: u32, minute: u32) -> Result<Vec<RawRow>> {
        let mut rows = Vec::with_capacity(64);
        loop {
            let mut needed = 0;
            let room = rows.capacity();
            // SAFETY: the reader is as the last call left it; count and room are whole, and apart.
            let status = unsafe {
                foreign::warn_codes_c_tell(
                    &mut self.0,
                    question,
                    minute,
                    rows.as_mut_ptr(),
                    room,
                    &mut needed,
                )
            };
            match status {
                TOO_SMALL => rows.reserve_exact(needed),
                status => {
                    went_well(status)?;
                    // SAFETY: so many rows were written.
                    unsafe { rows.set_len(needed) };
                    return Ok(rows);
                }
            }
        }
    }
}

impl Drop for OpenReader {
    fn drop(&mut self) {
        // SAFETY: the reader is as the last call left it.
        unsafe { foreign::warn_codes_c_close(&mut self.0) };
    }
}

/// A reader that is open takes each question of this crate, so that a bad argument is a reader
/// that was closed.
fn went_well(status: u32) -> Result<()> {
    match status {
        OK => Ok(()),
        BAD_ARGUMENT => Err(Error::Closed),
        status => Err(Error::of(status, 0)),
    }
}
