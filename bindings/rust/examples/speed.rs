//! Reads a P-VTEC text COUNT times, by the library or by a plain reader: speed library|plain
//! COUNT
use std::env;
use std::ptr;
use warn_codes::Vtec;

const TEXT: &str = "/O.NEW.KLWX.WS.W.0001.180103T1530Z-180104T0000Z/";

/// Minutes since 2000, for days up to 28 of each month.
fn plain_time(text: &str) -> Option<u32> {
    let at = |from: usize| text.get(from..from + 2)?.parse::<u32>().ok();
    let (year, month, day, hour, minute) = (at(0)?, at(2)?, at(4)?, at(7)?, at(9)?);
    (text.get(6..7)? == "T" && text.get(11..)? == "Z")
        .then_some(((year * 372 + month * 31 + day) * 24 + hour) * 60 + minute)
}

/// Takes much that is no P-VTEC text, as plain readers do: it looks up no action and no day of a
/// month.
fn plain_read(text: &str) -> Option<(String, u16, u32, u32)> {
    let inner = text.strip_prefix('/')?.strip_suffix('/')?;
    let mut parts = inner.split('.');
    let (_class, _action, _office) = (parts.next()?, parts.next()?, parts.next()?);
    let hazard = format!("{}.{}", parts.next()?, parts.next()?);
    let number = parts.next()?.parse().ok()?;
    let (begin, end) = parts.next()?.split_once('-')?;
    Some((hazard, number, plain_time(begin)?, plain_time(end)?))
}

fn main() {
    let words: Vec<String> = env::args().collect();
    let count: u64 = words[2].parse().expect("a count");
    let mut sum = 0;
    for _ in 0..count {
        // SAFETY: a constant. It is read anew each time, so that no reading is left out.
        let text = unsafe { ptr::read_volatile(&TEXT) };
        sum += u64::from(if words[1] == "library" {
            Vtec::read(text.as_bytes()).map_or(0, |vtec| vtec.number())
        } else {
            plain_read(text).map_or(0, |read| read.1)
        });
    }
    assert_eq!(sum, count);
}
