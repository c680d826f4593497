//! Values, faults and answers that the Instructions and docs/ARCHIVE.md ask for.
use std::thread;
use warn_codes::{
    products, Breach, Error, Frame, FrameFault, Hvtec, Minute, Reader, Ugc, UgcFault, Vtec,
};

const PRODUCT: &str = "WWUS41 KLWX 031530 COR\nWSWLWX\n\nURGENT\n\
    1030 AM EST Wed Jan 3 2018\n\nMDZ003>005-VAC013-032330-\n\
    /O.NEW.KLWX.WS.W.0001.180103T1530Z-180104T0000Z/\n\
    /O.NEW.KLWX.FL.W.0002.180103T1530Z-180104T0000Z/\n\
    /FREV2.1.ER.180103T1530Z.180104T0000Z.000000T0000Z.NO/\nFrederick-\n\n$$\n";

#[test]
fn frames_have_their_parts() {
    let frame = Frame::read(PRODUCT.as_bytes()).unwrap();
    assert_eq!(
        (frame.heading.as_str(), frame.office.as_str()),
        ("WWUS41", "KLWX")
    );
    assert_eq!(
        (frame.bbb.as_deref(), frame.day.to_string().as_str()),
        (Some("COR"), "031530")
    );
    assert_eq!(
        (frame.identifier.as_str(), frame.issue.to_string().as_str()),
        ("WSWLWX", "180103T1530Z")
    );
    let segment = &frame.segments[0];
    let zones: Vec<String> = segment.zones.iter().map(ToString::to_string).collect();
    assert_eq!(zones, ["MDZ003", "MDZ004", "MDZ005", "VAC013"]);
    assert!(segment.zones.windows(2).all(|pair| pair[0] < pair[1]));
    assert_eq!(segment.lines.len(), 2);
    assert_eq!(segment.lines[0].hvtec, None);
    assert_eq!(segment.lines[1].hvtec.unwrap().cause(), "ER");
}

#[test]
fn each_cut_of_a_product_is_read_or_refused() {
    for length in 0..PRODUCT.len() {
        match Frame::read(&PRODUCT.as_bytes()[..length]) {
            Ok(frame) => assert!(frame.segments.len() <= 1, "{length}"),
            Err(error) => assert!(matches!(error, Error::Frame(_)), "{length}"),
        }
    }
}

#[test]
fn each_changed_byte_of_a_line_is_another_text_or_none() {
    let text = "/O.NEW.KLWX.WS.W.0001.180103T1530Z-180104T0000Z/";
    for at in 0..48 {
        for byte in 0..=255 {
            let mut bytes = text.as_bytes().to_vec();
            bytes[at] = byte;
            match Vtec::read(&bytes) {
                Ok(vtec) => assert_eq!(vtec.to_string().as_bytes(), bytes),
                Err(error) => assert_eq!(error, Error::NotVtec),
            }
        }
    }
}

#[test]
fn values_without_a_text_are_refused() {
    let end = Minute::from_stamp("180104T0000Z");
    let new = |class, action, office, phenomenon, significance, number| {
        Vtec::new(
            class,
            action,
            office,
            phenomenon,
            significance,
            number,
            None,
            end,
        )
    };
    assert_eq!(
        new('O', "NEW", "KLWX", "WS", 'W', 1).unwrap().to_string(),
        "/O.NEW.KLWX.WS.W.0001.000000T0000Z-180104T0000Z/"
    );
    for refused in [
        new('Q', "NEW", "KLWX", "WS", 'W', 1),
        new('O', "NEE", "KLWX", "WS", 'W', 1),
        new('O', "NEW", "KLW", "WS", 'W', 1),
        new('O', "NEW", "klwx", "WS", 'W', 1),
        new('O', "NEW", "KLWX", "W5", 'W', 1),
        new('O', "NEW", "KLWX", "WS", 'é', 1),
        new('O', "NEW", "KLWX", "WS", 'W', 10_000),
    ] {
        assert_eq!(refused, Err(Error::BadValue));
    }
    assert_eq!(
        Hvtec::new("FREV2", '4', "ER", [None; 3], "NO"),
        Err(Error::BadValue)
    );
}

#[test]
fn stamps_are_those_of_the_calendar() {
    for stamp in [
        "000101T0000Z",
        "000229T2359Z",
        "180103T1530Z",
        "991231T2359Z",
    ] {
        assert_eq!(Minute::from_stamp(stamp).unwrap().to_string(), stamp);
    }
    let mut count = 0;
    while let Some(minute) = Minute::new(count) {
        assert_eq!(Minute::from_stamp(&minute.to_string()), Some(minute));
        count += 7919;
    }
}

#[test]
fn more_zones_than_a_first_try_has_room_for() {
    let ugc = Ugc::read(b"MDZ001>999-VAC001>999-031500-").unwrap();
    assert_eq!(
        (ugc.zones.len(), ugc.zones[1997].to_string().as_str()),
        (1998, "VAC999")
    );
    assert_eq!(Ugc::read(b""), Err(Error::Ugc(UgcFault::CutShort)));
    assert_eq!(
        Ugc::read(b"MDZ005>003-031500-"),
        Err(Error::Ugc(UgcFault::BadRange { at: 0 }))
    );
}

#[test]
fn a_stream_in_pieces_tells_what_it_tells_whole() {
    let cancel = PRODUCT
        .replace("0001.180103T1530Z", "0001.000000T0000Z")
        .replace(".NEW.", ".CAN.")
        .replace("031530", "031630");
    let stream = format!("{PRODUCT}\n{}", cancel.replace("1030 AM", "1130 AM"));
    let mut reader = Reader::new("KLWX", 'O').unwrap();
    for piece in stream.as_bytes().chunks(7) {
        reader.push(piece).unwrap();
    }
    assert_eq!(reader.lives().unwrap().len(), 8);
    reader.end().unwrap();
    let found = reader
        .all(Minute::from_stamp("180103T1545Z").unwrap())
        .unwrap();
    assert_eq!(
        found.lives[4].to_string(),
        "WS.W.0001.2018 MDZ003 NEW@180103T1530Z CAN@180103T1630Z"
    );
    assert_eq!(found.breaches[0].breach, Breach::ZeroBegin);
    assert_eq!((found.gaps.len(), found.gaps[0].wanted), (1, 1));
    assert_eq!(found.lives, reader.lives().unwrap());
    assert_eq!(found.breaches, reader.breaches().unwrap());
    assert_eq!(found.gaps, reader.gaps().unwrap());
    assert_eq!(Reader::new("KLW", 'O').unwrap_err(), Error::BadArgument);
    assert_eq!(Reader::new("KLWX", 'Q').unwrap_err(), Error::BadArgument);
    assert_eq!(products(stream.as_bytes()).unwrap().len(), 2);
    let faults: Vec<_> = products(&stream.as_bytes()[..60])
        .unwrap()
        .map(Frame::read)
        .collect();
    assert_eq!(faults, [Err(Error::Frame(FrameFault::NoIssueTime))]);
}

#[test]
fn a_reader_goes_from_thread_to_thread() {
    let mut reader = Reader::new("KLWX", 'O').unwrap();
    reader.push(PRODUCT.as_bytes()).unwrap();
    let lives = thread::spawn(move || {
        reader.end().unwrap();
        reader.lives().unwrap()
    });
    assert_eq!(lives.join().unwrap().len(), 8);
}

#[test]
fn bytes_that_are_no_text_are_taken_and_say_nothing() {
    let mut reader = Reader::new("KLWX", 'O').unwrap();
    for piece in [&[][..], &[0; 3], &[0xff; 1000], b"\xc3\x28\n"] {
        assert_eq!(Frame::read(piece), Err(Error::Frame(FrameFault::NoHeading)));
        assert_eq!(products(piece).unwrap().len(), 0);
        reader.take(piece).unwrap();
    }
    assert_eq!(reader.lives(), Ok(vec![]));
    for (office, class) in [
        ("", 'O'),
        ("ÄÄ", 'O'),
        ("K\0WX", 'O'),
        ("KLWX", 'é'),
        ("KLWX", '☃'),
    ] {
        assert_eq!(Reader::new(office, class).unwrap_err(), Error::BadArgument);
    }
}
