//! Prints the lives that the products of a file tell of an office's events: lives FILE OFFICE
//! CLASS
use std::{env, error::Error, fs};
use warn_codes::Reader;

fn main() -> Result<(), Box<dyn Error>> {
    let words: Vec<String> = env::args().skip(1).collect();
    let (file, office, class) = match words.as_slice() {
        [file, office, class] => (file, office, class),
        _ => return Err("lives FILE OFFICE CLASS".into()),
    };
    let mut reader = Reader::new(office, class.chars().next().unwrap_or(' '))?;
    reader.take(&fs::read(file)?)?;
    for life in reader.lives()? {
        println!("life {life}");
    }
    Ok(())
}
