//! PAM files, the simplest of the netpbm formats that has alpha.

use std::cmp::Ordering;
use std::io::{BufRead, BufReader, Read};

use super::{broken, Accepts, Image};
use crate::colour::CHANNELS;
use crate::failure::Failure;
use crate::place::{unreadable, up_to};

/// The first bytes of every PAM.
pub const SIGNATURE: &[u8] = b"P7\n";

/// No header is longer than this.
const MAX_HEADER: u64 = 64 << 10;

/// The kinds of tuple that can be read, with their depth: how many samples a pixel has.
const TUPLE_TYPES: [(&str, usize); 6] = [
    ("BLACKANDWHITE", 1),
    ("GRAYSCALE", 1),
    ("BLACKANDWHITE_ALPHA", 2),
    ("GRAYSCALE_ALPHA", 2),
    ("RGB", 3),
    ("RGB_ALPHA", 4),
];

/// What the header says. The depth says the kind of tuple.
#[derive(Debug, Default)]
struct Header {
    width: Option<u32>,
    height: Option<u32>,
    depth: Option<u32>,
    maxval: Option<u32>,
    tuple_type: String,
}

/// Reads a PAM. Samples are scaled to bytes: with MAXVAL 65535 the high byte counts, as for PNG, and
/// else the nearest of 255 steps.
pub fn decode(input: &mut dyn Read, accepts: Accepts) -> Result<Image, Failure> {
    let mut input = BufReader::new(input);
    let header = Header::read(&mut input)?;
    let width = stated("WIDTH", header.width)?;
    let height = stated("HEIGHT", header.height)?;
    let depth = header.channels()?;
    let maxval = stated("MAXVAL", header.maxval)?;
    if !(1..=65_535).contains(&maxval) {
        return Err(wrong(&format!("MAXVAL is {maxval}, not 1 to 65535")));
    }
    accepts(width, height)?;
    // The size was accepted, so this is a small number.
    let samples = u64::from(width) * u64::from(height) * depth as u64;
    let values = read_samples(&mut input, samples, maxval)?;
    let bytes = values.chunks_exact(depth).flat_map(rgba).collect();
    Ok(Image {
        width,
        height,
        bytes,
    })
}

/// Writes a PAM with four channels of a byte.
pub fn encode(image: &Image) -> Vec<u8> {
    let header = format!(
        "P7\nWIDTH {}\nHEIGHT {}\nDEPTH 4\nMAXVAL 255\nTUPLTYPE RGB_ALPHA\nENDHDR\n",
        image.width, image.height
    );
    [header.as_bytes(), &image.bytes].concat()
}

impl Header {
    /// Reads the lines up to ENDHDR.
    fn read(input: &mut dyn BufRead) -> Result<Self, Failure> {
        let mut lines = input.take(MAX_HEADER);
        let mut header = Self::default();
        loop {
            let mut line = Vec::new();
            lines
                .read_until(b'\n', &mut line)
                .map_err(|error| unreadable(&error))?;
            if line.pop() != Some(b'\n') {
                return Err(wrong("its header does not end"));
            }
            let line = String::from_utf8_lossy(&line);
            if line.trim() == "ENDHDR" {
                return Ok(header);
            }
            header.take(&line)?;
        }
    }

    /// Takes in one line.
    fn take(&mut self, line: &str) -> Result<(), Failure> {
        let line = line.trim();
        let (name, value) = line.split_once(char::is_whitespace).unwrap_or((line, ""));
        let value = value.trim();
        let number = match name {
            "WIDTH" => &mut self.width,
            "HEIGHT" => &mut self.height,
            "DEPTH" => &mut self.depth,
            "MAXVAL" => &mut self.maxval,
            "TUPLTYPE" => {
                self.tuple_type = format!("{} {value}", self.tuple_type).trim().to_string();
                return Ok(());
            }
            "P7" | "" => return Ok(()),
            _ if name.starts_with('#') => return Ok(()),
            _ => return Err(wrong(&format!("its header has a line {name:?}"))),
        };
        let parsed = value.parse();
        let parsed =
            parsed.map_err(|_| wrong(&format!("{name} is {value:?}, not a number of 32 bits")))?;
        match number.replace(parsed) {
            None => Ok(()),
            Some(_) => Err(wrong(&format!("{name} stands twice"))),
        }
    }

    /// How many samples a pixel has: one or three for colour, and perhaps one for alpha.
    fn channels(&self) -> Result<usize, Failure> {
        let depth = stated("DEPTH", self.depth)? as usize;
        let fits = |(name, channels): &(&str, usize)| {
            *channels == depth && (self.tuple_type.is_empty() || self.tuple_type == *name)
        };
        match TUPLE_TYPES.iter().find(|kind| fits(kind)) {
            Some(_) => Ok(depth),
            None => Err(Failure::File(format!(
                "it is a PAM of a kind that can't be read: TUPLTYPE {:?} with DEPTH {depth}",
                self.tuple_type
            ))),
        }
    }
}

/// Reads all samples and scales them to bytes.
fn read_samples(input: &mut dyn Read, count: u64, maxval: u32) -> Result<Vec<u8>, Failure> {
    let width = if maxval < 256 { 1 } else { 2 };
    let length = count * width;
    let bytes = up_to(input, length + 1)?;
    match (bytes.len() as u64).cmp(&length) {
        Ordering::Less => return Err(wrong("it is cut off before its end")),
        Ordering::Greater => return Err(wrong("more bytes follow after its last pixel")),
        Ordering::Equal => (),
    }
    bytes
        .chunks_exact(width as usize)
        .map(|sample| {
            scale(
                sample
                    .iter()
                    .fold(0, |value, byte| value << 8 | u32::from(*byte)),
                maxval,
            )
        })
        .collect()
}

/// Scales a sample from 0..=maxval to a byte.
fn scale(value: u32, maxval: u32) -> Result<u8, Failure> {
    let scaled = match maxval {
        _ if value > maxval => None,
        65_535 => u8::try_from(value >> 8).ok(),
        _ => u8::try_from((value * 255 + maxval / 2) / maxval).ok(),
    };
    scaled.ok_or_else(|| wrong(&format!("a sample is {value}, above MAXVAL {maxval}")))
}

/// The colour of a pixel of one to four samples.
fn rgba(samples: &[u8]) -> [u8; CHANNELS] {
    match *samples {
        [y] => [y, y, y, 255],
        [y, a] => [y, y, y, a],
        [r, g, b] => [r, g, b, 255],
        [r, g, b, a, ..] => [r, g, b, a],
        [] => [0; CHANNELS],
    }
}

fn stated(name: &str, number: Option<u32>) -> Result<u32, Failure> {
    number.ok_or_else(|| wrong(&format!("its header has no {name}")))
}

fn wrong(why: &str) -> Failure {
    broken("PAM", why)
}

#[cfg(test)]
mod tests {
    use super::*;

    fn any(_: u32, _: u32) -> Result<(), Failure> {
        Ok(())
    }

    fn file(kind: &str, depth: u32, maxval: u32, samples: &[u8]) -> Vec<u8> {
        let header = format!("P7\n# made by hand\nWIDTH 1\nHEIGHT 2\nDEPTH {depth}\nMAXVAL {maxval}\n{kind}\nENDHDR\n");
        [header.as_bytes(), samples].concat()
    }

    fn read(file: &[u8]) -> Result<Vec<u8>, String> {
        let image = decode(&mut &*file, &any).map_err(|error| error.to_string())?;
        assert_eq!((image.width, image.height), (1, 2));
        Ok(image.bytes)
    }

    #[test]
    fn every_kind_becomes_rgba() {
        let good = |kind: &str, depth, maxval, samples: &[u8]| {
            let named = file(&format!("TUPLTYPE {kind}"), depth, maxval, samples);
            let unnamed = file("", depth, maxval, samples);
            assert_eq!(read(&named), read(&unnamed));
            read(&named).unwrap()
        };
        assert_eq!(
            good("BLACKANDWHITE", 1, 1, &[0, 1]),
            [0, 0, 0, 255, 255, 255, 255, 255]
        );
        assert_eq!(
            good("GRAYSCALE", 1, 255, &[7, 9]),
            [7, 7, 7, 255, 9, 9, 9, 255]
        );
        assert_eq!(
            good("GRAYSCALE_ALPHA", 2, 255, &[7, 1, 9, 2]),
            [7, 7, 7, 1, 9, 9, 9, 2]
        );
        assert_eq!(
            good("RGB", 3, 255, &[1, 2, 3, 4, 5, 6]),
            [1, 2, 3, 255, 4, 5, 6, 255]
        );
        assert_eq!(
            good("RGB_ALPHA", 4, 255, &[1, 2, 3, 4, 5, 6, 7, 8]),
            [1, 2, 3, 4, 5, 6, 7, 8]
        );
        // Two bytes a sample, the high one first.
        assert_eq!(
            good("GRAYSCALE", 1, 65_535, &[1, 255, 254, 0]),
            [1, 1, 1, 255, 254, 254, 254, 255]
        );
    }

    #[test]
    fn samples_are_scaled_to_the_nearest_step() {
        assert_eq!(
            [0, 1, 2, 3].map(|value| scale(value, 3).unwrap()),
            [0, 85, 170, 255]
        );
        assert_eq!(
            [0, 1, 50, 100].map(|value| scale(value, 100).unwrap()),
            [0, 3, 128, 255]
        );
        assert_eq!(
            [0, 128, 255].map(|value| scale(value, 255).unwrap()),
            [0, 128, 255]
        );
        assert_eq!(
            [0, 256, 1023].map(|value| scale(value, 1023).unwrap()),
            [0, 64, 255]
        );
        assert_eq!(
            [0x00ff, 0xff00, 0xffff].map(|value| scale(value, 65_535).unwrap()),
            [0, 255, 255]
        );
        assert!(scale(4, 3).is_err());
    }

    #[test]
    fn wrong_files_are_refused_in_words() {
        let refused = |bytes: &[u8], word: &str| {
            let error = read(bytes).unwrap_err();
            assert!(error.contains(word), "{error}");
        };
        let good = file("TUPLTYPE GRAYSCALE", 1, 255, &[1, 2]);
        assert!(read(&good).is_ok());
        refused(&good[..good.len() - 1], "cut off");
        refused(&[good.as_slice(), b"P7\n"].concat(), "more bytes follow");
        refused(
            &file("TUPLTYPE RGB", 1, 255, &[1, 2]),
            "TUPLTYPE \"RGB\" with DEPTH 1",
        );
        refused(&file("TUPLTYPE CMYK", 4, 255, &[1; 8]), "can't be read");
        refused(&file("", 5, 255, &[1; 10]), "DEPTH 5");
        refused(&file("", 1, 0, &[1, 2]), "MAXVAL is 0");
        refused(&file("", 1, 65_536, &[1; 4]), "MAXVAL is 65536");
        refused(&file("", 1, 100, &[1, 101]), "a sample is 101");
        refused(&file("WIDTH 1", 1, 255, &[1, 2]), "WIDTH stands twice");
        refused(&file("SIZE 1", 1, 255, &[1, 2]), "\"SIZE\"");
        refused(
            b"P7\nWIDTH 99999999999\nENDHDR\n",
            "WIDTH is \"99999999999\"",
        );
        refused(b"P7\nWIDTH -1\nENDHDR\n", "WIDTH is \"-1\"");
        refused(b"P7\nHEIGHT 1\nENDHDR\n", "no WIDTH");
        refused(b"P7\nWIDTH 1\n", "does not end");
        refused(
            &[b"P7\n#".as_slice(), &[b'x'; 70_000]].concat(),
            "does not end",
        );
    }

    #[test]
    fn what_is_written_is_read_back() {
        let image = Image {
            width: 1,
            height: 2,
            bytes: vec![1, 2, 3, 4, 5, 6, 7, 0],
        };
        assert_eq!(read(&encode(&image)), Ok(image.bytes));
    }
}
