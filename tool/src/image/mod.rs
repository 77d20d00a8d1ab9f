//! Images as RGBA bytes, and the files that hold them.

mod pam;
mod png;

use std::ffi::OsStr;
use std::io::Read;
use std::path::Path;

use crate::failure::Failure;
use crate::place::{up_to, Place};

/// More bytes than this are not read: a file for the largest chart has far fewer.
const MAX_BYTES: u64 = 64 << 20;

/// The bytes that tell PNG and PAM apart.
const MAGIC: u64 = 8;

/// Four bytes a pixel, row by row: red, green, blue, alpha.
#[derive(Clone, Debug, PartialEq, Eq)]
pub struct Image {
    pub width: u32,
    pub height: u32,
    pub bytes: Vec<u8>,
}

/// Says whether a chart of this width and height is taken; asked before its pixels are read.
pub type Accepts<'a> = &'a dyn Fn(u32, u32) -> Result<(), Failure>;

/// Reads a chart, PNG or PAM by its first bytes.
pub fn read(place: &Place, accepts: Accepts) -> Result<Image, Failure> {
    let mut input = place.open()?.take(MAX_BYTES);
    let magic = up_to(&mut input, MAGIC)?;
    if magic.is_empty() {
        return Err(Failure::File("it is empty".to_string()));
    }
    let cut_off = png::SIGNATURE.starts_with(&magic) || pam::SIGNATURE.starts_with(&magic);
    let mut whole = magic.as_slice().chain(input);
    if magic.starts_with(png::SIGNATURE) {
        png::decode(&mut whole, accepts)
    } else if magic.starts_with(pam::SIGNATURE) {
        pam::decode(&mut whole, accepts)
    } else if cut_off {
        Err(broken("chart", "it ends after its first bytes"))
    } else {
        let text = "it is neither PNG nor PAM. Save the chart as PNG.";
        Err(Failure::File(text.to_string()))
    }
}

/// Whether a file with these bytes is PNG or PAM, by the first of them.
pub fn is_picture(bytes: &[u8]) -> bool {
    bytes.starts_with(png::SIGNATURE) || bytes.starts_with(pam::SIGNATURE)
}

/// The file formats of a picture that is written.
#[derive(Clone, Copy, Debug, PartialEq, Eq)]
pub enum Format {
    Png,
    Pam,
}

impl Format {
    /// The format that a file's name asks for.
    pub fn of(path: &Path) -> Result<Self, Failure> {
        let ending = path.extension().and_then(OsStr::to_str).unwrap_or_default();
        match ending.to_ascii_lowercase().as_str() {
            "png" => Ok(Format::Png),
            "pam" => Ok(Format::Pam),
            _ => Err(Failure::Usage(format!(
                "{}: a picture is written as .png or .pam; give its name such an ending",
                path.display()
            ))),
        }
    }
}

impl Image {
    /// The bytes of a file with this image.
    pub fn encode(&self, format: Format) -> Result<Vec<u8>, Failure> {
        match format {
            Format::Png => png::encode(self),
            Format::Pam => Ok(pam::encode(self)),
        }
    }
}

/// The failure for a file that is not what its first bytes promise.
fn broken(kind: &str, why: &str) -> Failure {
    let why = why.trim_end_matches('.');
    Failure::File(format!(
        "it is a broken {kind}: {why}. Save or copy it anew."
    ))
}

#[cfg(test)]
mod tests {
    use super::*;

    #[test]
    fn a_name_gives_the_format() {
        assert_eq!(Format::of(Path::new("a.png")).unwrap(), Format::Png);
        assert_eq!(Format::of(Path::new("a.b/c.PAM")).unwrap(), Format::Pam);
        for wrong in ["a", "a.jpg", ".png", "png", "a.png/"] {
            assert_eq!(
                Format::of(Path::new(wrong)).is_err(),
                wrong != "a.png/",
                "{wrong}"
            );
        }
    }
}
