//! PNG files.

use std::io::Read;

use png::{
    BitDepth, ColorType, Decoded, Decoder, DecodingError, Encoder, StreamingDecoder,
    Transformations,
};

use super::{broken, Accepts, Image, MAX_BYTES};
use crate::colour::CHANNELS;
use crate::failure::Failure;
use crate::place::up_to;

/// The first bytes of every PNG.
pub const SIGNATURE: &[u8] = b"\x89PNG\r\n\x1a\n";

/// The signature and the chunk with the size.
const HEADER: u64 = 33;

/// More unpacked image data than this is not waited for; the largest chart has less than a hundredth.
const MAX_UNPACKED: usize = 64 << 20;

/// Reads a PNG of any colour type and bit depth. Of an animation it is the still image; of a channel
/// of 16 bits the high byte.
pub fn decode(input: &mut dyn Read, accepts: Accepts) -> Result<Image, Failure> {
    let mut bytes = up_to(input, HEADER)?;
    let (width, height) = size(&bytes)?;
    accepts(width, height)?;
    bytes.append(&mut up_to(input, MAX_BYTES)?);
    if bytes.len() as u64 >= MAX_BYTES {
        let text = "it is a PNG of 64 MiB or more, far more than its size needs. Save it anew.";
        return Err(Failure::File(text.to_string()));
    }
    check_to_the_end(&bytes)?;
    Ok(Image {
        width,
        height,
        bytes: pixels(&bytes)?,
    })
}

/// Writes a PNG with four channels of a byte.
pub fn encode(image: &Image) -> Result<Vec<u8>, Failure> {
    let mut file = Vec::new();
    let mut encoder = Encoder::new(&mut file, image.width, image.height);
    encoder.set_color(ColorType::Rgba);
    encoder.set_depth(BitDepth::Eight);
    encoder
        .write_header()
        .and_then(|mut writer| {
            writer.write_image_data(&image.bytes)?;
            writer.finish()
        })
        .map_err(|error| Failure::Internal(format!("no PNG could be made: {error}")))?;
    Ok(file)
}

/// Width and height, by the header alone.
fn size(header: &[u8]) -> Result<(u32, u32), Failure> {
    if (header.len() as u64) < HEADER {
        return Err(cut_off());
    }
    let mut decoder = Decoder::new(header);
    decoder
        .read_header_info()
        .map(png::Info::size)
        .map_err(wrong)
}

/// Every chunk up to the last, with its checksum. The decoder for pixels stops after the last row,
/// and so would not miss what is cut off behind it.
fn check_to_the_end(mut bytes: &[u8]) -> Result<(), Failure> {
    let mut decoder = StreamingDecoder::new();
    let mut unpacked = Vec::new();
    let mut total = 0;
    while !bytes.is_empty() {
        let (read, event) = decoder.update(bytes, &mut unpacked).map_err(wrong)?;
        if let Decoded::ImageEnd = event {
            return Ok(());
        }
        total += unpacked.len();
        if total > MAX_UNPACKED {
            return Err(broken("PNG", "it unpacks to far more than its size says"));
        }
        unpacked.clear();
        bytes = &bytes[read..];
    }
    Err(cut_off())
}

/// The pixels as RGBA bytes.
fn pixels(bytes: &[u8]) -> Result<Vec<u8>, Failure> {
    let mut decoder = Decoder::new(bytes);
    decoder.set_transformations(Transformations::EXPAND | Transformations::STRIP_16);
    let mut reader = decoder.read_info().map_err(wrong)?;
    let info = reader.info();
    let whole = |control: &png::FrameControl| (control.width, control.height) == info.size();
    if !info.frame_control().map_or(true, whole) {
        return Err(broken("PNG", "its first frame is not of its size"));
    }
    let mut samples = vec![0; reader.output_buffer_size()];
    let frame = reader.next_frame(&mut samples).map_err(wrong)?;
    samples.truncate(frame.buffer_size());
    match (frame.color_type, frame.bit_depth) {
        (ColorType::Grayscale, BitDepth::Eight) => Ok(spread(&samples, |[y]| [y, y, y, 255])),
        (ColorType::GrayscaleAlpha, BitDepth::Eight) => Ok(spread(&samples, |[y, a]| [y, y, y, a])),
        (ColorType::Rgb, BitDepth::Eight) => Ok(spread(&samples, |[r, g, b]| [r, g, b, 255])),
        (ColorType::Rgba, BitDepth::Eight) => Ok(samples),
        other => Err(Failure::Internal(format!("a PNG was read as {other:?}"))),
    }
}

/// Makes four channels of `N` for each pixel.
fn spread<const N: usize>(samples: &[u8], pixel: impl Fn([u8; N]) -> [u8; CHANNELS]) -> Vec<u8> {
    let mut bytes = Vec::with_capacity(samples.len() / N * CHANNELS);
    for sample in samples.chunks_exact(N) {
        let mut channels = [0; N];
        channels.copy_from_slice(sample);
        bytes.extend(pixel(channels));
    }
    bytes
}

fn cut_off() -> Failure {
    broken("PNG", "it is cut off before its end")
}

fn wrong(error: DecodingError) -> Failure {
    match error {
        DecodingError::LimitsExceeded => Failure::File(
            "it is a PNG with more than 1 MiB of text, profile or other notes in one piece. Save it without them."
                .to_string(),
        ),
        error => broken("PNG", &error.to_string()),
    }
}

#[cfg(test)]
mod tests {
    use super::*;

    fn any(_: u32, _: u32) -> Result<(), Failure> {
        Ok(())
    }

    fn two_pixels() -> Image {
        Image {
            width: 2,
            height: 1,
            bytes: vec![1, 2, 3, 4, 250, 251, 252, 0],
        }
    }

    #[test]
    fn what_is_written_is_read_back() {
        let file = encode(&two_pixels()).unwrap();
        assert_eq!(decode(&mut file.as_slice(), &any).unwrap(), two_pixels());
    }

    #[test]
    fn every_cut_and_every_changed_byte_is_noticed() {
        let file = encode(&two_pixels()).unwrap();
        for length in SIGNATURE.len()..file.len() {
            let error = decode(&mut &file[..length], &any).unwrap_err().to_string();
            assert!(error.contains("cut off"), "{length}: {error}");
        }
        for place in SIGNATURE.len()..file.len() {
            let mut changed = file.clone();
            changed[place] ^= 0x10;
            assert!(decode(&mut changed.as_slice(), &any).is_err(), "{place}");
        }
    }

    #[test]
    fn the_size_is_asked_before_the_pixels_are_read() {
        let file = encode(&two_pixels()).unwrap();
        let refuse = |width, height| Err(Failure::File(format!("{width} by {height}")));
        let error = decode(&mut &file[..33], &refuse).unwrap_err();
        assert_eq!(error.to_string(), "2 by 1");
    }
}
