//! Colours and sums of colours.

use std::fmt;

use serde::Serialize;

/// The bytes of one pixel.
pub const CHANNELS: usize = 4;

/// A colour: red, green, blue and alpha, which says how opaque it is.
#[derive(Clone, Copy, Debug, Default, PartialEq, Eq, PartialOrd, Ord, Serialize)]
pub struct Rgba {
    pub r: u8,
    pub g: u8,
    pub b: u8,
    pub a: u8,
}

impl Rgba {
    /// The colour of the pixel with number `pixel`, of an image of four bytes a pixel.
    pub fn at(image: &[u8], pixel: usize) -> Option<Self> {
        let start = pixel.checked_mul(CHANNELS)?;
        match *image.get(start..start.checked_add(CHANNELS)?)? {
            [r, g, b, a] => Some(Self { r, g, b, a }),
            _ => None,
        }
    }

    /// The four bytes, in the order of an image.
    pub fn bytes(self) -> [u8; CHANNELS] {
        [self.r, self.g, self.b, self.a]
    }
}

impl fmt::Display for Rgba {
    fn fmt(&self, out: &mut fmt::Formatter) -> fmt::Result {
        let Self { r, g, b, a } = self;
        write!(out, "#{r:02X}{g:02X}{b:02X}{a:02X}")
    }
}

/// A sum of colours, with the number of pixels that were added.
#[derive(Clone, Copy, Debug, Default, PartialEq, Eq, Serialize)]
pub struct Sum {
    pub r: u32,
    pub g: u32,
    pub b: u32,
    pub a: u32,
    pub count: u32,
}

impl Sum {
    /// The totals of the four channels, by their names.
    pub fn channels(self) -> [(&'static str, u32); CHANNELS] {
        [
            ("red", self.r),
            ("green", self.g),
            ("blue", self.b),
            ("alpha", self.a),
        ]
    }

    /// The average, each channel rounded down; none where nothing was added or a channel has no byte.
    pub fn average(self) -> Option<Rgba> {
        let channel = |total: u32| u8::try_from(total.checked_div(self.count)?).ok();
        Some(Rgba {
            r: channel(self.r)?,
            g: channel(self.g)?,
            b: channel(self.b)?,
            a: channel(self.a)?,
        })
    }

    /// Adds one pixel. An image that the library accepts is too small for a total to overflow.
    pub fn add(&mut self, colour: Rgba) {
        self.r += u32::from(colour.r);
        self.g += u32::from(colour.g);
        self.b += u32::from(colour.b);
        self.a += u32::from(colour.a);
        self.count += 1;
    }
}

#[cfg(test)]
mod tests {
    use super::*;

    #[test]
    fn averages_are_rounded_down() {
        let mut sum = Sum::default();
        assert_eq!(sum.average(), None);
        sum.add(Rgba {
            r: 1,
            g: 2,
            b: 255,
            a: 255,
        });
        sum.add(Rgba {
            r: 2,
            g: 2,
            b: 254,
            a: 255,
        });
        assert_eq!(
            sum,
            Sum {
                r: 3,
                g: 4,
                b: 509,
                a: 510,
                count: 2
            }
        );
        assert_eq!(
            sum.average(),
            Some(Rgba {
                r: 1,
                g: 2,
                b: 254,
                a: 255
            })
        );
        assert_eq!(
            Sum {
                r: 512,
                count: 2,
                ..sum
            }
            .average(),
            None
        );
    }

    #[test]
    fn a_pixel_is_four_bytes() {
        let image = [1, 2, 3, 4, 5, 6, 7, 8];
        assert_eq!(
            Rgba::at(&image, 1),
            Some(Rgba {
                r: 5,
                g: 6,
                b: 7,
                a: 8
            })
        );
        assert_eq!(Rgba::at(&image, 2), None);
        assert_eq!(Rgba::at(&image, usize::MAX), None);
        assert_eq!(
            Rgba {
                r: 10,
                g: 0,
                b: 255,
                a: 1
            }
            .to_string(),
            "#0A00FF01"
        );
    }
}
