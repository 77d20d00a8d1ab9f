//! A picture of the sheet in which one cluster stands out.

use crate::colour::{Rgba, CHANNELS};
use crate::explain::Patch;
use crate::image::Image;
use crate::sheet::Sheet;

/// The longer side that a picture of a small sheet is enlarged to, about.
const SIDE: u32 = 1000;

/// How many pixels a side of one pixel of the sheet becomes: enough for a line along its edge.
const LEAST: u32 = 4;
const MOST: u32 = 32;

/// The grey that all but the cluster fades towards.
const FADED: u16 = 208;

/// How dark a shade must be for the line on it to be white: red, green and blue weighed 2 : 5 : 1.
const DARK: u32 = 8 * 48;

/// Where a pixel of the sheet lies.
#[derive(Clone, Copy, Debug, PartialEq, Eq)]
enum Part {
    Outside,
    /// In a cluster inside the one that is shown.
    Inner,
    /// Left to the one that is shown.
    Own,
}

/// The sheet enlarged, with one cluster outlined and the rest dimmed. A line also parts the pixels
/// that are left to it from those of clusters inside it.
pub fn outlined(sheet: &Sheet, patch: &Patch) -> Image {
    let mut parts = vec![Part::Outside; sheet.labels.len()];
    for (list, part) in [(&patch.pixels, Part::Inner), (&patch.own, Part::Own)] {
        for pixel in list {
            parts[*pixel] = part;
        }
    }
    let longer = sheet.width.max(sheet.height).max(1);
    let scale = (SIDE / longer).clamp(LEAST, MOST);
    let drawing = Drawing {
        sheet,
        parts,
        scale,
    };
    let (width, height) = (sheet.width * scale, sheet.height * scale);
    let mut bytes = Vec::with_capacity(width as usize * height as usize * CHANNELS);
    for y in 0..height {
        for x in 0..width {
            bytes.extend(drawing.colour(x, y).bytes());
        }
    }
    Image {
        width,
        height,
        bytes,
    }
}

struct Drawing<'a> {
    sheet: &'a Sheet,
    /// For each pixel of the sheet.
    parts: Vec<Part>,
    scale: u32,
}

impl Drawing<'_> {
    /// The colour at a place of the enlarged picture.
    fn colour(&self, x: u32, y: u32) -> Rgba {
        let (column, row) = (x / self.scale, y / self.scale);
        let pixel = row as usize * self.sheet.width as usize + column as usize;
        let shade = Rgba::at(&self.sheet.picture, pixel).unwrap_or_default();
        match self.part(column.into(), row.into()) {
            Part::Outside => dimmed(shade),
            part if self.near_less(x, y, part) => line_over(shade),
            _ => shade,
        }
    }

    /// Whether a place is on a line: near a pixel, also at a corner, that lies further out or is less its own.
    fn near_less(&self, x: u32, y: u32, part: Part) -> bool {
        let thickness = i64::from((self.scale / 4).min(4));
        let scale = i64::from(self.scale);
        let near = |place: u32| {
            [-thickness, thickness].map(|step| (i64::from(place) + step).div_euclid(scale))
        };
        let less = |column, row| match self.part(column, row) {
            Part::Outside => true,
            Part::Inner => part == Part::Own,
            Part::Own => false,
        };
        near(x)
            .iter()
            .any(|column| near(y).iter().any(|row| less(*column, *row)))
    }

    /// Where a pixel lies; off the sheet all is outside.
    fn part(&self, column: i64, row: i64) -> Part {
        let (width, height) = (i64::from(self.sheet.width), i64::from(self.sheet.height));
        if !(0..width).contains(&column) || !(0..height).contains(&row) {
            return Part::Outside;
        }
        let pixel = usize::try_from(row * width + column).unwrap_or(usize::MAX);
        self.parts.get(pixel).copied().unwrap_or(Part::Outside)
    }
}

/// A third of the shade, and as opaque.
fn dimmed(shade: Rgba) -> Rgba {
    let fade = |channel: u8| ((u16::from(channel) + 2 * FADED) / 3) as u8;
    Rgba {
        r: fade(shade.r),
        g: fade(shade.g),
        b: fade(shade.b),
        a: shade.a,
    }
}

/// Black, but white on a dark shade.
fn line_over(shade: Rgba) -> Rgba {
    let light = 2 * u32::from(shade.r) + 5 * u32::from(shade.g) + u32::from(shade.b);
    let level = if light < DARK { 255 } else { 0 };
    Rgba {
        r: level,
        g: level,
        b: level,
        a: 255,
    }
}

#[cfg(test)]
mod tests {
    use super::*;
    use crate::sheet::tests::black_in_white;

    fn at(image: &Image, x: usize, y: usize) -> Rgba {
        Rgba::at(&image.bytes, y * image.width as usize + x).unwrap()
    }

    fn patch(pixels: &[usize], own: &[usize]) -> Patch {
        Patch {
            pixels: pixels.to_vec(),
            own: own.to_vec(),
        }
    }

    const BLACK: Rgba = Rgba {
        r: 0,
        g: 0,
        b: 0,
        a: 255,
    };
    const WHITE: Rgba = Rgba {
        r: 255,
        g: 255,
        b: 255,
        a: 255,
    };

    #[test]
    fn the_cluster_stands_out() {
        let image = outlined(&black_in_white(), &patch(&[0], &[0]));
        assert_eq!((image.width, image.height), (64, 32));
        assert_eq!(at(&image, 16, 16), BLACK);
        for (x, y) in [(0, 16), (31, 16), (16, 0), (16, 31), (0, 0)] {
            assert_eq!(at(&image, x, y), WHITE, "{x} {y}");
        }
        assert_eq!(at(&image, 4, 4), BLACK);
        assert_eq!(at(&image, 32, 16), dimmed(WHITE));
        assert_eq!(
            dimmed(WHITE),
            Rgba {
                r: 223,
                g: 223,
                b: 223,
                a: 255
            }
        );
    }

    #[test]
    fn a_line_parts_what_lies_inside() {
        let image = outlined(&black_in_white(), &patch(&[1, 0], &[1]));
        // The white pixel is its own, the black one lies inside.
        assert_eq!(at(&image, 48, 16), WHITE);
        assert_eq!(at(&image, 32, 16), BLACK);
        assert_eq!(at(&image, 63, 16), BLACK);
        assert_eq!(at(&image, 31, 16), BLACK);
        assert_eq!(at(&image, 0, 16), WHITE);
        let whole = outlined(&black_in_white(), &patch(&[1, 0], &[1, 0]));
        assert_eq!(at(&whole, 32, 16), WHITE);
    }
}
