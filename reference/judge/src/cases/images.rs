//! Random palettes and textures.

use super::worked::{B, K, N, W};
use crate::case::{Case, Rgba, Settings};
use crate::rng::Rng;

/// The colours of an image; the first is the key where keying is on.
pub struct Palette(Vec<Rgba>);

impl Palette {
    /// Fixed colours, or random ones with some that differ little from them.
    pub fn random(rng: &mut Rng) -> Self {
        match rng.below(5) {
            0 => Self(vec![B, W]),
            1 => Self(vec![K, N, B, W]),
            2 => Self::keyed(rng),
            _ => Self::around(rng),
        }
    }

    /// The key, colours near it, and colours far from it.
    pub fn keyed(rng: &mut Rng) -> Self {
        let near = varied(rng, K, 2);
        let like = varied(rng, K, 24);
        let far: Vec<Rgba> = (0..rng.range(1, 4)).map(|_| any_color(rng)).collect();
        Self([vec![K, near, like], far].concat())
    }

    fn around(rng: &mut Rng) -> Self {
        let mut colors = Vec::new();
        for _ in 0..rng.range(1, 3) {
            let color = any_color(rng);
            let spread = rng.pick(&[1, 16, 40]);
            colors.extend([color, varied(rng, color, spread)]);
        }
        Self(colors)
    }

    /// The key colour of images with this palette.
    pub fn key(&self) -> Rgba {
        self.0[0]
    }

    fn pick(&self, rng: &mut Rng) -> Rgba {
        rng.pick(&self.0)
    }

    /// A colour that is not the key.
    fn pick_other(&self, rng: &mut Rng) -> Rgba {
        rng.pick(&self.0[1..])
    }
}

fn any_color(rng: &mut Rng) -> Rgba {
    let [r, g, b, a, ..] = rng.bits().to_le_bytes();
    [r, g, b, if rng.percent(70) { 255 } else { a }]
}

/// A colour whose channels lie within `spread` of those of `color`.
fn varied(rng: &mut Rng, color: Rgba, spread: u32) -> Rgba {
    let mut vary = |channel: u8| {
        let moved = u32::from(channel) + rng.below(2 * spread + 1);
        moved.saturating_sub(spread).min(255) as u8
    };
    let [r, g, b, a] = color;
    let rgb = [vary(r), vary(g), vary(b)];
    let alpha = if rng.percent(80) {
        a
    } else {
        a.wrapping_sub(1)
    };
    [rgb[0], rgb[1], rgb[2], alpha]
}

/// How an image is drawn from its palette.
#[derive(Clone, Copy)]
pub enum Texture {
    /// Each pixel for itself.
    Noise,
    /// Most pixels copy the one on the left or above.
    Smear,
    /// A ramp with a little noise.
    Gradient,
    /// Two colours by turns, with some noise.
    Checkerboard,
    /// Rectangles drawn over one another.
    Rectangles,
    /// Rings around one another.
    Rings,
    /// Small clusters on the key colour.
    Islands,
}

impl Texture {
    /// Any texture.
    pub fn random(rng: &mut Rng) -> Self {
        rng.pick(&[
            Texture::Noise,
            Texture::Smear,
            Texture::Smear,
            Texture::Gradient,
            Texture::Checkerboard,
            Texture::Rectangles,
            Texture::Rings,
            Texture::Islands,
        ])
    }
}

/// Draws an image with one texture and makes a case of it.
pub fn draw(
    rng: &mut Rng,
    settings: Settings,
    width: u32,
    height: u32,
    palette: &Palette,
    texture: Texture,
) -> Case {
    let mut canvas = Canvas {
        width,
        height,
        pixels: vec![palette.key(); (width * height) as usize],
    };
    match texture {
        Texture::Noise => canvas.fill(|_, _, _| palette.pick(rng)),
        Texture::Smear => canvas.smear(rng, palette),
        Texture::Gradient => canvas.gradient(rng, palette),
        Texture::Checkerboard => canvas.checkerboard(rng, palette),
        Texture::Rectangles => canvas.rectangles(rng, palette),
        Texture::Rings => canvas.rings(rng, palette),
        Texture::Islands => canvas.islands(rng, palette),
    }
    Case::of_pixels(settings, width, height, &canvas.pixels)
}

struct Canvas {
    width: u32,
    height: u32,
    pixels: Vec<Rgba>,
}

impl Canvas {
    /// Sets each pixel from the pixels so far, its column and its row.
    fn fill(&mut self, mut color: impl FnMut(&[Rgba], u32, u32) -> Rgba) {
        for p in 0..self.pixels.len() {
            let (x, y) = (p as u32 % self.width, p as u32 / self.width);
            self.pixels[p] = color(&self.pixels, x, y);
        }
    }

    fn smear(&mut self, rng: &mut Rng, palette: &Palette) {
        let width = self.width;
        let copied = rng.range(30, 90);
        self.fill(|pixels, x, y| {
            let p = (y * width + x) as usize;
            let copies = rng.percent(copied);
            let from_left = rng.percent(50);
            match (copies, x > 0 && (from_left || y == 0), y > 0) {
                (true, true, _) => pixels[p - 1],
                (true, false, true) => pixels[p - width as usize],
                _ => palette.pick(rng),
            }
        });
    }

    fn gradient(&mut self, rng: &mut Rng, palette: &Palette) {
        let [r, g, b, a] = palette.pick(rng);
        let (across, down, noise) = (rng.range(0, 40), rng.range(0, 40), rng.range(1, 12));
        self.fill(|_, x, y| {
            let ramp = (across * x + down * y + rng.below(noise)) as u8;
            [r.wrapping_add(ramp), g.saturating_add(ramp), b, a]
        });
    }

    fn checkerboard(&mut self, rng: &mut Rng, palette: &Palette) {
        let (even, odd) = (palette.pick(rng), palette.pick(rng));
        self.fill(|_, x, y| match (rng.percent(15), (x + y) % 2) {
            (true, _) => palette.pick(rng),
            (false, 0) => even,
            _ => odd,
        });
    }

    fn rectangles(&mut self, rng: &mut Rng, palette: &Palette) {
        for _ in 0..rng.range(2, 6) {
            let (x0, y0) = (rng.below(self.width), rng.below(self.height));
            let (x1, y1) = (rng.range(x0, self.width), rng.range(y0, self.height));
            let color = palette.pick(rng);
            self.rectangle((x0, y0), (x1, y1), color);
        }
    }

    fn rings(&mut self, rng: &mut Rng, palette: &Palette) {
        let (mut x0, mut y0, mut x1, mut y1) = (0, 0, self.width, self.height);
        while x0 < x1 && y0 < y1 {
            let color = palette.pick(rng);
            self.rectangle((x0, y0), (x1, y1), color);
            x0 += rng.range(0, 2);
            y0 += rng.range(0, 2);
            x1 = x1.saturating_sub(rng.range(1, 2));
            y1 = y1.saturating_sub(rng.range(1, 2));
        }
    }

    fn rectangle(&mut self, (x0, y0): (u32, u32), (x1, y1): (u32, u32), color: Rgba) {
        for y in y0..y1 {
            for x in x0..x1 {
                self.pixels[(y * self.width + x) as usize] = color;
            }
        }
    }

    fn islands(&mut self, rng: &mut Rng, palette: &Palette) {
        let key = palette.key();
        let (even, odd) = (rng.range(30, 100), rng.range(0, 50));
        self.fill(|_, x, y| {
            let covered = if (x + y) % 2 == 0 { even } else { odd };
            if rng.percent(covered) {
                palette.pick_other(rng)
            } else {
                key
            }
        });
    }
}
