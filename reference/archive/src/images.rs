//! Large images, drawn for the comparison and for the benchmark.

use judge::case::Rgba;
use judge::rng::Rng;

/// The key colour of the images that have one.
pub const KEY: Rgba = [255, 0, 255, 255];

/// A colour that most settings find like the key.
const NEAR_KEY: Rgba = [254, 0, 255, 255];

/// The lines of a chart.
const LINE: Rgba = [40, 40, 40, 255];

/// How many values the noise on a chart gives a channel.
const NOISE_LEVELS: u32 = 24;

/// The same of slight noise. So few that two pixels of one region are like under the defaults.
const SLIGHT_LEVELS: u8 = 8;

/// What an image looks like.
#[derive(Clone, Copy, Debug, PartialEq, Eq)]
pub enum Texture {
    Flat,
    Chart,
    SlightNoise,
    NoisyChart,
    Noise,
    Nested,
    Gradient,
    KeyPatches,
    KeyIslands,
    KeyMarks,
    KeyNoise,
}

impl Texture {
    /// All textures.
    pub const ALL: [Texture; 11] = [
        Texture::Flat,
        Texture::Chart,
        Texture::SlightNoise,
        Texture::NoisyChart,
        Texture::Noise,
        Texture::Nested,
        Texture::Gradient,
        Texture::KeyPatches,
        Texture::KeyIslands,
        Texture::KeyMarks,
        Texture::KeyNoise,
    ];

    /// The name on the command line.
    pub fn name(self) -> &'static str {
        match self {
            Texture::Flat => "flat",
            Texture::Chart => "chart",
            Texture::SlightNoise => "slight-noise",
            Texture::NoisyChart => "noisy-chart",
            Texture::Noise => "noise",
            Texture::Nested => "nested",
            Texture::Gradient => "gradient",
            Texture::KeyPatches => "key-patches",
            Texture::KeyIslands => "key-islands",
            Texture::KeyMarks => "key-marks",
            Texture::KeyNoise => "key-noise",
        }
    }

    /// What the images show, for the help and the table.
    pub fn describe(self) -> &'static str {
        match self {
            Texture::Flat => "flat regions",
            Texture::Chart => "chart-like: sectors, rings, thin lines, small marks",
            Texture::SlightNoise => "chart-like with slight noise, no two neighbours equal",
            Texture::NoisyChart => "chart-like with noise of 24 levels",
            Texture::Noise => "pure noise",
            Texture::Nested => "rectangles inside rectangles",
            Texture::Gradient => "ramps with a little noise",
            Texture::KeyPatches => "patches of the key, of near-key and of other colours",
            Texture::KeyIslands => "single pixels on the key",
            Texture::KeyMarks => "many small rectangles on the key",
            Texture::KeyNoise => "checkerboard of key and noise",
        }
    }

    /// The texture of that name.
    pub fn named(name: &str) -> Option<Texture> {
        Texture::ALL.into_iter().find(|one| one.name() == name)
    }

    /// Draws an image, row by row.
    pub fn draw(self, rng: &mut Rng, width: u32, height: u32) -> Vec<Rgba> {
        match self {
            Texture::Flat => flat(rng, width, height),
            Texture::Chart => chart(rng, width, height),
            Texture::SlightNoise => slight_noise(rng, width, height),
            Texture::NoisyChart => noisy_chart(rng, width, height),
            Texture::Noise => fill(width, height, |_, _| any_color(rng)),
            Texture::Nested => nested(rng, width, height),
            Texture::Gradient => gradient(rng, width, height),
            Texture::KeyPatches => key_patches(rng, width, height),
            Texture::KeyIslands => key_islands(rng, width, height),
            Texture::KeyMarks => key_marks(rng, width, height),
            Texture::KeyNoise => key_noise(rng, width, height),
        }
    }
}

/// An image with the colour of each column and row.
fn fill(width: u32, height: u32, mut color: impl FnMut(u32, u32) -> Rgba) -> Vec<Rgba> {
    let mut pixels = Vec::with_capacity(width as usize * height as usize);
    for y in 0..height {
        pixels.extend((0..width).map(|x| color(x, y)));
    }
    pixels
}

fn any_color(rng: &mut Rng) -> Rgba {
    let [r, g, b, ..] = rng.bits().to_le_bytes();
    [r, g, b, 255]
}

fn any_colors(rng: &mut Rng, count: u32) -> Vec<Rgba> {
    (0..count).map(|_| any_color(rng)).collect()
}

/// Each pixel has the colour of the nearest of twelve places.
fn flat(rng: &mut Rng, width: u32, height: u32) -> Vec<Rgba> {
    let places: Vec<(u32, u32, Rgba)> = (0..12)
        .map(|_| (rng.below(width), rng.below(height), any_color(rng)))
        .collect();
    fill(width, height, |x, y| {
        let distance = |&&(px, py, _): &&(u32, u32, Rgba)| {
            u64::from(x.abs_diff(px)).pow(2) + u64::from(y.abs_diff(py)).pow(2)
        };
        let nearest = places.iter().min_by_key(distance);
        nearest.expect("there are places").2
    })
}

/// Eight sectors around the middle, cut by rings and by a grid of thin lines, with marks on them.
fn chart(rng: &mut Rng, width: u32, height: u32) -> Vec<Rgba> {
    const GRID: u32 = 48;
    let colors = any_colors(rng, 16);
    let mut pixels = fill(width, height, |x, y| {
        if x % GRID == GRID - 1 || y % GRID == GRID - 1 {
            return LINE;
        }
        let dx = 2 * i64::from(x) - i64::from(width);
        let dy = 2 * i64::from(y) - i64::from(height);
        let sector = 4 * u8::from(dx < 0) + 2 * u8::from(dy < 0) + u8::from(dx.abs() < dy.abs());
        let farthest = i64::from(width).pow(2) + i64::from(height).pow(2);
        let ring = 9 * (dx * dx + dy * dy) / farthest;
        colors[(usize::from(sector) + 3 * ring as usize) % colors.len()]
    });
    for _ in 0..pixels.len() / 500 {
        mark(rng, &mut pixels, (width, height), 4, |rng| {
            rng.pick(&colors)
        });
    }
    pixels
}

/// Draws a rectangle with sides of 1 to `longest` at a random place, cut at the image's border.
fn mark(
    rng: &mut Rng,
    pixels: &mut [Rgba],
    (width, height): (u32, u32),
    longest: u32,
    color: impl Fn(&mut Rng) -> Rgba,
) {
    let (x, y) = (rng.below(width), rng.below(height));
    let color = color(rng);
    let (right, bottom) = (x + rng.range(1, longest), y + rng.range(1, longest));
    for y in y..bottom.min(height) {
        for x in x..right.min(width) {
            pixels[(y * width + x) as usize] = color;
        }
    }
}

fn slight_noise(rng: &mut Rng, width: u32, height: u32) -> Vec<Rgba> {
    let chart = chart(rng, width, height);
    fill(width, height, |x, y| {
        slightly_moved(rng, chart[(y * width + x) as usize], x, y)
    })
}

/// Gives each channel one of the levels around its value; at the ends of a channel they lie beside
/// it, so that nothing is clamped. Green's two lowest bits tell odd columns and rows from even ones:
/// no pixel equals one that it touches, whatever its colour.
fn slightly_moved(rng: &mut Rng, [r, g, b, a]: Rgba, x: u32, y: u32) -> Rgba {
    let lowest = |channel: u8| {
        let least = channel.saturating_sub(SLIGHT_LEVELS / 2);
        least.min(u8::MAX - (SLIGHT_LEVELS - 1))
    };
    let mut noise = |levels: u8| rng.below(levels.into()) as u8;
    let place = (x % 2 + 2 * (y % 2)) as u8;
    let up_to_place = place.wrapping_sub(lowest(g)) % 4;
    [
        lowest(r) + noise(SLIGHT_LEVELS),
        lowest(g) + up_to_place + 4 * noise(SLIGHT_LEVELS / 4),
        lowest(b) + noise(SLIGHT_LEVELS),
        a,
    ]
}

fn noisy_chart(rng: &mut Rng, width: u32, height: u32) -> Vec<Rgba> {
    let mut pixels = chart(rng, width, height);
    for pixel in &mut pixels {
        for channel in &mut pixel[..3] {
            let moved = u32::from(*channel) + rng.below(NOISE_LEVELS);
            *channel = moved.saturating_sub(NOISE_LEVELS / 2).min(255) as u8;
        }
    }
    pixels
}

/// Square tiles of rings around one another.
fn nested(rng: &mut Rng, width: u32, height: u32) -> Vec<Rgba> {
    let (side, thickness) = (rng.range(6, 60), rng.range(1, 3));
    let count = rng.range(3, 7);
    let colors = any_colors(rng, count);
    fill(width, height, |x, y| {
        let inset = |place: u32| (place % side).min(side - 1 - place % side);
        let ring = inset(x).min(inset(y)) / thickness;
        colors[((x / side + 3 * (y / side) + ring) % count) as usize]
    })
}

fn gradient(rng: &mut Rng, width: u32, height: u32) -> Vec<Rgba> {
    let [r, g, b, a] = any_color(rng);
    let (across, down, noise) = (rng.range(0, 40), rng.range(0, 40), rng.range(1, 24));
    fill(width, height, |x, y| {
        let ramp = ((across * x + down * y) / 8 + rng.below(noise)) as u8;
        [r.wrapping_add(ramp), g.saturating_add(ramp), b, a]
    })
}

/// Square patches, about half of them of the key or near it. The larger the image, the larger the
/// patches: the original takes a time of pixels × patches where the key is kept.
fn key_patches(rng: &mut Rng, width: u32, height: u32) -> Vec<Rgba> {
    let least = (width * height).div_ceil(5_500);
    let side = rng.range(least, least + 8);
    let columns = width.div_ceil(side);
    let others = any_colors(rng, 4);
    let patches = fill(columns, height.div_ceil(side), |_, _| match rng.below(8) {
        0..=2 => KEY,
        3 => NEAR_KEY,
        _ => rng.pick(&others),
    });
    fill(width, height, |x, y| {
        patches[(y / side * columns + x / side) as usize]
    })
}

/// The larger the image, the fewer islands, as with patches.
fn key_islands(rng: &mut Rng, width: u32, height: u32) -> Vec<Rgba> {
    let area = width * height;
    let mut pixels = fill(width, height, |_, _| KEY);
    for _ in 0..15_000_000 / area.max(5_000) {
        pixels[rng.below(area) as usize] = any_color(rng);
    }
    pixels
}

/// One mark for every 65 pixels. The original takes a time of pixels × marks where the key is kept,
/// on the largest images about half a second.
fn key_marks(rng: &mut Rng, width: u32, height: u32) -> Vec<Rgba> {
    let mut pixels = fill(width, height, |_, _| KEY);
    for _ in 0..pixels.len() / 65 {
        mark(rng, &mut pixels, (width, height), 5, any_color);
    }
    pixels
}

fn key_noise(rng: &mut Rng, width: u32, height: u32) -> Vec<Rgba> {
    fill(width, height, |x, y| {
        if (x + y) % 2 == 0 {
            KEY
        } else {
            any_color(rng)
        }
    })
}

#[cfg(test)]
mod tests {
    use std::collections::BTreeSet;

    use judge::case::Settings;

    use super::*;

    const SIZE: (u32, u32) = (250, 260);

    fn drawn(texture: Texture) -> Vec<Rgba> {
        texture.draw(&mut Rng::for_case(1, 0), SIZE.0, SIZE.1)
    }

    /// Whether two pixels are like under the defaults.
    fn like(one: Rgba, other: Rgba) -> bool {
        let settings = Settings::default();
        let shifted = |channel: u8| i32::from(channel) >> settings.is_same_color_a;
        let mut pairs = one[..3].iter().zip(&other[..3]);
        pairs
            .all(|(&one, &other)| (shifted(one) - shifted(other)).abs() <= settings.is_same_color_b)
    }

    /// Each pixel, with those on its left, above, and above on the left.
    fn with_neighbours(pixels: &[Rgba], width: usize) -> Vec<(Rgba, Vec<Rgba>)> {
        let at = |x: usize, y: usize| pixels[y * width + x];
        let before = |x: usize, y: usize| {
            let left = (x > 0).then(|| at(x - 1, y));
            let up = (y > 0).then(|| at(x, y - 1));
            let up_left = (x > 0 && y > 0).then(|| at(x - 1, y - 1));
            [left, up, up_left].into_iter().flatten().collect()
        };
        (0..pixels.len())
            .map(|index| (index % width, index / width))
            .map(|(x, y)| (at(x, y), before(x, y)))
            .collect()
    }

    #[test]
    fn every_texture_draws_every_shape() {
        for texture in Texture::ALL {
            assert_eq!(Texture::named(texture.name()), Some(texture));
            for (width, height) in [(1, 1), (1, 300), (300, 1), (64, 50)] {
                let pixels = texture.draw(&mut Rng::for_case(1, 2), width, height);
                assert_eq!(pixels.len(), (width * height) as usize);
            }
        }
    }
    #[test]
    fn under_slight_noise_neighbours_are_like_but_never_equal() {
        let pixels = drawn(Texture::SlightNoise);
        let all = with_neighbours(&pixels, SIZE.0 as usize);
        for (pixel, neighbours) in &all {
            assert!(!neighbours.contains(pixel));
        }
        let like_all_three = |(pixel, neighbours): &&(Rgba, Vec<Rgba>)| {
            neighbours.len() == 3 && neighbours.iter().all(|&other| like(*pixel, other))
        };
        let count = all.iter().filter(like_all_three).count();
        assert!(100 * count > 80 * all.len(), "{count} of {}", all.len());
    }

    #[test]
    fn slight_noise_has_its_levels_and_green_its_place() {
        let rng = &mut Rng::for_case(1, 0);
        for value in 0..=255 {
            let color = [value, value, value, 255];
            let moved: Vec<Rgba> = (0..400)
                .map(|index| (index % 20, index / 20))
                .map(|(x, y)| slightly_moved(rng, color, x, y))
                .collect();
            for channel in 0..3 {
                let levels = BTreeSet::from_iter(moved.iter().map(|pixel| pixel[channel]));
                let (&least, &most) = (levels.first().unwrap(), levels.last().unwrap());
                assert_eq!(levels.len(), SLIGHT_LEVELS.into());
                assert_eq!(most - least, SLIGHT_LEVELS - 1);
                assert!(least <= value && value <= most);
            }
            for (index, pixel) in (0..400).zip(&moved) {
                assert_eq!(u32::from(pixel[1]) % 4, index % 2 + 2 * (index / 20 % 2));
            }
        }
    }

    #[test]
    fn the_key_has_many_marks_and_most_pixels() {
        let pixels = drawn(Texture::KeyMarks);
        let marks: Vec<Rgba> = pixels.iter().copied().filter(|&one| one != KEY).collect();
        // No two marks have one colour, but by chance.
        let colors = BTreeSet::from_iter(&marks).len();
        assert!(colors > 900, "{colors} marks");
        assert!(marks.len() > 5 * colors);
        assert!(2 * marks.len() < pixels.len());
    }
}
