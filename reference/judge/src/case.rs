//! What a run is given: settings and an image.

/// The number of bytes of one pixel.
pub const CHANNELS: usize = 4;

/// The largest image that the rules accept, in pixels.
pub const MAX_PIXELS: u64 = 65_000;

/// The value of `hierarchical` under which clusters may deepen.
pub const HIERARCHICAL_MAX: u32 = u32::MAX;

/// One pixel, or a key: r, g, b, a.
pub type Rgba = [u8; CHANNELS];

/// The key colour that turns keying off.
pub const NO_KEY: Rgba = [0; CHANNELS];

/// What becomes of pixels that equal the key colour.
#[derive(Clone, Copy, Debug, PartialEq, Eq)]
pub enum KeyingAction {
    Keep,
    Discard,
}

/// The settings of a run, named as in the original's `RunnerConfig`.
#[derive(Clone, Debug, PartialEq, Eq)]
pub struct Settings {
    pub is_same_color_a: i32,
    pub is_same_color_b: i32,
    pub hierarchical: u32,
    pub good_min_area: u32,
    pub good_max_area: u32,
    pub hollow_neighbours: u32,
    pub deepen_diff: i32,
    pub key: Rgba,
    pub keying_action: KeyingAction,
}

impl Default for Settings {
    /// The original's defaults.
    fn default() -> Self {
        Self {
            is_same_color_a: 4,
            is_same_color_b: 1,
            hierarchical: HIERARCHICAL_MAX,
            good_min_area: 16,
            good_max_area: 65_536,
            hollow_neighbours: 1,
            deepen_diff: 64,
            key: NO_KEY,
            keying_action: KeyingAction::Keep,
        }
    }
}

impl Settings {
    /// The seven numbers, in the order of a case's line.
    pub fn numbers(&self) -> [i64; 7] {
        [
            self.is_same_color_a.into(),
            self.is_same_color_b.into(),
            self.hierarchical.into(),
            self.good_min_area.into(),
            self.good_max_area.into(),
            self.hollow_neighbours.into(),
            self.deepen_diff.into(),
        ]
    }
}

/// Settings and an image that the rules accept; `image` holds 4 × width × height bytes.
#[derive(Clone, Debug, PartialEq, Eq)]
pub struct Case {
    pub settings: Settings,
    pub width: u32,
    pub height: u32,
    pub image: Vec<u8>,
}

impl Case {
    /// Refuses what the rules refuse, and says why.
    pub fn new(
        settings: Settings,
        width: u32,
        height: u32,
        image: Vec<u8>,
    ) -> Result<Self, String> {
        let shift = settings.is_same_color_a;
        if !(0..=7).contains(&shift) {
            return Err(format!("is_same_color_a is {shift}, not 0 to 7"));
        }
        if width == 0 || height == 0 {
            return Err(format!("the image is {width}×{height}: a side is 0"));
        }
        let pixels = u64::from(width) * u64::from(height);
        if pixels > MAX_PIXELS {
            return Err(format!("{width}×{height} is above {MAX_PIXELS} pixels"));
        }
        let bytes = CHANNELS as u64 * pixels;
        if image.len() as u64 != bytes {
            return Err(format!(
                "the image has {} bytes, {width}×{height} needs {bytes}",
                image.len()
            ));
        }
        Ok(Self {
            settings,
            width,
            height,
            image,
        })
    }

    /// A case of pixels that is known to be accepted.
    pub fn of_pixels(settings: Settings, width: u32, height: u32, pixels: &[Rgba]) -> Self {
        Self::new(settings, width, height, pixels.concat()).expect("a case made by the judge")
    }

    /// The number of pixels.
    pub fn area(&self) -> u32 {
        self.width * self.height
    }

    /// The colour of pixel `p`.
    pub fn pixel(&self, p: u32) -> Rgba {
        let start = CHANNELS * p as usize;
        self.image[start..start + CHANNELS]
            .try_into()
            .expect("four bytes")
    }

    /// Gives pixel `p` another colour.
    pub fn set_pixel(&mut self, p: u32, color: Rgba) {
        let start = CHANNELS * p as usize;
        self.image[start..start + CHANNELS].copy_from_slice(&color);
    }
}
