//! The settings of a run, as options with the names and defaults of the Rust original.

use clap::Args;

use crate::colour::Rgba;

/// The value of `hierarchical` under which clusters may lie inside others.
const HIERARCHICAL_MAX: u32 = u32::MAX;

/// What the library is told besides the chart. A range that only the library checks is not checked here.
#[derive(Args, Clone, Debug)]
#[command(
    next_help_heading = "Settings of the clustering, named as in the Rust original (docs/RULES.md, rule 2.1)",
    rename_all = "snake_case",
    allow_negative_numbers = true
)]
pub struct Settings {
    /// How many low bits of a channel are left out when two colours are compared: 0 to 7
    #[arg(
        long,
        alias = "is-same-color-a",
        value_name = "SHIFT",
        default_value_t = 4
    )]
    pub is_same_color_a: i32,

    /// How far the channels of two like colours may then lie apart
    #[arg(
        long,
        alias = "is-same-color-b",
        value_name = "STEPS",
        default_value_t = 1
    )]
    pub is_same_color_b: i32,

    /// Once all pixels are read, a larger cluster is not merged into another; the default lets patches lie inside patches
    #[arg(long, value_name = "PIXELS", default_value_t = HIERARCHICAL_MAX)]
    pub hierarchical: u32,

    /// A cluster can stay a patch inside another only if it has more pixels than this
    #[arg(
        long,
        alias = "good-min-area",
        value_name = "PIXELS",
        default_value_t = 16
    )]
    pub good_min_area: u32,

    /// A cluster can stay a patch inside another only if it has fewer pixels than this
    #[arg(
        long,
        alias = "good-max-area",
        value_name = "PIXELS",
        default_value_t = 65_536
    )]
    pub good_max_area: u32,

    /// A patch inside another counts as a hole of it if it touches at most this many clusters
    #[arg(
        long,
        alias = "hollow-neighbours",
        value_name = "COUNT",
        default_value_t = 1
    )]
    pub hollow_neighbours: u32,

    /// A cluster can stay a patch inside another only if their colours differ by more than this
    #[arg(
        long,
        alias = "deepen-diff",
        value_name = "DIFFERENCE",
        default_value_t = 64
    )]
    pub deepen_diff: i32,

    /// The key colour, which is treated apart, as hex digits; without AA it is opaque, and 00000000 means none
    #[arg(long, value_name = "RRGGBB[AA]", value_parser = key_colour)]
    key: Option<Rgba>,

    /// Pixels of the key colour begin in cluster 0 (this is the default)
    #[arg(long, requires = "key", conflicts_with = "discard")]
    keep: bool,

    /// Pixels of the key colour belong to no cluster and stay empty on the sheet
    #[arg(long, requires = "key")]
    discard: bool,
}

impl Settings {
    /// The key colour; `Rgba::default()` turns keying off.
    pub fn key(&self) -> Rgba {
        self.key.unwrap_or_default()
    }

    /// Whether a colour is treated apart at all.
    pub fn keying(&self) -> bool {
        self.key() != Rgba::default()
    }

    /// Whether pixels of this colour are left out of every cluster.
    pub fn discards(&self, colour: Rgba) -> bool {
        self.discard && self.keying() && colour == self.key()
    }

    /// The library's number for what becomes of key pixels: 0 keeps, 1 discards.
    pub fn action(&self) -> u32 {
        u32::from(self.discard)
    }
}

/// Reads `RRGGBB` or `RRGGBBAA`, with or without a `#` before it.
fn key_colour(text: &str) -> Result<Rgba, String> {
    let digits = text.strip_prefix('#').unwrap_or(text);
    let wrong = || String::from("a colour is RRGGBB or RRGGBBAA, each digit 0 to 9 or A to F");
    if !digits.bytes().all(|digit| digit.is_ascii_hexdigit()) {
        return Err(wrong());
    }
    let number = u32::from_str_radix(digits, 16).map_err(|_| wrong())?;
    let [r, g, b, a] = match digits.len() {
        6 => (number << 8 | 0xff).to_be_bytes(),
        8 => number.to_be_bytes(),
        _ => return Err(wrong()),
    };
    Ok(Rgba { r, g, b, a })
}

#[cfg(test)]
pub mod tests {
    use super::*;
    use clap::Parser;

    #[derive(Parser)]
    struct Only {
        #[command(flatten)]
        settings: Settings,
    }

    /// The settings that options, parted by spaces, give.
    pub fn parse(options: &str) -> Result<Settings, clap::Error> {
        let words = ["test"].into_iter().chain(options.split_whitespace());
        Only::try_parse_from(words).map(|only| only.settings)
    }

    fn rgba([r, g, b, a]: [u8; 4]) -> Rgba {
        Rgba { r, g, b, a }
    }

    #[test]
    fn the_defaults_are_the_original_s() {
        let settings = parse("").unwrap();
        assert_eq!((settings.is_same_color_a, settings.is_same_color_b), (4, 1));
        assert_eq!(settings.hierarchical, 4_294_967_295);
        assert_eq!(
            (settings.good_min_area, settings.good_max_area),
            (16, 65_536)
        );
        assert_eq!((settings.hollow_neighbours, settings.deepen_diff), (1, 64));
        assert!(!settings.keying());
        assert_eq!(settings.action(), 0);
    }

    #[test]
    fn a_key_is_six_or_eight_digits() {
        assert_eq!(key_colour("ff00FE"), Ok(rgba([255, 0, 254, 255])));
        assert_eq!(key_colour("#01020304"), Ok(rgba([1, 2, 3, 4])));
        assert_eq!(key_colour("00000000"), Ok(Rgba::default()));
        for wrong in [
            "",
            "#",
            "fff",
            "ff00f",
            "ff00ff0",
            "ff00ff000",
            "+f00ff",
            "gg0000",
            "ff 0ff",
            "éé00",
        ] {
            assert!(key_colour(wrong).is_err(), "{wrong}");
        }
    }

    #[test]
    fn only_the_exact_key_is_discarded() {
        let settings = parse("--key ff00ff --discard").unwrap();
        assert!(settings.discards(rgba([255, 0, 255, 255])));
        assert!(!settings.discards(rgba([255, 0, 255, 254])));
        assert!(!parse("--key ff00ff")
            .unwrap()
            .discards(rgba([255, 0, 255, 255])));
        let off = parse("--key 00000000 --discard").unwrap();
        assert!(!off.discards(Rgba::default()));
    }

    #[test]
    fn numbers_out_of_range_are_bad_usage() {
        for wrong in [
            "--is_same_color_a 2147483648",
            "--is_same_color_b -2147483649",
            "--hierarchical 4294967296",
            "--good_min_area -1",
            "--good_max_area 1.5",
            "--hollow_neighbours x",
            "--deepen_diff 99999999999",
            "--keep",
            "--discard",
            "--key ff00ff --keep --discard",
        ] {
            assert!(parse(wrong).is_err(), "{wrong}");
        }
        assert_eq!(parse("--deepen-diff -1").unwrap().deepen_diff, -1);
    }
}
