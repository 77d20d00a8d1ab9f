//! The proved library, linked from its archive as `include/color_clusters.h` declares it.
//!
//! The only place with unsafe code: slices go in, and their own lengths go with them.
#![allow(unsafe_code)]

use crate::image::Image;
use crate::settings::Settings;
use crate::sheet::{Sheet, SLOT};

/// The answer of a run for an image whose bytes are not four a pixel. The size was accepted before.
const WRONG_BYTES: u32 = 4;

/// What a run answers: 0 or the number of the first check that failed, the number of cluster slots
/// and the number of output entries.
#[repr(C)]
struct Answer {
    number: u32,
    n: u32,
    m: u32,
}

// In the lines of the header.
#[rustfmt::skip]
extern "C" {
    fn color_clusters_run_and_paint(
        is_same_color_a: i32, is_same_color_b: i32, hierarchical: u32, good_min_area: u32, good_max_area: u32,
        hollow_neighbours: u32, deepen_diff: i32, key_r: u8, key_g: u8, key_b: u8, key_a: u8, action: u32,
        w: u32, h: u32, image: *const u8, image_len: usize, labels: *mut u32, labels_len: usize, links: *mut u32, links_len: usize,
        table: *mut u32, table_len: usize, outputs: *mut u32, outputs_len: usize, work: *mut u32, work_len: usize,
        picture: *mut u8, picture_len: usize,
    ) -> Answer;

    fn color_clusters_row_check(w: u32, h: u32, picture: *const u8, picture_len: usize, y: u32) -> u32;

    fn color_clusters_store(
        w: u32, h: u32, labels: *const u32, labels_len: usize, links: *const u32, links_len: usize,
        table: *const u32, table_len: usize, outputs: *const u32, outputs_len: usize,
        destination: *mut u8, destination_len: usize, n: u32, m: u32,
    ) -> u32;
}

/// Whether the library takes a chart of this size under these settings, or the number of its
/// refusal. It is asked with no image, so that nothing needs to be read or lent for an enormous one.
pub fn accepts(settings: &Settings, width: u32, height: u32) -> Result<(), u32> {
    let mut nothing = Sheet::default();
    match call(settings, (width, height), &[], &mut nothing, &mut []).number {
        0 | WRONG_BYTES => Ok(()),
        number => Err(number),
    }
}

/// Clusters a chart and paints its sheet, in one call; or the number of the refusal.
pub fn run_and_paint(settings: &Settings, chart: &Image) -> Result<Sheet, u32> {
    accepts(settings, chart.width, chart.height)?;
    let pixels = chart.width as usize * chart.height as usize;
    let mut sheet = Sheet {
        width: chart.width,
        height: chart.height,
        n: 0,
        m: 0,
        labels: vec![0; pixels],
        links: vec![0; pixels],
        table: vec![0; SLOT * (pixels + 1)],
        outputs: vec![0; 2 * pixels],
        picture: vec![0; 4 * pixels],
    };
    let mut work = vec![0; 8 * pixels + 8];
    let size = (chart.width, chart.height);
    let answer = call(settings, size, &chart.bytes, &mut sheet, &mut work);
    (sheet.n, sheet.m) = (answer.n, answer.m);
    match answer.number {
        0 => Ok(sheet),
        number => Err(number),
    }
}

/// The stored sheet, or the number of the refusal.
pub fn store(sheet: &Sheet) -> Result<Vec<u8>, u32> {
    let numbers = 4 + 2 * sheet.labels.len() + 2 * sheet.n as usize + sheet.m as usize;
    let mut stored = vec![0; 2 * numbers];
    // SAFETY: each pointer comes with the length of its own slice. What is written, the
    // destination, is borrowed mutably, and the call keeps no pointer.
    let number = unsafe {
        color_clusters_store(
            sheet.width,
            sheet.height,
            sheet.labels.as_ptr(),
            sheet.labels.len(),
            sheet.links.as_ptr(),
            sheet.links.len(),
            sheet.table.as_ptr(),
            sheet.table.len(),
            sheet.outputs.as_ptr(),
            sheet.outputs.len(),
            stored.as_mut_ptr(),
            stored.len(),
            sheet.n,
            sheet.m,
        )
    };
    match number {
        0 => Ok(stored),
        number => Err(number),
    }
}

/// Whether the sheet has a row `y`, or the number of the refusal.
pub fn row_check(sheet: &Sheet, y: u32) -> Result<(), u32> {
    let picture = &sheet.picture;
    // SAFETY: the pointer comes with the length of its own slice, which the call only reads.
    let number = unsafe {
        color_clusters_row_check(
            sheet.width,
            sheet.height,
            picture.as_ptr(),
            picture.len(),
            y,
        )
    };
    match number {
        0 => Ok(()),
        number => Err(number),
    }
}

/// The call itself, with whatever is lent.
fn call(
    settings: &Settings,
    (width, height): (u32, u32),
    image: &[u8],
    lent: &mut Sheet,
    work: &mut [u32],
) -> Answer {
    let key = settings.key();
    // SAFETY: each pointer comes with the length of its own slice. All that is written is borrowed
    // mutably, so no two of them overlap; the image is borrowed beside them. The call keeps none.
    unsafe {
        color_clusters_run_and_paint(
            settings.is_same_color_a,
            settings.is_same_color_b,
            settings.hierarchical,
            settings.good_min_area,
            settings.good_max_area,
            settings.hollow_neighbours,
            settings.deepen_diff,
            key.r,
            key.g,
            key.b,
            key.a,
            settings.action(),
            width,
            height,
            image.as_ptr(),
            image.len(),
            lent.labels.as_mut_ptr(),
            lent.labels.len(),
            lent.links.as_mut_ptr(),
            lent.links.len(),
            lent.table.as_mut_ptr(),
            lent.table.len(),
            lent.outputs.as_mut_ptr(),
            lent.outputs.len(),
            work.as_mut_ptr(),
            work.len(),
            lent.picture.as_mut_ptr(),
            lent.picture.len(),
        )
    }
}

#[cfg(test)]
mod tests {
    use super::*;
    use crate::settings::tests::parse;
    use std::fs;

    const HEADER: &str = concat!(env!("CARGO_MANIFEST_DIR"), "/../include/color_clusters.h");

    /// What a C type is in Rust.
    const TYPES: [(&str, &str); 9] = [
        ("int32_t", "i32"),
        ("uint8_t", "u8"),
        ("uint32_t", "u32"),
        ("size_t", "usize"),
        ("const uint8_t *", "*const u8"),
        ("uint8_t *", "*mut u8"),
        ("const uint32_t *", "*const u32"),
        ("uint32_t *", "*mut u32"),
        ("color_clusters_answer", "Answer"),
    ];

    /// `const uint8_t *image` as `image: *const u8`.
    fn in_rust(declaration: &str) -> String {
        let cut = declaration.rfind([' ', '*']).expect("a type and a name") + 1;
        let (kind, name) = declaration.split_at(cut);
        let known = TYPES.iter().find(|(c, _)| *c == kind.trim());
        format!("{name}: {}", known.expect(kind).1)
    }

    /// The arguments and then the answer of the function `name`, as `text` declares it.
    fn declared(text: &str, name: &str, open: &str) -> (Vec<String>, String) {
        let start = text.find(&format!("{open}{name}(")).expect(name);
        let rest = &text[start + open.len() + name.len() + 1..];
        let (arguments, after) = rest.split_once(')').expect("an end");
        let arguments = arguments
            .split(',')
            .map(str::trim)
            .filter(|part| !part.is_empty());
        let after = after.split_once(';').expect("an end").0.trim();
        (arguments.map(String::from).collect(), after.to_string())
    }

    #[test]
    fn the_declarations_are_the_header_s() {
        let header = fs::read_to_string(HEADER).expect("the header of the library");
        let functions =
            ["run_and_paint", "row_check", "store"].map(|name| format!("color_clusters_{name}"));
        for (name, answer) in
            functions
                .iter()
                .zip(["color_clusters_answer ", "uint32_t ", "uint32_t "])
        {
            let (theirs, _) = declared(&header, name, answer);
            let (ours, returned) = declared(include_str!("library.rs"), name, "    fn ");
            let theirs: Vec<String> = theirs.iter().map(|part| in_rust(part)).collect();
            assert_eq!(ours, theirs, "{name}");
            assert_eq!(
                returned,
                in_rust(&format!("{answer}->")).replace("->: ", "-> ")
            );
        }
        let (before, _) = header
            .split_once("} color_clusters_answer;")
            .expect("the answer");
        let (_, fields) = before
            .rsplit_once("typedef struct {")
            .expect("its beginning");
        let names: Vec<&str> = fields
            .lines()
            .filter_map(|line| line.trim().strip_prefix("uint32_t ")?.split(';').next())
            .collect();
        assert_eq!(names, ["number", "n", "m"]);
    }

    #[test]
    fn slots_and_defaults_are_the_header_s() {
        let header = fs::read_to_string(HEADER).expect("the header of the library");
        let (before, _) = header
            .split_once("} color_clusters_place;")
            .expect("the places");
        let (_, places) = before
            .rsplit_once("typedef enum {")
            .expect("their beginning");
        let names: Vec<&str> = places.split("COLOR_CLUSTERS_").skip(1).collect();
        assert!(names[SLOT].starts_with("SLOT_WIDTH "));
        assert_eq!(names.len(), SLOT + 1);

        let settings = parse("").unwrap();
        let numbers = format!(
            "{{{}, {}, COLOR_CLUSTERS_HIERARCHICAL_MAX, {}, {}, {}, {}, {{0, 0, 0, 0}}, COLOR_CLUSTERS_KEEP}}",
            settings.is_same_color_a,
            settings.is_same_color_b,
            settings.good_min_area,
            settings.good_max_area,
            settings.hollow_neighbours,
            settings.deepen_diff
        );
        let defaults = format!("#define COLOR_CLUSTERS_DEFAULTS \\\n    {numbers}\n");
        assert!(header.contains(&defaults), "{defaults}");
        let most = format!(
            "#define COLOR_CLUSTERS_HIERARCHICAL_MAX {}u\n",
            settings.hierarchical
        );
        assert!(header.contains(&most), "{most}");
        assert!(!settings.keying());
    }

    fn image(width: u32, height: u32) -> Image {
        let bytes = [10, 20, 30, 255].repeat((width * height) as usize);
        Image {
            width,
            height,
            bytes,
        }
    }

    #[test]
    fn the_edges_of_the_size_are_the_library_s() {
        let settings = parse("").unwrap();
        assert_eq!(accepts(&settings, 1, 1), Ok(()));
        assert_eq!(accepts(&settings, 65_000, 1), Ok(()));
        assert_eq!(accepts(&settings, 65_001, 1), Err(3));
        assert_eq!(accepts(&settings, u32::MAX, u32::MAX), Err(3));
        assert_eq!(accepts(&settings, 0, 7), Err(2));
        let shifted = parse("--is_same_color_a 8").unwrap();
        assert_eq!(accepts(&shifted, 0, 7), Err(1));
    }

    #[test]
    fn a_run_of_one_pixel() {
        let settings = parse("").unwrap();
        let sheet = run_and_paint(&settings, &image(1, 1)).unwrap();
        assert_eq!((sheet.n, sheet.m), (2, 1));
        assert_eq!(sheet.picture, [10, 20, 30, 255]);
        let stored = store(&sheet).unwrap();
        let numbers = [1, 1, 2, 1, 1, 0, 0, 0, 1, 1, 1].map(u16::to_le_bytes);
        assert_eq!(stored, numbers.concat());
        assert_eq!(row_check(&sheet, 0), Ok(()));
        assert_eq!(row_check(&sheet, 1), Err(11));
    }

    #[test]
    fn bytes_that_do_not_fit_the_size_are_refused() {
        let settings = parse("").unwrap();
        let short = Image {
            width: 2,
            ..image(1, 1)
        };
        assert_eq!(run_and_paint(&settings, &short).err(), Some(4));
    }
}
