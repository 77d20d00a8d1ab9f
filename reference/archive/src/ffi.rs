//! The library as `include/color_clusters.h` declares it.

/// What a run answers: 0 or the number of the first check that failed, the number of cluster slots
/// and the number of output entries.
#[repr(C)]
#[derive(Clone, Copy, Debug, Default, PartialEq, Eq)]
pub struct Answer {
    pub number: u32,
    pub n: u32,
    pub m: u32,
}

// In the lines of the header.
#[rustfmt::skip]
extern "C" {
    pub fn color_clusters_run(
        is_same_color_a: i32, is_same_color_b: i32, hierarchical: u32, good_min_area: u32, good_max_area: u32,
        hollow_neighbours: u32, deepen_diff: i32, key_r: u8, key_g: u8, key_b: u8, key_a: u8, action: u32,
        w: u32, h: u32, image: *const u8, image_len: usize, labels: *mut u32, labels_len: usize, links: *mut u32, links_len: usize,
        table: *mut u32, table_len: usize, outputs: *mut u32, outputs_len: usize, work: *mut u32, work_len: usize,
    ) -> Answer;

    pub fn color_clusters_paint(
        w: u32, h: u32, links: *const u32, links_len: usize, table: *const u32, table_len: usize,
        outputs: *const u32, outputs_len: usize, picture: *mut u8, picture_len: usize, n: u32, m: u32,
    ) -> u32;

    pub fn color_clusters_run_and_paint(
        is_same_color_a: i32, is_same_color_b: i32, hierarchical: u32, good_min_area: u32, good_max_area: u32,
        hollow_neighbours: u32, deepen_diff: i32, key_r: u8, key_g: u8, key_b: u8, key_a: u8, action: u32,
        w: u32, h: u32, image: *const u8, image_len: usize, labels: *mut u32, labels_len: usize, links: *mut u32, links_len: usize,
        table: *mut u32, table_len: usize, outputs: *mut u32, outputs_len: usize, work: *mut u32, work_len: usize,
        picture: *mut u8, picture_len: usize,
    ) -> Answer;

    pub fn color_clusters_row_check(w: u32, h: u32, picture: *const u8, picture_len: usize, y: u32) -> u32;

    pub fn color_clusters_store(
        w: u32, h: u32, labels: *const u32, labels_len: usize, links: *const u32, links_len: usize,
        table: *const u32, table_len: usize, outputs: *const u32, outputs_len: usize,
        destination: *mut u8, destination_len: usize, n: u32, m: u32,
    ) -> u32;
}

#[cfg(test)]
mod tests {
    use std::fs;

    const HEADER: &str = concat!(
        env!("CARGO_MANIFEST_DIR"),
        "/../../include/color_clusters.h"
    );

    /// What stands between the first `open` and the next `close` after it, as trimmed parts.
    fn parts(text: &str, open: &str, close: &str, between: char) -> Vec<String> {
        let (_, rest) = text.split_once(open).expect(open);
        let (inner, _) = rest.split_once(close).expect(close);
        inner
            .split(between)
            .map(|part| part.split_whitespace().collect::<Vec<_>>().join(" "))
            .filter(|part| !part.is_empty())
            .collect()
    }

    /// A declaration of C, `const uint8_t *image`, as one of Rust, `image: *const u8`.
    fn in_rust(declaration: &str) -> String {
        let cut = declaration.rfind([' ', '*']).expect("a type and a name") + 1;
        let (kind, name) = declaration.split_at(cut);
        let kind = match kind.trim() {
            "int32_t" => "i32",
            "uint8_t" => "u8",
            "uint32_t" => "u32",
            "size_t" => "usize",
            "const uint8_t *" => "*const u8",
            "uint8_t *" => "*mut u8",
            "const uint32_t *" => "*const u32",
            "uint32_t *" => "*mut u32",
            "color_clusters_answer" => "Answer",
            other => panic!("no type of Rust is known for {other:?}"),
        };
        format!("{name}: {kind}")
    }

    /// A function of C, `uint32_t name(..)`, with its arguments and, at the end, its answer.
    fn function_in_rust(declaration: &str) -> Vec<String> {
        let (answer, _) = declaration.split_once('(').expect("arguments");
        let mut all = parts(declaration, "(", ")", ',');
        all.push(answer.to_string());
        all.iter().map(|part| in_rust(part)).collect()
    }

    /// A function of Rust, `pub fn name(..) -> u32`, in the same form.
    fn function(declaration: &str) -> Vec<String> {
        let (name, _) = declaration.split_once('(').expect("arguments");
        let (_, answer) = declaration.split_once(" -> ").expect("an answer");
        let mut all = parts(declaration, "(", ")", ',');
        all.push(format!("{}: {answer}", name.trim_start_matches("pub fn ")));
        all
    }

    /// The header without its comments.
    fn header() -> String {
        let text = fs::read_to_string(HEADER).expect("the header of the library");
        let mut bare = String::new();
        for part in text.split("/*") {
            bare.push_str(part.split_once("*/").map_or(part, |(_, rest)| rest));
        }
        bare
    }

    /// A declaration of the header in two: what the compiler is told of it, and itself.
    fn told(declaration: &str) -> (Vec<&str>, &str) {
        let (mut told, mut rest) = (Vec::new(), declaration);
        while rest.starts_with("COLOR_CLUSTERS_") {
            let ends = ["_ ", ") "].map(|end| rest.find(end).unwrap_or(rest.len()));
            let (one, others) = rest.split_at(ends[0].min(ends[1]) + 1);
            told.push(one);
            rest = others.trim_start();
        }
        (told, rest)
    }

    /// What it should be told: that the answer counts, and of each pointer where its length is, and whether it is written.
    fn to_be_told(function: &[String]) -> Vec<String> {
        let mut told = vec!["COLOR_CLUSTERS_ANSWERS_".to_string()];
        for (place, pair) in (1..).zip(function.windows(2)) {
            let Some((name, kind)) = pair[0].split_once(": *") else {
                continue;
            };
            assert_eq!(pair[1], format!("{name}_len: usize"));
            let does = ["WRITES", "READS"][usize::from(kind.starts_with("const"))];
            told.push(format!("COLOR_CLUSTERS_{does}_({place}, {})", place + 1));
        }
        told
    }

    /// The functions that the header declares for the archive.
    fn exported() -> Vec<String> {
        parts(&header(), "extern \"C\" {\n#endif", "#ifdef", ';')
    }

    #[test]
    fn the_functions_are_the_header_s() {
        let theirs: Vec<_> = exported()
            .iter()
            .map(|declaration| function_in_rust(told(declaration).1))
            .collect();
        let ours: Vec<_> = parts(include_str!("ffi.rs"), "extern \"C\" {", "\n}", ';')
            .iter()
            .map(|declaration| function(declaration))
            .collect();
        assert_eq!(ours, theirs);
        assert_eq!(ours.len(), 5);
    }

    #[test]
    fn the_header_tells_of_every_length() {
        for declaration in exported() {
            let (told, function) = told(&declaration);
            assert_eq!(told, to_be_told(&function_in_rust(function)), "{function}");
        }
    }

    #[test]
    fn the_answer_is_the_header_s() {
        let header = header();
        let (before, _) = header
            .split_once("} color_clusters_answer;")
            .expect("the answer");
        let start = before.rfind("typedef struct {").expect("its beginning");
        let theirs: Vec<String> = parts(&header[start..], "typedef struct {", "}", ';')
            .iter()
            .map(|declaration| format!("pub {}", in_rust(declaration)))
            .collect();
        let ours = parts(include_str!("ffi.rs"), "pub struct Answer {", "}", ',');
        assert_eq!(ours, theirs);
        assert_eq!(ours.len(), 3);
    }
}
