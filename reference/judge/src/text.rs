//! Cases and answers as text.

use std::fmt::Write;
use std::str::FromStr;

use crate::answer::Answer;
use crate::case::{Case, KeyingAction, Rgba, Settings};

/// The fields of a case's line, in order.
pub const FIELDS: &str = "w h is_same_color_a is_same_color_b hierarchical good_min_area \
    good_max_area hollow_neighbours deepen_diff key keep|discard image";

const FIELD_COUNT: usize = 12;

/// Reads a case from its line.
pub fn parse_case(line: &str) -> Result<Case, String> {
    let fields: Vec<&str> = line.split_whitespace().collect();
    let [w, h, shift, b, hierarchical, min, max, hollow, diff, key, action, image] =
        <[&str; FIELD_COUNT]>::try_from(fields.as_slice())
            .map_err(|_| format!("{} fields, not {FIELD_COUNT}", fields.len()))?;
    let settings = Settings {
        is_same_color_a: number("is_same_color_a", shift)?,
        is_same_color_b: number("is_same_color_b", b)?,
        hierarchical: number("hierarchical", hierarchical)?,
        good_min_area: number("good_min_area", min)?,
        good_max_area: number("good_max_area", max)?,
        hollow_neighbours: number("hollow_neighbours", hollow)?,
        deepen_diff: number("deepen_diff", diff)?,
        key: key_color(key)?,
        keying_action: keying_action(action)?,
    };
    let image = from_hex("image", image)?;
    Case::new(settings, number("w", w)?, number("h", h)?, image)
}

/// Writes a case as its line, without the line's end.
pub fn format_case(case: &Case) -> String {
    let settings = &case.settings;
    format!(
        "{} {} {} {} {} {}",
        case.width,
        case.height,
        settings
            .numbers()
            .map(|number| number.to_string())
            .join(" "),
        to_hex(&settings.key),
        match settings.keying_action {
            KeyingAction::Keep => "keep",
            KeyingAction::Discard => "discard",
        },
        to_hex(&case.image),
    )
}

/// Writes an answer as lines that each begin with what they hold.
pub fn format_answer(answer: &Answer, stage_1_labels: &[u32]) -> String {
    let mut text = String::new();
    let mut line = |name: &str, numbers: &[u32]| {
        text.push_str(name);
        for number in numbers {
            write!(text, " {number}").expect("a string can be written");
        }
        text.push('\n');
    };
    line("n", &[answer.n()]);
    line("m", &[answer.m()]);
    line("stage_1_labels", stage_1_labels);
    line("labels", &answer.labels);
    line("links", &answer.links);
    for (k, slot) in answer.table.iter().enumerate() {
        line(&format!("slot {k}:"), slot);
    }
    line("outputs", &answer.outputs);
    text + "picture " + &to_hex(&answer.picture) + "\n"
}

/// Writes an answer as one line of JSON.
pub fn format_answer_json(answer: &Answer, stage_1_labels: &[u32]) -> String {
    let slots: Vec<String> = answer.table.iter().map(|slot| json_list(slot)).collect();
    format!(
        "{{\"n\":{},\"m\":{},\"stage_1_labels\":{},\"labels\":{},\"links\":{},\"table\":[{}],\
         \"outputs\":{},\"picture\":\"{}\"}}\n",
        answer.n(),
        answer.m(),
        json_list(stage_1_labels),
        json_list(&answer.labels),
        json_list(&answer.links),
        slots.join(","),
        json_list(&answer.outputs),
        to_hex(&answer.picture),
    )
}

fn json_list(numbers: &[u32]) -> String {
    let numbers: Vec<String> = numbers.iter().map(u32::to_string).collect();
    format!("[{}]", numbers.join(","))
}

fn number<T: FromStr>(name: &str, text: &str) -> Result<T, String> {
    text.parse()
        .map_err(|_| format!("{name} is {text:?}, not a number of its range"))
}

fn key_color(text: &str) -> Result<Rgba, String> {
    from_hex("key", text)?
        .try_into()
        .map_err(|_| format!("key is {text:?}, not rrggbbaa"))
}

fn keying_action(text: &str) -> Result<KeyingAction, String> {
    match text {
        "keep" => Ok(KeyingAction::Keep),
        "discard" => Ok(KeyingAction::Discard),
        _ => Err(format!("{text:?} is neither keep nor discard")),
    }
}

fn to_hex(bytes: &[u8]) -> String {
    bytes.iter().map(|byte| format!("{byte:02x}")).collect()
}

fn from_hex(name: &str, text: &str) -> Result<Vec<u8>, String> {
    if text.len() % 2 != 0 {
        return Err(format!("{name} has an odd number of hex digits"));
    }
    text.as_bytes()
        .chunks(2)
        .map(|pair| Some(16 * hex_digit(pair[0])? + hex_digit(pair[1])?))
        .collect::<Option<Vec<u8>>>()
        .ok_or_else(|| format!("{name} is not all hex digits"))
}

fn hex_digit(byte: u8) -> Option<u8> {
    char::from(byte).to_digit(16).map(|digit| digit as u8)
}

#[cfg(test)]
mod tests {
    use super::*;
    use crate::cases;

    const GOOD: &str = "2 1 4 1 4294967295 0 65536 1 64 00000000 keep 000000ffffffffff";

    #[test]
    fn a_case_survives_the_round_trip() {
        for index in 0..500 {
            let case = cases::mixed(3, index);
            assert_eq!(parse_case(&format_case(&case)), Ok(case));
        }
        assert_eq!(format_case(&parse_case(GOOD).unwrap()), GOOD);
    }

    /// Replaces one field of a good line and wants a message that has `word` in it.
    fn refused(field: usize, text: &str, word: &str) {
        let mut fields: Vec<&str> = GOOD.split(' ').collect();
        fields[field] = text;
        let message = parse_case(&fields.join(" ")).expect_err("a malformed line");
        assert!(message.contains(word), "{message}");
    }

    #[test]
    fn malformed_fields_are_refused() {
        refused(0, "-2", "w is");
        refused(0, "0", "a side is 0");
        refused(0, "65001", "above 65000");
        refused(0, "3", "8 bytes");
        refused(1, "4294967296", "h is");
        refused(2, "8", "is_same_color_a is 8");
        refused(2, "-1", "is_same_color_a is -1");
        refused(3, "2147483648", "is_same_color_b");
        refused(4, "-1", "hierarchical");
        refused(5, "x", "good_min_area");
        refused(6, "1.5", "good_max_area");
        refused(7, "", "11 fields");
        refused(8, "-2147483649", "deepen_diff");
        refused(9, "000000", "rrggbbaa");
        refused(9, "0000000g", "hex digits");
        refused(10, "Keep", "neither keep nor discard");
        refused(11, "000", "odd number");
        refused(11, "00é0", "hex digits");
        refused(11, "00 00", "13 fields");
    }

    #[test]
    fn answers_name_what_they_hold() {
        let answer = Answer {
            labels: vec![1],
            links: vec![0],
            table: vec![[0; 21]],
            outputs: vec![],
            picture: vec![10, 20, 30, 255],
        };
        let text = format_answer(&answer, &[1]);
        assert!(text.starts_with("n 1\nm 0\nstage_1_labels 1\nlabels 1\nlinks 0\nslot 0: 0 "));
        assert!(text.ends_with("\noutputs\npicture 0a141eff\n"));
        let json = format_answer_json(&answer, &[1]);
        assert!(json.contains("\"table\":[[0,0,"));
        assert!(json.contains("\"picture\":\"0a141eff\""));
    }
}
