//! Numbers in running text.

/// A number with a comma between thousands.
pub fn grouped(number: impl Into<u64>) -> String {
    let digits = number.into().to_string();
    let mut text = String::new();
    for (place, digit) in digits.chars().enumerate() {
        if place > 0 && (digits.len() - place) % 3 == 0 {
            text.push(',');
        }
        text.push(digit);
    }
    text
}

/// A number of things: `1 pixel`, `1,200 pixels`.
pub fn counted(number: impl Into<u64>, thing: &str) -> String {
    let number = number.into();
    let ending = if number == 1 { "" } else { "s" };
    format!("{} {thing}{ending}", grouped(number))
}

/// Lines of cells under their headings, each column as wide as it needs, numbers to the right.
pub fn table<const N: usize>(headings: [&str; N], rows: &[[String; N]]) -> String {
    let widths: [usize; N] = std::array::from_fn(|column| {
        let cells = rows.iter().map(|row| row[column].chars().count());
        cells.fold(headings[column].chars().count(), usize::max)
    });
    let line = |cells: &[String; N]| {
        let padded = cells.iter().zip(widths);
        let padded: Vec<String> = padded
            .map(|(cell, width)| format!("{cell:>width$}"))
            .collect();
        format!("  {}\n", padded.join("  "))
    };
    let lines: String = rows.iter().map(line).collect();
    line(&headings.map(String::from)) + &lines
}

#[cfg(test)]
mod tests {
    use super::*;

    #[test]
    fn thousands_are_parted() {
        let texts = [0_u32, 999, 1_000, 65_000, 1_234_567].map(grouped);
        assert_eq!(texts, ["0", "999", "1,000", "65,000", "1,234,567"]);
        assert_eq!(counted(1_u32, "pixel"), "1 pixel");
        assert_eq!(counted(1_200_u32, "pixel"), "1,200 pixels");
        assert_eq!(counted(0_u32, "pixel"), "0 pixels");
    }

    #[test]
    fn columns_are_as_wide_as_their_widest_cell() {
        let rows = [["1", "x"], ["22", "long"]].map(|row| row.map(String::from));
        assert_eq!(
            table(["n", "word"], &rows),
            "   n  word\n   1     x\n  22  long\n"
        );
        assert_eq!(table(["n"], &[]), "  n\n");
    }
}
