//! The stored sheet read back: two-byte numbers, low byte first. The size (w, h), n and m; label and
//! link of each pixel; first pixel and pixel count of each cluster; the outputs.

use serde::Serialize;

use crate::failure::Failure;

/// The numbers of a stored sheet.
#[derive(Clone, Debug, PartialEq, Eq)]
pub struct Stored {
    pub width: u16,
    pub height: u16,
    pub n: u16,
    pub m: u16,
    labels: Vec<u16>,
    links: Vec<u16>,
    first_pixels: Vec<u16>,
    pixel_counts: Vec<u16>,
    outputs: Vec<u16>,
}

/// Where two stored sheets differ, under the names that the JSON has.
#[derive(Clone, Debug, PartialEq, Eq, Serialize)]
pub struct Difference {
    /// What differs: `width`, `labels` and so on.
    pub what: &'static str,
    /// How many of these numbers differ.
    pub count: usize,
    /// The place of the first: a pixel's number, a cluster's number or an output's place.
    pub first: usize,
    /// The two numbers there; none where a list is shorter.
    pub stored: Option<u16>,
    pub fresh: Option<u16>,
}

impl Stored {
    /// Reads a stored sheet, and refuses one that no sheet can have been stored as.
    pub fn read(bytes: &[u8]) -> Result<Self, Failure> {
        if bytes.is_empty() {
            return Err(Failure::File("it is empty".to_string()));
        }
        let pairs = bytes.chunks_exact(2);
        let mut numbers = pairs.map(|pair| u16::from_le_bytes([pair[0], pair[1]]));
        let mut next = || {
            numbers
                .next()
                .ok_or_else(|| broken("it is cut off in its first numbers"))
        };
        let [width, height, n, m] = [next()?, next()?, next()?, next()?];
        let pixels = usize::from(width) * usize::from(height);
        let length = 2 * (4 + 2 * pixels + 2 * usize::from(n) + usize::from(m));
        if bytes.len() != length {
            let text = format!(
                "it has {} bytes, but its first numbers say {length}",
                bytes.len()
            );
            return Err(broken(&text));
        }
        let (labels, links) = numbers_by_two(&mut numbers, pixels);
        let (first_pixels, pixel_counts) = numbers_by_two(&mut numbers, n.into());
        let stored = Self {
            width,
            height,
            n,
            m,
            labels,
            links,
            first_pixels,
            pixel_counts,
            outputs: numbers.collect(),
        };
        stored.ensure_a_sheet()?;
        Ok(stored)
    }

    /// Every number names something that is there.
    fn ensure_a_sheet(&self) -> Result<(), Failure> {
        let pixels = self.labels.len();
        let within = |numbers: &[u16], limit: usize, what: &str| match numbers
            .iter()
            .find(|number| usize::from(**number) > limit)
        {
            Some(number) => Err(broken(&format!("{what} is {number}, above {limit}"))),
            None => Ok(()),
        };
        if pixels == 0 || self.n == 0 {
            return Err(broken("it has no pixels or no clusters"));
        }
        let last = usize::from(self.n) - 1;
        within(&self.labels, last, "a label")?;
        within(&self.links, pixels, "a link")?;
        within(&self.first_pixels, pixels, "a first pixel")?;
        within(&self.pixel_counts, pixels, "a pixel count")?;
        within(&self.outputs, last, "an output")
    }

    /// Where this one and a fresh one differ; nothing where they are equal.
    pub fn differences(&self, fresh: &Self) -> Vec<Difference> {
        let pairs: [(&'static str, &[u16], &[u16]); 9] = [
            ("width", &[self.width], &[fresh.width]),
            ("height", &[self.height], &[fresh.height]),
            ("n", &[self.n], &[fresh.n]),
            ("m", &[self.m], &[fresh.m]),
            ("labels", &self.labels, &fresh.labels),
            ("links", &self.links, &fresh.links),
            ("first_pixels", &self.first_pixels, &fresh.first_pixels),
            ("pixel_counts", &self.pixel_counts, &fresh.pixel_counts),
            ("outputs", &self.outputs, &fresh.outputs),
        ];
        let differing = pairs
            .iter()
            .filter_map(|(what, stored, fresh)| compare(what, stored, fresh));
        // Where the sizes differ, the pixels have nothing to do with each other.
        match (self.width, self.height) == (fresh.width, fresh.height) {
            true => differing.collect(),
            false => differing
                .take_while(|difference| difference.what != "labels")
                .collect(),
        }
    }
}

fn compare(what: &'static str, stored: &[u16], fresh: &[u16]) -> Option<Difference> {
    let differ = |place: &usize| stored.get(*place) != fresh.get(*place);
    let mut places = (0..stored.len().max(fresh.len())).filter(differ);
    let first = places.next()?;
    Some(Difference {
        what,
        count: 1 + places.count(),
        first,
        stored: stored.get(first).copied(),
        fresh: fresh.get(first).copied(),
    })
}

/// Takes `count` pairs of numbers.
fn numbers_by_two(numbers: &mut dyn Iterator<Item = u16>, count: usize) -> (Vec<u16>, Vec<u16>) {
    let both: Vec<u16> = numbers.take(2 * count).collect();
    let pairs = both.chunks_exact(2);
    pairs.map(|pair| (pair[0], pair[1])).unzip()
}

fn broken(why: &str) -> Failure {
    Failure::File(format!("it is a broken stored sheet: {why}"))
}

#[cfg(test)]
mod tests {
    use super::*;

    /// The two pixels of H3 of the rules, cluster 1 inside cluster 2.
    const NUMBERS: [u16; 16] = [2, 1, 3, 2, 2, 0, 2, 1, 0, 0, 1, 1, 2, 2, 1, 2];

    fn bytes(numbers: &[u16]) -> Vec<u8> {
        numbers
            .iter()
            .flat_map(|number| number.to_le_bytes())
            .collect()
    }

    fn stored() -> Stored {
        Stored::read(&bytes(&NUMBERS)).unwrap()
    }

    #[test]
    fn a_worked_sheet_is_read_back() {
        let stored = stored();
        assert_eq!(
            (stored.width, stored.height, stored.n, stored.m),
            (2, 1, 3, 2)
        );
        assert_eq!(
            (&stored.labels[..], &stored.links[..]),
            (&[2, 2][..], &[0, 1][..])
        );
        assert_eq!(stored.first_pixels, [0, 1, 2]);
        assert_eq!(stored.pixel_counts, [0, 1, 2]);
        assert_eq!(stored.outputs, [1, 2]);
        assert_eq!(stored.differences(&stored), []);
    }

    #[test]
    fn the_low_byte_comes_first() {
        let mut numbers = vec![1, 258, 1, 0];
        numbers.extend([0; 2 * 258 + 2]);
        let file = bytes(&numbers);
        assert_eq!(file[2..4], [2, 1]);
        assert_eq!(Stored::read(&file).unwrap().height, 258);
    }

    #[test]
    fn broken_ones_are_refused_in_words() {
        let file = bytes(&NUMBERS);
        for length in 1..file.len() {
            let error = Stored::read(&file[..length]).unwrap_err().to_string();
            assert!(
                error.contains(if length < 8 { "cut off" } else { "say 32" }),
                "{error}"
            );
        }
        assert!(Stored::read(&[]).unwrap_err().to_string().contains("empty"));
        assert!(Stored::read(&[&file[..], &[0]].concat()).is_err());
        for (place, number, word) in [
            (4, 3, "a label is 3"),
            (5, 3, "a link is 3"),
            (8, 3, "a first pixel is 3"),
            (9, 3, "a pixel count is 3"),
            (15, 3, "an output is 3"),
        ] {
            let mut numbers = NUMBERS;
            numbers[place] = number;
            let error = Stored::read(&bytes(&numbers)).unwrap_err().to_string();
            assert!(error.contains(word), "{error}");
        }
        assert!(Stored::read(&bytes(&[0, 1, 1, 0, 0, 0])).is_err());
    }

    #[test]
    fn differences_are_found_where_they_are() {
        let mut other = stored();
        other.labels[1] = 1;
        other.outputs = vec![2];
        let found = stored().differences(&other);
        let whats: Vec<&str> = found.iter().map(|difference| difference.what).collect();
        assert_eq!(whats, ["labels", "outputs"]);
        let labels = Difference {
            what: "labels",
            count: 1,
            first: 1,
            stored: Some(2),
            fresh: Some(1),
        };
        assert_eq!(found[0], labels);
        let outputs = Difference {
            what: "outputs",
            count: 2,
            first: 0,
            stored: Some(1),
            fresh: Some(2),
        };
        assert_eq!(found[1], outputs);
        other.width = 3;
        assert_eq!(stored().differences(&other).len(), 1);
    }
}
