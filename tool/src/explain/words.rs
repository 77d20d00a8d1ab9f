//! An explanation in plain words.

use std::fmt;

use super::Explanation;
use crate::cluster::Cluster;
use crate::colour::{Rgba, Sum};
use crate::text::{counted, grouped, table};

impl fmt::Display for Explanation {
    fn fmt(&self, out: &mut fmt::Formatter) -> fmt::Result {
        writeln!(
            out,
            "Column {}, row {}, counted from 0 at the top left\n",
            self.x, self.y
        )?;
        writeln!(out, "  in the chart  {}", in_words(self.colour))?;
        writeln!(out, "  on the sheet  {}", in_words(self.shown))?;
        writeln!(out, "  label         {}\n", self.label_in_words())?;
        writeln!(out, "Why this patch\n\n{}", self.why_this_patch())?;
        writeln!(out, "Why this shade\n\n{}", self.why_this_shade())?;
        if let Some(smallest) = self.holders.first() {
            writeln!(
                out,
                "The clusters that hold this pixel, from inner to outer\n"
            )?;
            writeln!(out, "{}", lines(self.holders.iter()))?;
            writeln!(out, "What lies inside cluster {}\n", smallest.number)?;
            writeln!(out, "{}", self.what_lies_inside())?;
        }
        write!(out, "{RULES}")
    }
}

impl Explanation {
    fn label_in_words(&self) -> String {
        match (self.discarded, self.holders.len()) {
            (true, _) => "0, which every discarded pixel has; no cluster holds it".to_string(),
            (false, 1) => format!("cluster {}", self.label),
            _ => format!(
                "cluster {}, the outermost that holds this pixel",
                self.label
            ),
        }
    }

    fn why_this_patch(&self) -> String {
        let Some(smallest) = self.holders.first() else {
            return "  The pixel has the key colour, and --discard leaves such pixels out (rule 5.4).\n  \
                It belongs to no patch.\n"
                .to_string();
        };
        let (left, right) = smallest.rectangle.columns();
        let (top, bottom) = smallest.rectangle.rows();
        let rest = match smallest.size - smallest.own_pixels {
            0 => "No smaller cluster lies inside, so all of that is left to it.".to_string(),
            inner => format!(
                "Left to it: {}.\n  In smaller clusters inside it, which have shades of their own: {}.",
                counted(smallest.own_pixels, "pixel"),
                counted(inner, "pixel")
            ),
        };
        format!(
            "  The smallest cluster that holds this pixel is cluster {}.\n  \
             It has {}, in columns {left} to {right} and rows {top} to {bottom}.\n  {rest}\n",
            smallest.number,
            counted(smallest.size, "pixel"),
        )
    }

    fn why_this_shade(&self) -> String {
        let painter = self
            .holders
            .iter()
            .find(|holder| Some(holder.number) == self.painted_by);
        match (painter, self.holders.first()) {
            (Some(painter), Some(smallest)) if painter.number != smallest.number => {
                painted_over(painter, smallest) + &division(painter)
            }
            (Some(painter), _) => division(painter),
            (None, Some(smallest)) => format!(
                "  Cluster {} holds the pixel, but neither it nor any cluster around it was put out.\n{NOTHING}",
                smallest.number
            ),
            (None, None) => format!("  No cluster holds the pixel.\n{NOTHING}"),
        }
    }

    fn what_lies_inside(&self) -> String {
        if self.inside.is_empty() {
            return "  Nothing: no smaller cluster.\n".to_string();
        }
        let holes = self.inside.iter().filter(|inner| inner.hole);
        let holes: Vec<String> = holes
            .map(|inner| inner.cluster.number.to_string())
            .collect();
        let note = match holes.len() {
            0 => "None of them is a hole.".to_string(),
            1..=MOST_NAMED => format!("Holes among them: {}.", holes.join(", ")),
            many => format!("{} of them are holes.", grouped(many as u64)),
        };
        format!(
            "{}  {note}\n  A hole touched at most hollow_neighbours clusters when it was put inside (rule 7.10).\n",
            lines(self.inside.iter().map(|inner| &inner.cluster))
        )
    }
}

/// Where the numbers that are cited lead.
const RULES: &str =
    "The rules, by their numbers: docs/RULES.md. What makes a patch is said there in sections 5 to 7.\n";

/// So many holes are named one by one.
const MOST_NAMED: usize = 3;

/// What the sheet shows where no output is painted.
const NOTHING: &str =
    "  So nothing is painted here, and the sheet is empty: all four channels are 0.\n";

/// Why the smallest cluster that holds the pixel does not give its shade.
fn painted_over(painter: &Cluster, smallest: &Cluster) -> String {
    let (outer, inner) = (painter.number, smallest.number);
    match smallest.put_out {
        true => format!(
            "  Cluster {inner} was put out after cluster {outer}. What was put out last is painted first\n  \
             (rule 9.1), so cluster {outer} is painted over it.\n"
        ),
        false => format!(
            "  Cluster {inner} was not put out, so it is not painted. Of the clusters around it that were put out,\n  \
             cluster {outer} is painted over the others.\n"
        ),
    }
}

/// A table of clusters.
fn lines<'a>(clusters: impl Iterator<Item = &'a Cluster>) -> String {
    let rows: Vec<_> = clusters.map(Cluster::cells).collect();
    table(Cluster::HEADINGS, &rows)
}

/// How the shade of a cluster comes about.
fn division(cluster: &Cluster) -> String {
    let Sum { count, .. } = cluster.residue;
    let averages = cluster.shade.bytes();
    let rows: Vec<_> = cluster
        .residue
        .channels()
        .into_iter()
        .zip(averages)
        .map(|((name, total), average)| {
            let rest = total - u32::from(average) * count;
            format!(
                "    {name:5}  {} / {} = {average}, rest {}\n",
                grouped(total),
                grouped(count),
                grouped(rest)
            )
        })
        .collect();
    format!(
        "  The sheet shows the average of the {} left to cluster {}.\n  \
         Each channel is added up, divided by their number and rounded down (rule 4.6):\n\n{}",
        counted(count, "pixel"),
        cluster.number,
        rows.concat()
    )
}

/// A colour as hex digits and as numbers.
fn in_words(colour: Rgba) -> String {
    let Rgba { r, g, b, a } = colour;
    let note = if a == 0 { " (transparent)" } else { "" };
    format!("{colour}  red {r}, green {g}, blue {b}, alpha {a}{note}")
}
