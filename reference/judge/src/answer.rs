//! What a run answers, laid out as the rules lay it out in the caller's buffers.

/// The numbers of one slot of the cluster table.
pub const SLOT: usize = 21;

/// One slot: first pixel, pixel count, left, top, right, bottom, sum (r, g, b, a, count),
/// residue (the same five), `merged_into`, `depth`, `num_holes`, first and next hole child.
pub type Slot = [u32; SLOT];

/// The answer to one case. Links, first pixels and hole links hold a number + 1; 0 ends a chain.
#[derive(Clone, Debug, Default, PartialEq, Eq)]
pub struct Answer {
    pub labels: Vec<u32>,
    pub links: Vec<u32>,
    pub table: Vec<Slot>,
    pub outputs: Vec<u32>,
    pub picture: Vec<u8>,
}

impl Answer {
    /// The number of cluster slots.
    pub fn n(&self) -> u32 {
        self.table.len() as u32
    }

    /// The number of output entries.
    pub fn m(&self) -> u32 {
        self.outputs.len() as u32
    }
}

/// A cluster with its lists, before it is laid out as a slot.
#[derive(Clone, Debug, Default)]
pub struct Cluster {
    pub list: Vec<u32>,
    /// Left, top, right, bottom.
    pub rect: [u32; 4],
    pub sum: [u32; 5],
    pub residue: [u32; 5],
    pub merged_into: u32,
    pub depth: u32,
    pub hole_children: Vec<u32>,
}

/// Lays out the table: lists become a first pixel and a count, hole children become a chain.
pub fn lay_out_table(clusters: &[Cluster]) -> Vec<Slot> {
    let mut next_hole_child = vec![0; clusters.len()];
    for cluster in clusters {
        for pair in cluster.hole_children.windows(2) {
            next_hole_child[pair[0] as usize] = pair[1] + 1;
        }
    }
    clusters
        .iter()
        .zip(next_hole_child)
        .map(|(cluster, next)| lay_out_slot(cluster, next))
        .collect()
}

fn lay_out_slot(cluster: &Cluster, next_hole_child: u32) -> Slot {
    let mut numbers = [0; SLOT];
    numbers[0] = number_of_first(&cluster.list);
    numbers[1] = cluster.list.len() as u32;
    numbers[2..6].copy_from_slice(&cluster.rect);
    numbers[6..11].copy_from_slice(&cluster.sum);
    numbers[11..16].copy_from_slice(&cluster.residue);
    numbers[16] = cluster.merged_into;
    numbers[17] = cluster.depth;
    numbers[18] = cluster.hole_children.len() as u32;
    numbers[19] = number_of_first(&cluster.hole_children);
    numbers[20] = next_hole_child;
    numbers
}

/// How a chain names its first member: its number + 1, or 0 where there is none.
fn number_of_first(members: &[u32]) -> u32 {
    members.first().map_or(0, |first| first + 1)
}

/// Lays out the links: each pixel is linked within the list of the cluster that it is labelled
/// with. A discarded pixel is in no list, so its link is 0.
pub fn lay_out_links(labels: &[u32], clusters: &[Cluster]) -> Vec<u32> {
    let mut links = vec![0; labels.len()];
    for (k, cluster) in clusters.iter().enumerate() {
        for pair in cluster.list.windows(2) {
            if labels[pair[0] as usize] == k as u32 {
                links[pair[0] as usize] = pair[1] + 1;
            }
        }
    }
    links
}
