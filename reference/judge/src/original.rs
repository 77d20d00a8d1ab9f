//! Runs the original and lays its result out as the rules do.

use visioncortex::color_clusters::{self, ClustersView, Runner, RunnerConfig};
use visioncortex::{BoundingRect, Color, ColorImage, ColorSum};

use crate::answer::{lay_out_links, lay_out_table, Answer, Cluster};
use crate::case::{Case, KeyingAction, Rgba};

/// The original's answer: `Runner::run`, then `to_color_image`.
pub fn answer(case: &Case) -> Answer {
    let result = runner(case).run();
    let view = result.view();
    let labels = labels_of(&view);
    let clusters = clusters_of(&view);
    let links = lay_out_links(&labels, &clusters);
    check_lists(&links, &clusters);
    Answer {
        table: lay_out_table(&clusters),
        outputs: view.clusters_output.iter().map(|index| index.0).collect(),
        picture: view.to_color_image().pixels,
        labels,
        links,
    }
}

/// The labels with which stage 1 ends: the first tick takes all pixels, since a batch holds them.
pub fn stage_1_labels(case: &Case) -> Vec<u32> {
    let mut builder = runner(case).start();
    builder.tick();
    labels_of(&builder.view())
}

/// The original with the settings of `case` and a copy of its image, ready to run.
pub fn runner(case: &Case) -> Runner {
    let settings = &case.settings;
    let config = RunnerConfig {
        diagonal: false,
        hierarchical: settings.hierarchical,
        batch_size: case.area() as i32,
        good_min_area: settings.good_min_area as usize,
        good_max_area: settings.good_max_area as usize,
        is_same_color_a: settings.is_same_color_a,
        is_same_color_b: settings.is_same_color_b,
        deepen_diff: settings.deepen_diff,
        hollow_neighbours: settings.hollow_neighbours as usize,
        key_color: color(settings.key),
        keying_action: match settings.keying_action {
            KeyingAction::Keep => color_clusters::KeyingAction::Keep,
            KeyingAction::Discard => color_clusters::KeyingAction::Discard,
        },
    };
    let image = ColorImage {
        pixels: case.image.clone(),
        width: case.width as usize,
        height: case.height as usize,
    };
    Runner::new(config, image)
}

fn color([r, g, b, a]: Rgba) -> Color {
    Color::new_rgba(r, g, b, a)
}

fn labels_of(view: &ClustersView) -> Vec<u32> {
    view.cluster_indices.iter().map(|index| index.0).collect()
}

fn clusters_of(view: &ClustersView) -> Vec<Cluster> {
    let children = hole_children(view);
    view.clusters
        .iter()
        .zip(children)
        .map(|(cluster, hole_children)| Cluster {
            list: cluster.indices.clone(),
            rect: rect_numbers(cluster.rect),
            sum: sum_numbers(cluster.sum),
            residue: sum_numbers(cluster.residue_sum),
            merged_into: cluster.merged_into.0,
            depth: cluster.depth,
            hole_children,
        })
        .collect()
}

fn rect_numbers(rect: BoundingRect) -> [u32; 4] {
    [rect.left, rect.top, rect.right, rect.bottom]
        .map(|side| u32::try_from(side).expect("a rectangle lies on the image"))
}

fn sum_numbers(sum: ColorSum) -> [u32; 5] {
    [sum.r, sum.g, sum.b, sum.a, sum.counter]
}

/// Recovers the hole children of every cluster, in order. The original keeps of them only `holes`,
/// their pixel lists one after another. A deepened cluster never changes again, so its final list
/// stands there whole. No two clusters begin with the same pixel: a target's list goes on after its
/// own pixels. So the first pixel of each part names the child, and the part must be its list.
fn hole_children(view: &ClustersView) -> Vec<Vec<u32>> {
    let mut begins_with = vec![0; view.cluster_indices.len()];
    for (k, cluster) in view.clusters.iter().enumerate() {
        if let Some(&first) = cluster.indices.first() {
            begins_with[first as usize] = k;
        }
    }
    (0..view.clusters.len())
        .map(|k| split_holes(view, k, &begins_with))
        .collect()
}

fn split_holes(view: &ClustersView, parent: usize, begins_with: &[usize]) -> Vec<u32> {
    let mut children = Vec::new();
    let mut holes = view.clusters[parent].holes.as_slice();
    while let Some(&first) = holes.first() {
        let k = begins_with[first as usize];
        let child = &view.clusters[k];
        assert_eq!(child.merged_into.0 as usize, parent, "a child of {parent}");
        holes = holes
            .strip_prefix(child.indices.as_slice())
            .expect("the holes are the lists of the children");
        children.push(k as u32);
    }
    assert_eq!(children.len() as u32, view.clusters[parent].num_holes);
    children
}

/// Every list, also that of a cluster inside another, is found by walking its count of links.
fn check_lists(links: &[u32], clusters: &[Cluster]) {
    for cluster in clusters {
        for pair in cluster.list.windows(2) {
            assert_eq!(links[pair[0] as usize], pair[1] + 1, "a link of the list");
        }
    }
}
