//! Nodes in layers: each below those that have an arc to it, and those on a cycle side by side.

use super::layout::{Point, Size};
use super::Arc;

/// A layer with more nodes takes several rows.
const ROW: usize = 8;

/// The layer of each node, from 0 at the top.
pub fn layers(count: usize, arcs: &[Arc]) -> Vec<usize> {
    let reach = reach(count, arcs);
    let mut layers = vec![0; count];
    loop {
        let before = layers.clone();
        for arc in arcs {
            let step = usize::from(!reach[arc.to][arc.from]);
            layers[arc.to] = layers[arc.to].max(layers[arc.from] + step);
        }
        if layers == before {
            return layers;
        }
    }
}

/// For each node, which ones a path leads to.
fn reach(count: usize, arcs: &[Arc]) -> Vec<Vec<bool>> {
    let mut reach = vec![vec![false; count]; count];
    arcs.iter().for_each(|arc| reach[arc.from][arc.to] = true);
    for middle in 0..count {
        let onwards = reach[middle].clone();
        for from in reach.iter_mut().filter(|from| from[middle]) {
            from.iter_mut().zip(&onwards).for_each(|(to, &on)| *to |= on);
        }
    }
    reach
}

/// The middle of each node, with room around it.
pub fn in_layers(count: usize, arcs: &[Arc], room: Size) -> Vec<Point> {
    let layers = layers(count, arcs);
    let mut points = vec![Point { x: 0.0, y: 0.0 }; count];
    let mut y = 0.0;
    for layer in 0..=layers.iter().copied().max().unwrap_or(0) {
        let mut nodes: Vec<usize> = (0..count).filter(|&node| layers[node] == layer).collect();
        let above = |node: usize| mean_above(node, arcs, &layers, &points);
        nodes.sort_by(|&a, &b| above(a).total_cmp(&above(b)));
        for row in nodes.chunks(ROW) {
            for (i, &node) in row.iter().enumerate() {
                let x = (i as f64 - (row.len() - 1) as f64 / 2.0) * room.width;
                points[node] = Point { x, y };
            }
            y += room.height;
        }
    }
    points
}

/// Where the nodes in higher layers with an arc to a node stand on average.
fn mean_above(node: usize, arcs: &[Arc], layers: &[usize], points: &[Point]) -> f64 {
    let into = arcs.iter().filter(|arc| arc.to == node && layers[arc.from] < layers[node]);
    let places: Vec<f64> = into.map(|arc| points[arc.from].x).collect();
    places.iter().sum::<f64>() / places.len().max(1) as f64
}
