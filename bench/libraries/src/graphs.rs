//! Graphs of sorted adjacency vectors, which are those of the tool graph in plain Rust.
use bench_common::{report, told, Checksum, Numbers};
use program_baseline::graph::Graph;
use std::time::Instant;

/// In how many batches edges are added.
const BATCHES: u64 = 100;

/// How many searches are timed.
const SEARCHES: u64 = 10;

/// How many vertices a graph of so many edges has.
fn vertices_of(edges: u64) -> u64 {
    edges / 10
}

/// As many random edges as are wanted, between the vertices of a graph of `size` edges.
fn random_edges(numbers: &mut Numbers, count: u64, size: u64) -> Vec<(u64, u64)> {
    let vertices = vertices_of(size);
    (0..count).map(|_| (numbers.below(vertices), numbers.below(vertices))).collect()
}

fn random_graph(numbers: &mut Numbers, size: u64) -> Graph {
    let edges = random_edges(numbers, size, size);
    Graph::of(&edges)
}

fn checksum_of(graph: &Graph) -> u64 {
    let mut checksum = Checksum::default();
    for (from, to) in graph.edges() {
        checksum.add(from);
        checksum.add(to);
    }
    checksum.sum()
}

pub fn at_once(numbers: &mut Numbers, size: u64) {
    let edges = random_edges(numbers, size, size);
    let start = Instant::now();
    let graph = Graph::of(&edges);
    told(start, || checksum_of(&graph));
}

pub fn in_batches(numbers: &mut Numbers, size: u64) {
    let batches: Vec<_> = (0..BATCHES).map(|_| random_edges(numbers, size / BATCHES, size)).collect();
    let start = Instant::now();
    let mut graph = Graph::default();
    for (from, to) in batches.iter().flatten() {
        graph.add(*from, *to);
    }
    told(start, || checksum_of(&graph));
}

/// Holds a graph, and asks how many edges it has.
pub fn held(numbers: &mut Numbers, size: u64) {
    let graph = random_graph(numbers, size);
    let start = Instant::now();
    report(graph.size()[1], start);
}

pub fn bfs(numbers: &mut Numbers, size: u64) {
    let graph = random_graph(numbers, size);
    let start = Instant::now();
    let mut checksum = Checksum::default();
    for _ in 0..SEARCHES {
        for (vertex, distance) in graph.reached(numbers.below(vertices_of(size))) {
            checksum.add(vertex);
            checksum.add(distance);
        }
    }
    report(checksum.sum(), start);
}

/// The vertices of a least path, the last one first: a search from its start, and a way back that goes over the vertices which are one edge nearer.
fn least_path(graph: &Graph, from: u64, to: u64) -> Option<Vec<u64>> {
    let found = graph.reached(from);
    let mut distance = found.iter().find(|hit| hit.0 == to)?.1;
    let mut path = vec![to];
    let mut at = to;
    while 0 < distance {
        distance -= 1;
        let leads_on = |hit: &&(u64, u64)| hit.1 == distance && graph.out_neighbours(hit.0).binary_search(&at).is_ok();
        at = found.iter().find(leads_on)?.0;
        path.push(at);
    }
    Some(path)
}

/// The first of the vertices that are farthest from a vertex.
fn farthest(graph: &Graph, from: u64) -> u64 {
    let found = graph.reached(from);
    let greatest = found.iter().map(|hit| hit.1).max();
    found.iter().find(|hit| Some(hit.1) == greatest).map_or(from, |hit| hit.0)
}

/// From vertices to those that are farthest from them.
pub fn path(numbers: &mut Numbers, size: u64) {
    let graph = random_graph(numbers, size);
    let starts = (0..SEARCHES).map(|_| numbers.below(vertices_of(size)));
    let pairs: Vec<_> = starts.map(|from| (from, farthest(&graph, from))).collect();
    let start = Instant::now();
    let mut checksum = Checksum::default();
    for (from, to) in pairs {
        checksum.add(least_path(&graph, from, to).map_or(u64::MAX, |path| path.len() as u64 - 1));
    }
    report(checksum.sum(), start);
}
