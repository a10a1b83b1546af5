//! The tool graph over a `BTreeMap` of sorted adjacency lists, which a kept snapshot copies.
use bench_common::{line, list, number, pairs, records};
use std::collections::BTreeMap;

#[derive(Clone, Default)]
pub struct Graph {
    lists: BTreeMap<u64, Vec<u64>>,
    edges: u64,
}

impl Graph {
    /// The graph of many edges, by one sort of them.
    pub fn of(edges: &[(u64, u64)]) -> Graph {
        let mut edges = edges.to_vec();
        edges.sort_unstable();
        edges.dedup();
        let lists = edges.chunk_by(|a, b| a.0 == b.0).map(|run| (run[0].0, run.iter().map(|edge| edge.1).collect()));
        Graph { lists: lists.collect(), edges: edges.len() as u64 }
    }

    pub fn add(&mut self, from: u64, to: u64) {
        let list = self.lists.entry(from).or_default();
        if let Err(place) = list.binary_search(&to) {
            list.insert(place, to);
            self.edges += 1;
        }
    }

    pub fn cut(&mut self, from: u64, to: u64) {
        let Some(list) = self.lists.get_mut(&from) else {
            return;
        };
        if let Ok(place) = list.binary_search(&to) {
            list.remove(place);
            self.edges -= 1;
        }
        if list.is_empty() {
            self.lists.remove(&from);
        }
    }

    pub fn degree(&self, vertex: u64) -> u64 {
        self.lists.get(&vertex).map_or(0, Vec::len) as u64
    }

    /// The edges in order.
    pub fn edges(&self) -> impl Iterator<Item = (u64, u64)> + '_ {
        self.lists.iter().flat_map(|(from, list)| list.iter().map(move |to| (*from, *to)))
    }

    /// The out-neighbours of a vertex, in order.
    pub fn out_neighbours(&self, vertex: u64) -> &[u64] {
        self.lists.get(&vertex).map_or(&[], Vec::as_slice)
    }

    /// How many vertices have an out-neighbour, and how many edges there are.
    pub fn size(&self) -> [u64; 2] {
        [self.lists.len() as u64, self.edges]
    }

    /// The out-neighbours of some vertices, in order, each once.
    fn neighbours(&self, vertices: &[u64]) -> Vec<u64> {
        let lists = vertices.iter().filter_map(|vertex| self.lists.get(vertex));
        let mut near: Vec<u64> = lists.flatten().copied().collect();
        near.sort_unstable();
        near.dedup();
        near
    }

    /// What can be reached from a vertex, with the distances, in the order of vertices. A front costs as much as what was found before.
    pub fn reached(&self, from: u64) -> Vec<(u64, u64)> {
        let mut found = vec![(from, 0)];
        let mut front = vec![from];
        for distance in 1.. {
            front = without(&self.neighbours(&front), &found);
            if front.is_empty() {
                break;
            }
            found = merged(&found, &front, distance);
        }
        found
    }

    /// The ends of all edges in order, each with the least vertex of its component: union-find over a sorted vector.
    fn components(&self) -> Vec<[u64; 2]> {
        let mut vertices: Vec<u64> = self.edges().flat_map(|(from, to)| [from, to]).collect();
        vertices.sort_unstable();
        vertices.dedup();
        let mut parents: Vec<usize> = (0..vertices.len()).collect();
        let place = |vertex| vertices.binary_search(&vertex).expect("an end");
        for (from, to) in self.edges() {
            let (a, b) = (root(&mut parents, place(from)), root(&mut parents, place(to)));
            parents[a.max(b)] = a.min(b);
        }
        (0..vertices.len()).map(|at| [vertices[at], vertices[root(&mut parents, at)]]).collect()
    }
}

/// The vertices of a sorted vector that are not yet found.
fn without(near: &[u64], found: &[(u64, u64)]) -> Vec<u64> {
    let mut found = found.iter().map(|hit| hit.0).peekable();
    let is_new = |vertex: &u64| {
        while found.next_if(|old| old < vertex).is_some() {}
        found.peek() != Some(vertex)
    };
    near.iter().copied().filter(is_new).collect()
}

/// What was found before and a front at its distance, both in order, as one vector in order.
fn merged(found: &[(u64, u64)], front: &[u64], distance: u64) -> Vec<(u64, u64)> {
    let mut all = Vec::with_capacity(found.len() + front.len());
    let mut found = found.iter().copied().peekable();
    for vertex in front {
        all.extend(std::iter::from_fn(|| found.next_if(|hit| hit.0 < *vertex)));
        all.push((*vertex, distance));
    }
    all.extend(found);
    all
}

/// The root of a place, by halving its path.
fn root(parents: &mut [usize], place: usize) -> usize {
    let mut at = place;
    while parents[at] != at {
        parents[at] = parents[parents[at]];
        at = parents[at];
    }
    at
}

/// Writes what a search found.
pub fn list_reached(out: &mut Vec<u8>, found: Vec<(u64, u64)>) {
    list(out, "bfs", found.into_iter().map(<[u64; 2]>::from));
}

/// The replies to a script.
pub fn run(input: &[u8]) -> Vec<u8> {
    let mut graph = Graph::default();
    let mut kept: Vec<Graph> = Vec::new();
    let mut out = Vec::new();
    for record in records(input) {
        match record[0] {
            b"add" => {
                pairs(&record[1..]).into_iter().for_each(|edge| graph.add(edge.0, edge.1));
                line(&mut out, "ok", [graph.edges]);
            }
            b"cut" => {
                pairs(&record[1..]).into_iter().for_each(|edge| graph.cut(edge.0, edge.1));
                line(&mut out, "ok", [graph.edges]);
            }
            b"keep" => {
                line(&mut out, "kept", [kept.len() as u64]);
                kept.push(graph.clone());
            }
            b"size" => line(&mut out, "graph", graph.size()),
            b"degree" => line(&mut out, "degree", [graph.degree(number(record[1]))]),
            b"comp" => list(&mut out, "comp", graph.components().into_iter()),
            b"now" => list_reached(&mut out, graph.reached(number(record[1]))),
            b"bfs" => match kept.get(number(record[1]) as usize) {
                Some(snapshot) => list_reached(&mut out, snapshot.reached(number(record[2]))),
                None => line(&mut out, "none", []),
            },
            _ => {}
        }
    }
    out
}
