//! Clique merging over rows of bits.

const WORDS: usize = 4;

type Row = [u64; WORDS];

/// Up to 256 nodes; bit j of row i says that i and j are joined. A node merged away has an empty row.
pub(crate) struct Graph {
    rows: Vec<Row>,
}

impl Graph {
    /// `joined` is asked once for each pair, the smaller node first.
    pub(crate) fn new(nodes: usize, joined: impl Fn(usize, usize) -> bool) -> Graph {
        let mut rows = vec![[0; WORDS]; nodes];
        for larger in 0..nodes {
            for smaller in 0..larger {
                if joined(smaller, larger) {
                    set(&mut rows[smaller], larger);
                    set(&mut rows[larger], smaller);
                }
            }
        }
        Graph { rows }
    }

    /// The cluster of each node, clusters numbered by smallest member.
    pub(crate) fn clusters(mut self) -> Vec<u8> {
        let mut leaders: Vec<usize> = (0..self.rows.len()).collect();
        while let Some((smaller, larger)) = self.best_edge() {
            self.merge(smaller, larger);
            for leader in leaders.iter_mut().filter(|leader| **leader == larger) {
                *leader = smaller;
            }
        }
        numbered(&leaders)
    }

    /// The first edge with most common neighbours, counted afresh for every choice.
    fn best_edge(&self) -> Option<(usize, usize)> {
        let mut best = None;
        let mut most = 0;
        for (smaller, row) in self.rows.iter().enumerate() {
            for word in smaller / 64..WORDS {
                let mut bits = row[word];
                while bits != 0 {
                    let larger = 64 * word + bits.trailing_zeros() as usize;
                    bits &= bits - 1;
                    if larger < smaller {
                        continue;
                    }
                    let common = size(&both(row, &self.rows[larger]));
                    if best.is_none() || common > most {
                        best = Some((smaller, larger));
                        most = common;
                    }
                }
            }
        }
        best
    }

    /// Both nodes leave the graph; the smaller comes back, joined to their common neighbours.
    fn merge(&mut self, smaller: usize, larger: usize) {
        let common = both(&self.rows[smaller], &self.rows[larger]);
        for row in &mut self.rows {
            clear(row, smaller);
            clear(row, larger);
        }
        self.rows[larger] = [0; WORDS];
        self.rows[smaller] = common;
        for (node, row) in self.rows.iter_mut().enumerate() {
            if has(&common, node) {
                set(row, smaller);
            }
        }
    }
}

fn numbered(leaders: &[usize]) -> Vec<u8> {
    let mut numbers = vec![0; leaders.len()];
    let mut next = 0;
    for (node, &leader) in leaders.iter().enumerate() {
        if leader == node {
            numbers[node] = next;
            next += 1;
        } else {
            numbers[node] = numbers[leader];
        }
    }
    numbers
}

fn set(row: &mut Row, node: usize) {
    row[node / 64] |= 1 << (node % 64);
}

fn clear(row: &mut Row, node: usize) {
    row[node / 64] &= !(1 << (node % 64));
}

fn has(row: &Row, node: usize) -> bool {
    row[node / 64] >> (node % 64) & 1 == 1
}

fn both(a: &Row, b: &Row) -> Row {
    [a[0] & b[0], a[1] & b[1], a[2] & b[2], a[3] & b[3]]
}

fn size(row: &Row) -> u32 {
    row.iter().map(|word| word.count_ones()).sum()
}

#[cfg(test)]
mod tests {
    use super::*;

    fn clusters(nodes: usize, edges: &[(usize, usize)]) -> Vec<u8> {
        Graph::new(nodes, |a, b| edges.contains(&(a, b))).clusters()
    }

    #[test]
    fn c5_merged_node_keeps_common_neighbours_only() {
        assert_eq!(clusters(4, &[(0, 1), (0, 2), (1, 3)]), [0, 0, 1, 2]);
    }

    #[test]
    fn edge_with_most_common_neighbours_goes_first() {
        let edges = [(0, 1), (1, 2), (1, 3), (2, 3)];
        assert_eq!(clusters(4, &edges), [0, 1, 1, 1]);
    }

    #[test]
    fn nodes_beyond_the_first_word() {
        assert_eq!(Graph::new(240, |_, _| true).clusters(), vec![0; 240]);
        let halves = Graph::new(240, |a, b| a % 2 == b % 2).clusters();
        assert!(halves.iter().enumerate().all(|(n, c)| n % 2 == *c as usize));
    }

    #[test]
    fn no_nodes() {
        assert!(clusters(0, &[]).is_empty());
    }
}
