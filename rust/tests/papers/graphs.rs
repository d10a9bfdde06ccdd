//! Codes whose data disks are in two parity disks each, as document 004 draws them (section III, "sink
//! vertex representation"): a vertex for each parity group and one more, the sink; a data disk is the edge
//! between its two groups, a parity disk the edge between its group and the sink. Its Theorem 1 then says
//! that the sets that cannot be recovered are those that hold a cycle, so the minimal ones are the cycles.
use crate::codes::Code;
use crate::plain::sort;

/// The cycles of the code's graph, each as the set of its edges, in the lister's order.
pub fn cycles(code: &Code) -> Vec<u32> {
    let sink = code.m();
    let mut graph = Graph { disk: vec![vec![None; sink + 1]; sink + 1], found: Vec::new() };
    for i in 0..code.k {
        let groups: Vec<usize> = (0..code.m()).filter(|&j| code.columns[j] >> i & 1 == 1).collect();
        assert_eq!(groups.len(), 2, "{:?}", code);
        graph.join(groups[0], groups[1], i);
    }
    (0..code.m()).for_each(|j| graph.join(j, sink, code.k + j));
    (0..=sink).for_each(|start| graph.walk(&mut vec![start], 0));
    sort(code, &mut graph.found);
    graph.found
}

struct Graph {
    /// The disk that joins two vertices.
    disk: Vec<Vec<Option<usize>>>,
    found: Vec<u32>,
}

impl Graph {
    fn join(&mut self, a: usize, b: usize, disk: usize) {
        assert!(self.disk[a][b].is_none(), "two edges between the same vertices");
        self.disk[a][b] = Some(disk);
        self.disk[b][a] = Some(disk);
    }

    /// Goes on with a path, whose edges are `edges`, through vertices past its first. A cycle is found once:
    /// from its lowest vertex, towards the lower one of that vertex's two neighbours.
    fn walk(&mut self, path: &mut Vec<usize>, edges: u32) {
        let (start, last) = (path[0], path[path.len() - 1]);
        for next in start + 1..self.disk.len() {
            if path.contains(&next) {
                continue;
            }
            if let Some(step) = self.disk[last][next] {
                path.push(next);
                if let (true, Some(back)) = (path.len() > 2 && path[1] < next, self.disk[next][start]) {
                    self.found.push(edges | 1 << step | 1 << back);
                }
                self.walk(path, edges | 1 << step);
                path.pop();
            }
        }
    }
}
