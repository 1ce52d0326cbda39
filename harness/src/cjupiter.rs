//! CJupiter after source document 000: every replica has its own state space, a graph whose nodes are sets of applied operations and whose
//! edges carry operations with contexts; an operation is transformed along first edges from its context to the replica's present node.
//!
//! Names follow the document: css, cur, state, serial, cop, xForm, Perform, DoOp, Rev, SRev. Sets of operation identifiers are counts for each
//! client, as in `form`: every replica applies one client's operations in their order.

use crate::edit::{apply, opening, transform, Edit, Origin, Place};
use crate::form::{with, Quick, Set};
use crate::limits::LINES;
use std::collections::HashMap;

/// An operation identifier: the client (from 0) and its sequence number (from 1).
pub type Oid = (u8, u16);

/// What an item that the operation puts on a list has as its origin.
fn origin(oid: Oid) -> Origin {
    (oid.0 + 1, oid.1)
}

/// An operation with its context.
#[derive(Clone, Copy, PartialEq, Eq, Debug)]
pub struct Cop {
    pub op: Edit,
    pub oid: Oid,
    pub ctx: Set,
}

/// An edge; it starts at the node it is listed under, and ends at that node with the operation added.
#[derive(Clone, Copy, PartialEq, Eq, Debug)]
pub struct Edge {
    pub op: Edit,
    pub oid: Oid,
}

pub struct Replica {
    css: HashMap<Set, Vec<Edge>, Quick>,
    cur: Set,
    pub state: Vec<Place>,
    /// The place of each operation in this replica's serial view, by client; an operation past the end is not in the view.
    serial: [Vec<u32>; LINES],
    viewed: u32,
}

impl Replica {
    pub fn new(initial: &[u32]) -> Replica {
        Replica {
            css: HashMap::from_iter([([0; LINES], Vec::new())]),
            cur: [0; LINES],
            state: opening(initial),
            serial: Default::default(),
            viewed: 0,
        }
    }

    fn place(&self, oid: Oid) -> Option<u32> {
        self.serial[oid.0 as usize].get(oid.1 as usize - 1).copied()
    }

    /// Is the first operation totally ordered before the second, as far as this replica's serial view tells?
    fn tb(&self, one: Oid, two: Oid) -> bool {
        match (self.place(one), self.place(two)) {
            (Some(one), Some(two)) => one < two,
            (one, _) => one.is_some(),
        }
    }

    /// The edge from a node that stands before all its other edges; the edges of the arriving operation are not yet in the
    /// document's graph and do not count.
    fn first_edge(&self, node: &Set, arriving: Oid) -> Edge {
        let edges = self.css[node].iter().filter(|edge| edge.oid != arriving);
        *edges
            .clone()
            .find(|edge| edges.clone().all(|other| other.oid == edge.oid || self.tb(edge.oid, other.oid)))
            .expect("a node below cur has a first edge")
    }

    fn add(&mut self, from: Set, op: Edit, oid: Oid) -> Set {
        let edges = self.css.entry(from).or_default();
        if !edges.iter().any(|edge| edge.oid == oid) {
            edges.push(Edge { op, oid });
        }
        let to = with(from, oid.0 as usize);
        self.css.entry(to).or_default();
        to
    }

    /// xForm and Perform in one: walks from the operation's context to cur, adding the graph's new side on the way, and
    /// applies what the operation became.
    pub fn perform(&mut self, cop: Cop) -> Edit {
        let (mut u, mut op) = (cop.ctx, cop.op);
        let mut v = self.add(u, op, cop.oid);
        while u != self.cur {
            let edge = self.first_edge(&u, cop.oid);
            let ((op_past, _), (edge_past, _)) = (transform(op, edge.op), transform(edge.op, op));
            self.add(v, edge_past, edge.oid);
            u = with(u, edge.oid.0 as usize);
            op = op_past;
            v = self.add(u, op, cop.oid);
        }
        self.cur = v;
        apply(op, origin(cop.oid), &mut self.state);
        op
    }

    /// What an operation is on its edge from a node, if it has one there.
    pub fn at(&self, node: &Set, oid: Oid) -> Option<Edit> {
        self.css.get(node)?.iter().find(|edge| edge.oid == oid).map(|edge| edge.op)
    }

    /// Takes over the server's serial view up to and with `oid`, which the server appended last.
    fn view(&mut self, order: &[Oid]) {
        for &oid in &order[self.viewed as usize..] {
            debug_assert_eq!(self.serial[oid.0 as usize].len() + 1, oid.1 as usize);
            self.serial[oid.0 as usize].push(self.viewed);
            self.viewed += 1;
        }
    }

    pub fn edges(&self) -> usize {
        self.css.values().map(Vec::len).sum()
    }

    /// Bytes that the graph holds: a node's set and list of edges, and the edges, at their present capacity.
    pub fn bytes(&self) -> usize {
        let node = std::mem::size_of::<(Set, Vec<Edge>)>() + 1;
        let edges: usize = self.css.values().map(|edges| edges.capacity() * std::mem::size_of::<Edge>()).sum();
        self.css.capacity() * node + edges
    }

    fn same_graph(&self, other: &Replica) -> bool {
        let covered = |edges: &[Edge], others: &[Edge]| edges.iter().all(|edge| others.contains(edge));
        self.css.len() == other.css.len()
            && self
                .css
                .iter()
                .all(|(node, edges)| other.css.get(node).is_some_and(|others| edges.len() == others.len() && covered(edges, others)))
    }
}

/// The server (replica 0) and its clients, and the operations on their way.
pub struct CJupiter {
    pub replicas: Vec<Replica>,
    pub cops: [Vec<Cop>; LINES],
    pub serial: Vec<Oid>,
}

impl CJupiter {
    pub fn new(n: usize, initial: &[u32]) -> CJupiter {
        CJupiter { replicas: (0..=n).map(|_| Replica::new(initial)).collect(), cops: Default::default(), serial: Vec::new() }
    }

    /// Client `line` (from 1) issues an operation.
    pub fn do_op(&mut self, line: usize, op: Edit) {
        let oid = (line as u8 - 1, self.cops[line - 1].len() as u16 + 1);
        let cop = Cop { op, oid, ctx: self.replicas[line].cur };
        self.replicas[line].perform(cop);
        self.cops[line - 1].push(cop);
    }

    /// The server receives operation `number` of client `line`, which it sends on as it was issued.
    pub fn s_rev(&mut self, line: usize, number: u16) -> Edit {
        let cop = self.cops[line - 1][number as usize - 1];
        let op = self.replicas[0].perform(cop);
        self.serial.push(cop.oid);
        self.replicas[0].view(&self.serial);
        op
    }

    /// Client `line` receives the operation at `place` (from 0) of the server's order, and the serial view of that moment.
    pub fn rev(&mut self, line: usize, place: usize) -> Edit {
        let oid = self.serial[place];
        let cop = self.cops[oid.0 as usize][oid.1 as usize - 1];
        let op = self.replicas[line].perform(cop);
        self.replicas[line].view(&self.serial[..=place]);
        op
    }

    /// The document's theorem: with nothing on its way, all state spaces are the same.
    pub fn compact(&self) -> bool {
        self.replicas.iter().all(|replica| replica.same_graph(&self.replicas[0]))
    }
}
