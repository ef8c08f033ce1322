//! Finished transactions that wait for one another in a cycle.

use crate::store::{Engine, State};
use crate::words::TxnId;
use std::collections::{BTreeMap, VecDeque};

impl Engine {
    fn is_node(&self, txn: TxnId) -> bool {
        let it = self.txn(txn);
        it.state() == State::Active && it.waits.is_finished() && it.waits.count() > 0
    }

    /// For each node, the nodes that it waits for, by ID.
    fn wait_graph(&self, among: &[TxnId]) -> BTreeMap<TxnId, Vec<TxnId>> {
        let nodes: Vec<TxnId> = among.iter().copied().filter(|it| self.is_node(*it)).collect();
        let waits_for = |waiter: TxnId, other: TxnId| {
            waiter != other && (self.reads_under(other, waiter) || self.txn(other).waiting().contains(&waiter))
        };
        let edges = |waiter: TxnId| nodes.iter().copied().filter(|it| waits_for(waiter, *it)).collect();
        nodes.iter().map(|waiter| (*waiter, edges(*waiter))).collect()
    }

    /// The greatest ID on a cycle of these transactions, followed by the others of its shortest cycle. `among` is in order.
    pub fn cycle(&self, among: &[TxnId]) -> Option<Vec<TxnId>> {
        let graph = self.wait_graph(among);
        graph.keys().rev().find_map(|victim| shortest_cycle(&graph, *victim))
    }
}

/// The shortest way from a node back to it, the least IDs first.
fn shortest_cycle(graph: &BTreeMap<TxnId, Vec<TxnId>>, start: TxnId) -> Option<Vec<TxnId>> {
    let mut came_from = BTreeMap::new();
    let mut queue = VecDeque::from([start]);
    while let Some(node) = queue.pop_front() {
        for next in &graph[&node] {
            if *next == start {
                return Some(way_back(&came_from, start, node));
            }
            if !came_from.contains_key(next) {
                came_from.insert(*next, node);
                queue.push_back(*next);
            }
        }
    }
    None
}

fn way_back(came_from: &BTreeMap<TxnId, TxnId>, start: TxnId, last: TxnId) -> Vec<TxnId> {
    let mut way = vec![last];
    let mut node = last;
    while node != start {
        node = came_from[&node];
        way.push(node);
    }
    way.reverse();
    way
}
