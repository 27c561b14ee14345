//! Opening and closing, which the crate has not: document 01's refusals, and a plain model after its section Edits,
//! breadth first.

use super::{map_fault, whole, Fault};
use crate::shapes::Cell;
use std::collections::VecDeque;

pub const OUTSIDE: u8 = 6;
pub const INSIDE: u8 = 7;
pub const SURFACE: u8 = 8;
pub const OPEN: u32 = 0;
pub const CLOSE: u32 = 1;

#[derive(Clone, Copy)]
pub struct Edit {
    pub way: u32,
    pub cell: Cell,
}

#[derive(Clone, PartialEq)]
pub struct Map {
    pub axes: [usize; 3],
    pub labels: Vec<u8>,
}

impl Map {
    pub fn number(&self, at: [usize; 3]) -> usize {
        at[0] + at[1] * self.axes[0] + at[2] * self.axes[0] * self.axes[1]
    }
    pub fn cell(&self, n: usize) -> [usize; 3] {
        [n % self.axes[0], n / self.axes[0] % self.axes[1], n / self.axes[0] / self.axes[1]]
    }
    pub fn neighbour(&self, n: usize, axis: usize, up: bool) -> Option<usize> {
        let mut at = self.cell(n);
        at[axis] = if up { at[axis] + 1 } else { at[axis].checked_sub(1)? };
        (at[axis] < self.axes[axis]).then(|| self.number(at))
    }
    /// The face neighbours, of which a border cell lacks some.
    pub fn neighbours(&self, n: usize) -> [Option<usize>; 6] {
        std::array::from_fn(|d| self.neighbour(n, d / 2, d % 2 == 1))
    }
    pub fn on_border(&self, n: usize) -> bool {
        self.neighbours(n).contains(&None)
    }
    /// For each cell, whether it is one of the starts or reached from one through cells that `through` takes.
    pub fn reached(&self, starts: Vec<usize>, through: impl Fn(u8) -> bool) -> Vec<bool> {
        let mut seen = vec![false; self.labels.len()];
        starts.iter().for_each(|&n| seen[n] = true);
        let mut queue = VecDeque::from(starts);
        while let Some(n) = queue.pop_front() {
            for next in self.neighbours(n).into_iter().flatten() {
                if !seen[next] && through(self.labels[next]) {
                    seen[next] = true;
                    queue.push_back(next);
                }
            }
        }
        seen
    }
    /// The cells of the border that `takes` takes.
    pub fn border(&self, takes: impl Fn(u8) -> bool) -> Vec<usize> {
        (0..self.labels.len()).filter(|&n| takes(self.labels[n]) && self.on_border(n)).collect()
    }
    /// If c is on the border or has a face neighbour 6, then c and every 7 reached from it through cells 7 become 6.
    /// Otherwise c becomes 7.
    pub fn open(&mut self, c: usize) {
        let out = self.on_border(c) || self.neighbours(c).into_iter().flatten().any(|n| self.labels[n] == OUTSIDE);
        if !out {
            self.labels[c] = INSIDE;
            return;
        }
        let reached = self.reached(vec![c], |v| v == INSIDE);
        (0..reached.len()).filter(|&n| reached[n]).for_each(|n| self.labels[n] = OUTSIDE);
    }
    /// c becomes 8. If it was 6, each other cell 6 that was joined to c through cells 6 and now has no path of cells 6
    /// to a border cell becomes 7.
    pub fn close(&mut self, c: usize) {
        let was = self.labels[c];
        let joined = self.reached(vec![c], |v| v == OUTSIDE);
        self.labels[c] = SURFACE;
        if was != OUTSIDE {
            return;
        }
        let with_path = self.reached(self.border(|v| v == OUTSIDE), |v| v == OUTSIDE);
        for n in 0..joined.len() {
            if n != c && joined[n] && !with_path[n] {
                self.labels[n] = INSIDE;
            }
        }
    }
    /// The flood of the surface cells: any other cell is 6 if it is joined to the border through such cells, else 7.
    pub fn flooded(&self) -> Map {
        let air = self.reached(self.border(|v| v != SURFACE), |v| v != SURFACE);
        let label = |n: usize| match self.labels[n] {
            SURFACE => SURFACE,
            _ if air[n] => OUTSIDE,
            _ => INSIDE,
        };
        Map { axes: self.axes, labels: (0..air.len()).map(label).collect() }
    }
}

/// The lowest number that applies, with its place.
pub fn refusal(axes: Cell, labels: &[u8], e: Edit) -> Option<Fault> {
    let of_map = map_fault(axes, labels, |v| [OUTSIDE, INSIDE, SURFACE].contains(&v));
    if of_map.is_some() {
        return of_map;
    }
    if (0..3).any(|a| e.cell[a] >= axes[a]) {
        return Some((12, 0));
    }
    let label = labels[(e.cell[0] + e.cell[1] * axes[0] + e.cell[2] * axes[0] * axes[1]) as usize];
    whole(13, (label == SURFACE) != (e.way == OPEN))
}
