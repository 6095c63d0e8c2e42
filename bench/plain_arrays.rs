// A plain mark-sweep over a table of arrays of references in ordinary Rust: no proof, no barriers, a block of memory an array. The yardstick of arrays.py.
//
//     plain_arrays OBJECTS ROOT
//
// OBJECTS is a file with a line for each array: its elements, each the number of an array or `-`. For each line of the input there is one collection, and
// one line of output: how many arrays are reached from ROOT, and the time in nanoseconds.
use std::io::Write;
use std::time::Instant;

const NONE: u32 = u32::MAX;

struct Heap {
    cells: Vec<Option<Box<[u32]>>>,
    marked: Vec<bool>,
    grey: Vec<u32>,
    free: Vec<u32>,
}

impl Heap {
    fn shade(marked: &mut [bool], grey: &mut Vec<u32>, slot: u32) {
        if slot != NONE && !marked[slot as usize] {
            marked[slot as usize] = true;
            grey.push(slot);
        }
    }

    fn collect(&mut self, root: u32) -> usize {
        self.marked.fill(false);
        Self::shade(&mut self.marked, &mut self.grey, root);
        let mut live = 0;
        while let Some(slot) = self.grey.pop() {
            live += 1;
            if let Some(elements) = &self.cells[slot as usize] {
                for element in elements {
                    Self::shade(&mut self.marked, &mut self.grey, *element);
                }
            }
        }
        for slot in 0..self.cells.len() {
            if !self.marked[slot] && self.cells[slot].is_some() {
                self.cells[slot] = None;
                self.free.push(slot as u32);
            }
        }
        live
    }
}

fn main() {
    let arguments: Vec<String> = std::env::args().collect();
    let text = std::fs::read_to_string(&arguments[1]).expect("the objects");
    let root: u32 = arguments[2].parse().expect("a root");
    let element = |word: &str| word.parse().unwrap_or(NONE);
    let cells: Vec<Option<Box<[u32]>>> = text.lines().map(|line| Some(line.split(' ').map(element).collect())).collect();
    let count = cells.len();
    let mut heap = Heap {
        cells,
        marked: vec![false; count],
        grey: Vec::with_capacity(count),
        free: Vec::with_capacity(count),
    };
    for _ in std::io::stdin().lines() {
        let begin = Instant::now();
        let live = heap.collect(root);
        let took = begin.elapsed().as_nanos();
        println!("{live} {took}");
        std::io::stdout().flush().expect("the output");
    }
}
