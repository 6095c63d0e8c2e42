// A plain mark-sweep over a table of cells in ordinary Rust: no proof, no barriers, three fields a cell. The yardstick of collect.py.
//
//     plain_mark_sweep OBJECTS ROOT
//
// OBJECTS is a file with a line for each object: its three fields, each the number of an object or `-`. For each line of the input there is
// one collection, and one line of output: how many objects are reached from ROOT, and the time in nanoseconds. What a collection removed is
// there again before the next.
use std::io::Write;
use std::time::Instant;

const NONE: u32 = u32::MAX;

#[derive(Clone, Copy)]
struct Cell {
    taken: bool,
    fields: [u32; 3],
}

struct Heap {
    cells: Vec<Cell>,
    marked: Vec<bool>,
    grey: Vec<u32>,
    free: Vec<u32>,
}

impl Heap {
    fn shade(&mut self, slot: u32) {
        if slot != NONE && !self.marked[slot as usize] {
            self.marked[slot as usize] = true;
            self.grey.push(slot);
        }
    }

    fn collect(&mut self, root: u32) -> usize {
        self.marked.fill(false);
        self.shade(root);
        let mut live = 0;
        while let Some(slot) = self.grey.pop() {
            live += 1;
            for field in self.cells[slot as usize].fields {
                self.shade(field);
            }
        }
        for slot in 0..self.cells.len() {
            if !self.marked[slot] && self.cells[slot].taken {
                self.cells[slot].taken = false;
                self.free.push(slot as u32);
            }
        }
        live
    }
}

fn main() {
    let arguments: Vec<String> = std::env::args().collect();
    let text = std::fs::read_to_string(&arguments[1]).expect("the objects");
    let root: u32 = arguments[2].parse().expect("a root");
    let field = |word: &str| word.parse().unwrap_or(NONE);
    let cells: Vec<Cell> = text
        .lines()
        .map(|line| {
            let mut fields = [NONE; 3];
            for (place, word) in fields.iter_mut().zip(line.split(' ')) {
                *place = field(word);
            }
            Cell { taken: true, fields }
        })
        .collect();
    let count = cells.len();
    let mut heap = Heap {
        cells,
        marked: vec![false; count],
        grey: Vec::with_capacity(count),
        free: Vec::with_capacity(count),
    };
    for _ in std::io::stdin().lines() {
        while let Some(slot) = heap.free.pop() {
            heap.cells[slot as usize].taken = true;
        }
        let begin = Instant::now();
        let live = heap.collect(root);
        let took = begin.elapsed().as_nanos();
        println!("{live} {took}");
        std::io::stdout().flush().expect("the output");
    }
}
