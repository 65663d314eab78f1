//! Measures the least that memory allows: what is read and written if each value's slot is known, and nothing is hashed, probed, compared or
//! carried. There are as many slots as a bag has, each of a tag and 16 bytes. The lines are those of the program `bench_times`. No sum is printed.
mod kit;

use kit::{WORDS, each_line, mixed, now, word};
use std::hint::black_box;

const LINE: usize = 64;
const CELLS_OF_LINE: usize = LINE / 16;

struct Slots {
    tags: Vec<u8>,
    cells: Vec<[u64; 2]>,
}

fn slots_of(many: u64) -> usize {
    (many * 4).div_ceil(3).next_power_of_two() as usize
}

impl Slots {
    // Memory that nothing has written yet, if there are many.
    fn new(slots: usize) -> Slots {
        Slots {
            tags: vec![0; slots],
            cells: vec![[0; 2]; slots],
        }
    }

    fn full(slots: usize) -> Slots {
        let mut new = Slots::new(slots);
        new.tags.fill(1);
        new.cells.fill([1, 1]);
        new
    }

    // Reads one word of each line of the processor's cache, in order.
    fn walk(&self) -> u64 {
        let tags: u64 = self.tags.iter().step_by(LINE).map(|it| *it as u64).sum();
        self.cells
            .iter()
            .step_by(CELLS_OF_LINE)
            .fold(tags, |sum, it| sum ^ it[1])
    }

    // Writes one word of each line of another one's cells, for each line of these.
    fn walk_into(&self, other: &mut Slots) -> u64 {
        let from = self.cells.iter().step_by(CELLS_OF_LINE);
        let into = other.cells.iter_mut().step_by(CELLS_OF_LINE);
        from.zip(into).for_each(|(from, into)| into[1] ^= from[1]);
        other.walk()
    }

    // Adds 1 to the count in each of these places.
    fn count(&mut self, places: &[usize]) -> u64 {
        for place in places {
            if self.tags[*place] != 0 {
                self.cells[*place][1] += 1;
            }
        }
        self.cells[0][1]
    }
}

// Prints the time of what is done `times` times.
fn repeat(what: &str, many: u64, values: u64, times: u64, mut once: impl FnMut() -> u64) {
    let start = now();
    for _ in 0..times {
        black_box(once());
    }
    eprintln!("{what} {many} {} {}", values * times, now() - start);
}

// The places of numbered values, which no earlier one predicts.
fn places(slots: usize, numbers: impl Iterator<Item = u64>) -> Vec<usize> {
    numbers.map(|i| mixed(i) as usize & (slots - 1)).collect()
}

fn large(many: u64, times: u64) {
    let places = places(slots_of(many), 0..many);
    repeat("insert", many, many, times, || {
        let mut new = Slots::new(slots_of(many));
        for place in &places {
            new.tags[*place] = 1;
            new.cells[*place] = [1, 1];
        }
        black_box(&new).cells[0][1]
    });
    let mut slots = Slots::full(slots_of(many));
    repeat("found", many, many, times, || {
        let slots = black_box(&slots);
        let count = |it: &usize| {
            if slots.tags[*it] != 0 {
                slots.cells[*it][1]
            } else {
                0
            }
        };
        places.iter().map(count).sum()
    });
    repeat("absent", many, many, times, || {
        let slots = black_box(&slots);
        places.iter().map(|it| slots.tags[*it] as u64).sum()
    });
    repeat("set_walk", many, many, times, || black_box(&slots).walk());
    repeat("remove", many, many, times, || slots.count(&places));
}

// Bags under one hash have equal values at nearly equal places, so that each is read in order.
fn two(many: u64, times: u64) {
    let (first, mut second) = (Slots::full(slots_of(many)), Slots::full(slots_of(many)));
    repeat("outer_join", many, 2 * many, times, || {
        let walks = [&first, &second, &second, &first].map(|it| black_box(it).walk());
        walks.iter().sum()
    });
    repeat("merge", many, many, times, || first.walk_into(&mut second));
}

fn main() {
    each_line(|what, many, times| match what {
        "large" => large(many, times),
        "words" => {
            let mut slots = Slots::full(slots_of(WORDS));
            let places = places(slots_of(WORDS), (0..many).map(word));
            repeat(what, many, many, times, || slots.count(&places));
        }
        "two" => two(many, times),
        "copy" => {
            let (slots, mut new) = (Slots::full(slots_of(many)), Slots::new(slots_of(many)));
            repeat(what, many, many, times, || slots.walk_into(&mut new));
        }
        "clone" => {
            let slots = Slots::full(slots_of(many));
            repeat(what, many, many, times, || {
                let mut new = Slots::new(slots_of(many));
                slots.walk_into(&mut new)
            });
        }
        "common" => {
            let slots = Slots::full(slots_of(many));
            repeat("most_common", many, many, times, || {
                black_box(&slots).walk()
            });
        }
        _ => {}
    });
}
