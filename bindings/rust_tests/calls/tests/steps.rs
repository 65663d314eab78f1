//! The tables of a bag after each of many steps: slots, slots that wait, and room. They have to be those of the proved bag. The program
//! `beside/crates/tests_steps`, in Rattle, makes the same steps under the same state, and prints what is compared here, line by line. A line has a
//! sum over all steps so far, of their tables and of what they returned, so each step is compared.
use hashbag::HashBag;
use std::fmt::Write;
use std::hash::{BuildHasherDefault, Hasher};
use std::path::Path;

/// Hashes a number to itself.
#[derive(Default)]
struct Identity(u64);

impl Hasher for Identity {
    fn finish(&self) -> u64 {
        self.0
    }

    fn write(&mut self, _: &[u8]) {
        unreachable!("only numbers are hashed");
    }

    fn write_u64(&mut self, number: u64) {
        self.0 = number;
    }
}

type Bag = HashBag<u64, BuildHasherDefault<Identity>>;

fn mixed(i: u64) -> u64 {
    let x = i.wrapping_add(0x9e37_79b9_7f4a_7c15);
    let y = (x ^ (x >> 30)).wrapping_mul(0xbf58_476d_1ce4_e5b9);
    let z = (y ^ (y >> 27)).wrapping_mul(0x94d0_49bb_1331_11eb);
    z ^ (z >> 31)
}

/// Makes a step that seldom comes, and concerns the whole bag.
fn whole_step(bag: &mut Bag, which: u64, value: u64) -> usize {
    match which {
        0 => bag.retain(|value, count| if value % 3 == 0 { 0 } else { count / 2 }),
        1 => bag.clear(),
        2 => bag.shrink_to_fit(),
        3 => bag.reserve((value % 90) as usize),
        4 => return bag.drain().count(),
        _ => bag.finish_carry(),
    }
    bag.set_len()
}

/// Makes a step, and returns a number that it returned.
fn step(bag: &mut Bag, draw: u64, value: u64) -> usize {
    let n = (draw >> 40) as usize % 4;
    match draw % 64 {
        0..=33 => bag.insert(value),
        34..=37 => bag.insert_many(value, n),
        38..=45 => bag.remove(&value),
        46..=49 => bag.remove_up_to(&value, n),
        50..=53 => bag.take_all(&value).map_or(0, |(_, count)| count),
        54 => bag.replace(value),
        55..=56 => bag.set_count(value, n),
        57..=58 => {
            bag.entry(value).and_modify(|count| *count = n);
            bag.contains(&value)
        }
        59 => bag.entry(value).or_insert_many(n),
        60 => match bag.try_take(&value) {
            Ok(_) => 1,
            Err(found) => found.map_or(0, |(_, before)| before),
        },
        _ if (draw >> 32) % 16 == 0 => whole_step(bag, (draw >> 36) % 6, draw >> 48),
        _ => bag.contains(&value),
    }
}

/// Makes the steps of a run, and writes its lines.
fn make(run: &str, lines: &mut String) {
    let numbers: Vec<u64> = run.split(' ').map(|word| word.parse().unwrap()).collect();
    let [seed, values, factor, steps, every] = numbers[..] else { panic!("no run: {run}") };
    let (mut bag, mut sum) = (Bag::default(), 0u64);
    for i in 0..steps {
        let draw = mixed(seed ^ mixed(i));
        let value = (mixed(draw) % values).wrapping_mul(factor);
        let returned = step(&mut bag, draw, value);
        let (slots, waiting, room) = (bag.slots(), bag.waiting(), bag.room());
        sum = [slots, waiting, room, returned].iter().fold(sum, |sum, n| mixed(sum ^ *n as u64));
        if i % every == 0 {
            writeln!(lines, "{i} {slots} {waiting} {room} {sum}").unwrap();
        }
    }
}

#[test]
fn as_proved() {
    let folder = Path::new(env!("CARGO_MANIFEST_DIR")).join("../../../beside/crates/tests_steps");
    let read = |name: &str| std::fs::read_to_string(folder.join(name)).unwrap();
    let mut lines = String::new();
    read("stdin").lines().for_each(|run| make(run, &mut lines));
    for (at, (found, wanted)) in lines.lines().zip(read("stdout").lines()).enumerate() {
        assert_eq!(found, wanted, "line {}", at + 1);
    }
    assert_eq!(lines.lines().count(), read("stdout").lines().count());
}
