//! What `Debug` writes of a bag of three values and of its four walks. The values are in no particular order, so only how often each
//! occurs there is compared.
use crate::tests::walks::bag_of_names;
use hashbag::{FixedState, HashBag};
use std::alloc::Global;
use std::fmt::Debug;
use std::hash::BuildHasher;
use std::test::Fail;
use tests_kit::OneState;
use tests_kit::texts::{debug_of, is_text_of};

const NAMES: [&str; 4] = ["Einar", "Olaf", "Harald", "Olaf"];

// Checks how often a text has Einar, Olaf and Harald.
fn has_names<T: Debug>(alloc: Global, value: &T, wanted: &str) -> Result<(), Fail> {
    let text = debug_of(alloc, value)?;
    let text = text.as_str();
    let einar = text.matches("Einar").count();
    let olaf = text.matches("Olaf").count();
    let harald = text.matches("Harald").count();
    is_text_of(
        text,
        debug_of(alloc, &(einar, olaf, harald))?.as_str(),
        wanted,
    )
}

fn walks_are_written<S: BuildHasher + Drop>(
    alloc: Global,
    bag: &mut HashBag<String, S>,
) -> Result<(), Fail> {
    has_names(alloc, bag, "(1, 2, 1)")?;
    has_names(alloc, &bag.iter(), "(1, 2, 1)")?;
    has_names(alloc, &bag.set_iter(), "(1, 1, 1)")?;
    has_names(alloc, &bag.drain(), "(1, 1, 1)")
}

fn all_are_written<S: BuildHasher + Default + Drop>(alloc: Global) -> Result<(), Fail> {
    let mut bag: HashBag<String, S> = bag_of_names(alloc, &NAMES)?;
    walks_are_written(alloc, &mut bag)?;
    let bag: HashBag<String, S> = bag_of_names(alloc, &NAMES)?;
    has_names(alloc, &bag.into_iter(), "(1, 1, 1)")
}

#[test]
fn three_names_are_written(rt: HostRuntime) -> Result<(), Fail> {
    all_are_written::<FixedState>(rt.alloc())?;
    all_are_written::<OneState>(rt.alloc())
}
