//! Long runs of calls on a bag and on a `BTreeMap`, with copies at every stage of a carry.
use hashbag::{BagError, HashBag};
use std::collections::BTreeMap;
use std::rc::Rc;

struct Random(u64);

impl Random {
    fn below(&mut self, n: u64) -> u64 {
        self.0 = self.0.wrapping_mul(6364136223846793005).wrapping_add(1442695040888963407);
        ((self.0 >> 33) * n) >> 31
    }
}

fn same(bag: &HashBag<u64>, model: &BTreeMap<u64, usize>) {
    assert_eq!(bag.sorted(), model.iter().map(|(v, n)| (v, *n)).collect::<Vec<_>>());
    assert_eq!(bag.len(), model.values().sum::<usize>());
    assert_eq!(bag.iter().count(), bag.iter().map(|_| 1).sum::<usize>());
    for v in 0..20 {
        assert_eq!(bag.contains(&v), model.get(&v).copied().unwrap_or(0));
    }
}

#[test]
fn like_a_map() {
    for seed in 0..30u64 {
        let mut r = Random(seed);
        let range = [8, 60, 500, 5000][seed as usize % 4];
        let (mut bag, mut model): (HashBag<u64>, BTreeMap<u64, usize>) = Default::default();
        for step in 0..6000 {
            let (v, n) = (r.below(range), r.below(4) as usize);
            let count = model.get(&v).copied().unwrap_or(0);
            match r.below(16) {
                0..=5 => {
                    assert_eq!(bag.insert_many(v, n), count);
                    if n > 0 {
                        *model.entry(v).or_insert(0) += n;
                    }
                }
                6 => {
                    assert_eq!(bag.remove(&v), count);
                    if count < 2 {
                        model.remove(&v);
                    } else {
                        model.insert(v, count - 1);
                    }
                }
                7 => {
                    assert_eq!(bag.remove_up_to(&v, n), count.saturating_sub(n));
                    if count <= n {
                        model.remove(&v);
                    } else {
                        model.insert(v, count - n);
                    }
                }
                8 => assert_eq!(bag.take_all(&v), model.remove(&v).map(|n| (v, n))),
                9 => {
                    assert_eq!(bag.replace(v), count);
                    model.insert(v, 1);
                }
                10 => {
                    bag.entry(v).and_modify(|m| *m = n).or_insert_many(2);
                    let now = if count == 0 || n == 0 { 2 } else { n };
                    model.insert(v, now);
                }
                11 => {
                    assert_eq!(bag.set_count(v, n), count);
                    if n == 0 {
                        model.remove(&v);
                    } else {
                        model.insert(v, n);
                    }
                }
                12 => match bag.try_take(&v) {
                    Ok(v) => assert_eq!(model.remove(&v), Some(1)),
                    Err(None) => assert_eq!(count, 0),
                    Err(Some((_, m))) => {
                        assert_eq!(m, count);
                        model.insert(v, count - 1);
                    }
                },
                13 if step % 40 == 0 => {
                    bag.retain(|v, m| if v % 3 == 0 { 0 } else { m.min(2) });
                    model.retain(|v, m| {
                        *m = (*m).min(2);
                        v % 3 != 0
                    });
                }
                14 if step % 30 == 0 => bag.shrink_to_fit(),
                15 if step % 10 == 0 => {
                    let copy = bag.clone();
                    assert_eq!(copy, bag);
                    same(&copy, &model);
                    bag = copy;
                }
                _ => assert_eq!(bag.get(&v).map(|(_, n)| n).unwrap_or(0), count),
            }
            if step % 500 == 0 {
                same(&bag, &model);
            }
        }
        same(&bag, &model);
        let mut twice = bag.clone();
        twice.merge(bag.clone());
        assert!(twice.iter().count() == 2 * bag.len() && twice.contains_all(&bag));
        twice.take_away(&bag);
        assert_eq!(twice, bag);
        twice.keep_most(bag.clone());
        twice.keep_common(&bag);
        assert_eq!(twice, bag);
        assert_eq!(twice.outer_join(&bag).filter(|j| j.1 != j.2).count() + twice.not_in(&bag).count() + twice.difference(&bag).count(), 0);
        assert_eq!(bag.into_iter().collect::<BTreeMap<_, _>>(), model);
    }
}

/// A copy at each step of a growth, and after a growth the copy of a copy.
#[test]
fn copies() {
    let mut bag = HashBag::new();
    for v in 0..400u64 {
        bag.insert_many(v, v as usize + 1);
        let mut copy = bag.clone();
        assert_eq!((copy.waiting(), copy.len(), copy.limit()), (bag.waiting(), bag.len(), bag.limit()));
        copy.insert(1000);
        copy.remove(&1000);
        assert_eq!(copy, bag);
        assert!((0..=v).all(|v| copy.contains(&v) == v as usize + 1));
    }
}

/// `Debug` of an iterator that was read in part shows what is left, in the order in which it comes, also in mid-carry.
#[test]
fn rest() {
    for n in [0, 1, 13, 30, 400, 3000, 6200] {
        let bag: HashBag<u64> = (0..n).map(|v| (v, v as usize + 1)).collect();
        for read in [0, 1, n as usize / 3, n as usize] {
            let (mut lent, mut taken, mut drained) = (bag.set_iter(), bag.clone().into_iter(), bag.clone());
            let mut drained = drained.drain();
            for _ in 0..read {
                let next = lent.next().map(|(v, m)| (*v, m));
                assert_eq!((taken.next(), drained.next()), (next, next));
            }
            let texts = [format!("{taken:?}"), format!("{drained:?}")];
            assert_eq!(format!("{lent:?}").trim_matches(['{', '}']), texts[0].trim_matches(['[', ']']));
            let left: Vec<_> = taken.collect();
            assert_eq!(texts, [format!("{left:?}"), format!("{left:?}")]);
            assert!(lent.clone().len() == left.len() && lent.map(|(v, m)| (*v, m)).eq(left));
        }
    }
}

#[test]
fn limits() {
    let mut bag: HashBag<u8> = HashBag::with_limit(3, std::hash::RandomState::new());
    bag.insert_many(1, 2);
    assert_eq!(bag.try_insert_many(2, 2), Err(BagError::TooMany));
    assert_eq!(bag.clone().try_merge(bag.clone()), Err(BagError::TooMany));
    assert_eq!(bag.entry(1).try_and_modify(|n| *n = 4).map(drop), Err(BagError::TooMany));
    assert_eq!(bag.entry(2).try_or_insert_many(2), Err(BagError::TooMany));
    assert_eq!(bag.sorted(), [(&1, 2)]);
    assert_eq!(BagError::TooMany.to_string(), "total past its end");
}

/// The clone panics if there would be more than so many instances.
struct Counted(usize, Rc<()>, usize);

impl Clone for Counted {
    fn clone(&self) -> Self {
        assert!(Rc::strong_count(&self.1) <= self.2, "planned");
        Counted(self.0, self.1.clone(), self.2)
    }
}

impl PartialEq for Counted {
    fn eq(&self, other: &Self) -> bool {
        self.0 == other.0
    }
}

impl Eq for Counted {}

impl std::hash::Hash for Counted {
    fn hash<H: std::hash::Hasher>(&self, to: &mut H) {
        self.0.hash(to);
    }
}

/// Each stored instance is dropped once: with a bag, a copy, an iterator that was read in part, also in mid-carry.
#[test]
fn drops() {
    let one = Rc::new(());
    let live = || Rc::strong_count(&one) - 1;
    for n in [0, 1, 12, 13, 25, 30, 400] {
        let of = |most| (0..n).map(move |v| (v, most));
        let made = |(v, most)| Counted(v, one.clone(), most);
        let make = || of(usize::MAX).map(made).collect::<HashBag<_>>();
        let mut bag = make();
        bag.extend(of(0).map(made));
        assert_eq!(live(), n);
        let copy = bag.clone();
        assert_eq!(live(), 2 * n);
        drop(bag);
        assert_eq!(live(), n);
        let mut walk = copy.into_iter();
        let taken: Vec<_> = walk.by_ref().take(n / 2).collect();
        drop(walk);
        assert_eq!(live(), n / 2);
        drop(taken);
        let mut bag = make();
        bag.drain().take(n / 3).for_each(drop);
        assert_eq!((live(), bag.len()), (0, 0));
        bag = make();
        bag.retain(|v, m| m * (v.0 % 2));
        assert_eq!(live(), n / 2);
        bag.finish_carry();
        bag.shrink_to_fit();
        assert_eq!(live(), n / 2);
        bag.clear();
        assert_eq!(live(), 0);
        // What was cloned before a panic is dropped.
        let bag: HashBag<_> = of(n + n / 2).map(made).collect();
        let copy = std::panic::catch_unwind(std::panic::AssertUnwindSafe(|| bag.clone()));
        assert_eq!((copy.is_err(), live()), (n > 0, n));
    }
}
