//! A bag in JSON and in bincode: what is written, what is read, and which texts are rejected. Expected texts are written by hand.
use hashbag::HashBag;
use serde::{Deserialize, Serialize};

/// A bag as a field, of a type that derives both traits.
#[derive(Debug, PartialEq, Serialize, Deserialize)]
struct Shelf {
    name: String,
    stock: HashBag<(String, u8)>,
}

#[test]
fn pairs() {
    let bag: HashBag<_> = ["bolt", "bolt"].into_iter().collect();
    assert_eq!(serde_json::to_string(&bag).unwrap(), r#"[["bolt",2]]"#);
    assert_eq!(serde_json::to_string(&HashBag::<u8>::new()).unwrap(), "[]");
    // Words of 64 bits, the least byte first: how many pairs, a value, its count.
    let bag: HashBag<u64> = [(7, 3)].into_iter().collect();
    assert_eq!(bincode::serialize(&bag).unwrap(), [1, 0, 0, 0, 0, 0, 0, 0, 7, 0, 0, 0, 0, 0, 0, 0, 3, 0, 0, 0, 0, 0, 0, 0]);
}

#[test]
fn back() {
    let stock = (0..1000).map(|v| ((v.to_string(), (v % 7) as u8), v % 5 + 1)).collect();
    let shelf = Shelf { name: "a".to_string(), stock };
    assert_eq!(serde_json::from_str::<Shelf>(&serde_json::to_string(&shelf).unwrap()).unwrap(), shelf);
    assert_eq!(bincode::deserialize::<Shelf>(&bincode::serialize(&shelf).unwrap()).unwrap(), shelf);
    // What is borrowed from the text.
    let bag: HashBag<&str> = serde_json::from_str(r#"[["nut",1],["bolt",2]]"#).unwrap();
    assert_eq!(bag.sorted(), [(&"bolt", 2), (&"nut", 1)]);
}

#[test]
fn equal_values_add_up() {
    let bag: HashBag<u8> = serde_json::from_str("[[5,2],[6,0],[5,1]]").unwrap();
    assert_eq!(bag.sorted(), [(&5, 3)]);
}

/// The limit isn't in the format.
#[test]
fn limit() {
    let mut bag: HashBag<u8> = [5, 5].into_iter().collect();
    bag.set_limit(2).unwrap();
    let back: HashBag<u8> = serde_json::from_str(&serde_json::to_string(&bag).unwrap()).unwrap();
    assert_eq!((back.len(), back.limit()), (2, usize::MAX));
}

#[test]
fn rejected() {
    let error = |text: &str| serde_json::from_str::<HashBag<u8>>(text).unwrap_err().to_string();
    assert!(error("[[5,18446744073709551615],[6,1]]").contains("total past its end"));
    assert!(error("{}").contains("a sequence of pairs of a value and its count"));
    for text in ["[[5]]", "[[5,-1]]", "[[300,1]]", "[5]", "[[5,1,1]]", "[[5,1]"] {
        error(text);
    }
    // A length that isn't that of the data allocates little.
    assert!(bincode::deserialize::<HashBag<u64>>(&[255; 8]).is_err());
}
