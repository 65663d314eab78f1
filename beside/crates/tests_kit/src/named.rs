//! `Named`: a value with a name, whose tree is an object.
ghost use Rattle.std.specs.Prelude.{◌≡◌, Some, is_some, string_bytes, refl};
ghost use Rattle.tests_kit.specs.Named.{name_of, named_tree, named_equal_trees, named_back, named_one, named_has, named_is_read};

use hashbag::{BagError, ItemError, JsonItem};
use serde_json::{Map, Value};
use std::alloc::Global;

/// A value that differs from others by its name. Its tree is the object `{"name": ..}`.
#[derive(Debug, PartialEq, Eq, PartialOrd, Ord, Hash, Drop)]
pub struct Named {
    /// What is compared, ordered and hashed.
    pub name: String,
}

impl JsonItem for Named {
    ghost is_item = { λ x. Unit {0} };

    ghost tree_of = { λ x. named_tree (string_bytes x.name) };

    ghost has_item = { λ d. is_some (name_of d) };

    ghost reads = { λ d x. name_of d ≡ Some (string_bytes x.name) };

    fn to_json(&self, alloc: Global) -> Result<Value, BagError> {
        let mut map = Map::new(alloc);
        serde_json::put(
            &mut map,
            alloc,
            "name",
            Value::try_from_str(alloc, self.name.as_str())?,
        )?;
        Ok(Value::Object(map))
    }

    fn from_json(alloc: Global, v: &Value) -> Result<Named, ItemError> {
        match v.get("name").and_then(Value::as_str) {
            Some(text) => Ok(Named {
                name: String::from_str(alloc, text)?,
            }),
            None => Err(ItemError::NotAnItem),
        }
    }

    ghost equal_is_item = { λ x y h e. tt };

    ghost equal_trees = { λ x y h k e. named_equal_trees (string_bytes x.name) (string_bytes y.name) e };

    ghost tree_is_read = { λ x h. (x, h, refl) };

    ghost read_has_item = { λ d x e. named_has d (string_bytes x.name) e };

    ghost item_is_read = { λ v e. let found = named_is_read v e in (record { name = found.0 }, tt, found.1) };

    ghost reads_back = { λ x y h e. named_back (string_bytes x.name) (string_bytes y.name) e };

    ghost reads_one = { λ d x y h k p q. named_one d (string_bytes x.name) (string_bytes y.name) p q };

    ghost no_float = { λ x h. refl };
}
