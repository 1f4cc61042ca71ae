//! What a tag or a sheet says: the elements by number, and the carried blocks in tag order.

use super::element::{ISIL, OTHER_ITEM, OTHER_OWNER, PRIMARY};
use std::collections::BTreeMap;

#[derive(Clone, Debug, Default, PartialEq, Eq)]
pub struct Content {
    elements: BTreeMap<u8, Vec<u8>>,
    pub carried: Vec<Vec<u8>>,
}

impl Content {
    /// The element's value, empty where there is none.
    pub fn get(&self, number: u8) -> &[u8] {
        self.elements.get(&number).map_or(&[], |value| value)
    }

    /// Sets the element, or removes it where the value is empty.
    pub fn put(&mut self, number: u8, value: &[u8]) {
        if value.is_empty() {
            self.elements.remove(&number);
        } else {
            self.elements.insert(number, value.to_vec());
        }
    }

    /// The elements that stand once, numbers rising.
    pub fn elements(&self) -> impl Iterator<Item = (u8, &[u8])> {
        self.elements.iter().map(|(number, value)| (*number, &value[..]))
    }

    /// "3 and 23 clash. 22 clashes with a 1 longer than 16 bytes."
    pub fn clashes(&self) -> bool {
        let two_owners = !self.get(ISIL).is_empty() && !self.get(OTHER_OWNER).is_empty();
        let two_items = !self.get(OTHER_ITEM).is_empty() && self.get(PRIMARY).len() > 16;
        two_owners || two_items
    }
}
