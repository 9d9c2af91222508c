//! The rules by which a version names the other items of its order.

#[derive(Clone, Copy, PartialEq, Eq, Debug)]
pub enum Rule {
    List,
    Stamp,
    Filter,
}

pub const ALL_RULES: [Rule; 3] = [Rule::List, Rule::Stamp, Rule::Filter];

/// The two bits that an item sets in a filter mark.
fn filter_bits(item: u8) -> u64 {
    (1 << (item % 64)) | (1 << (item / 4))
}

impl Rule {
    pub fn name(self) -> &'static str {
        match self {
            Rule::List => "list",
            Rule::Stamp => "stamp",
            Rule::Filter => "filter",
        }
    }

    /// The mark of at most eight items.
    pub fn mark(self, items: &[u8]) -> u64 {
        match self {
            Rule::List => {
                let mut bytes = [0; 8];
                bytes[..items.len()].copy_from_slice(items);
                u64::from_be_bytes(bytes)
            }
            Rule::Stamp => 0,
            Rule::Filter => items
                .iter()
                .filter(|&&item| item != 0)
                .fold(0, |mark, &item| mark | filter_bits(item)),
        }
    }

    pub fn names(self, mark: u64, item: u8) -> bool {
        item != 0
            && match self {
                Rule::List => mark.to_be_bytes().contains(&item),
                Rule::Stamp => true,
                Rule::Filter => mark & filter_bits(item) == filter_bits(item),
            }
    }

    pub fn always_asks_twice(self) -> bool {
        self == Rule::Stamp
    }

    /// The stamps that a place wants to be asked for again. `firsts` has the
    /// stamp and mark of the first ask of each place, `item` stands at `place`.
    pub fn wanted(self, firsts: &[(u32, u64)], place: usize, item: u8) -> [u32; 8] {
        let mut wanted = [0; 8];
        let own = firsts[place].0;
        for (other, &(stamp, mark)) in firsts.iter().enumerate() {
            if other == place {
                if self.always_asks_twice() {
                    wanted[other] = own;
                }
            } else if stamp > own && self.names(mark, item) {
                wanted[other] = stamp;
            }
        }
        wanted
    }

    /// Whether a second ask with these wanted stamps is due.
    pub fn asks_again(self, wanted: &[u32; 8]) -> bool {
        self.always_asks_twice() || wanted.iter().any(|&stamp| stamp != 0)
    }
}

#[cfg(test)]
mod tests {
    use super::*;

    #[test]
    fn worked_marks() {
        let mark = Rule::Filter.mark(&[1, 8]);
        assert_eq!(mark, 263);
        assert!([1, 8, 2].iter().all(|&item| Rule::Filter.names(mark, item)));
        assert!(!Rule::Filter.names(mark, 3));
        let mark = Rule::List.mark(&[1, 8]);
        assert_eq!(mark, 0x0108_0000_0000_0000);
        assert!(!Rule::List.names(mark, 2));
    }

    #[test]
    fn no_rule_names_item_0() {
        for rule in ALL_RULES {
            assert!(!rule.names(rule.mark(&[1, 8, 255]), 0));
            assert!(!rule.names(u64::MAX, 0));
            assert!((1..=255).all(|item| rule.names(rule.mark(&[item]), item)));
        }
    }

    #[test]
    fn wanted_are_later_stamps_that_name_the_item() {
        let both = Rule::List.mark(&[1, 8]);
        let alone = Rule::List.mark(&[8]);
        assert_eq!(
            Rule::List.wanted(&[(0, 0), (17, both)], 0, 1),
            [0, 17, 0, 0, 0, 0, 0, 0]
        );
        assert_eq!(Rule::List.wanted(&[(0, 0), (17, alone)], 0, 1), [0; 8]);
        assert_eq!(Rule::List.wanted(&[(17, both), (17, both)], 0, 1), [0; 8]);
        assert_eq!(
            Rule::Stamp.wanted(&[(16, 0), (17, 0)], 0, 1),
            [16, 17, 0, 0, 0, 0, 0, 0]
        );
        assert!(Rule::Stamp.asks_again(&[0; 8]));
        assert!(!Rule::List.asks_again(&[0; 8]));
    }
}
