//! Which stores stand below, by the words of the command line.

use crate::stores::{Journal, Link, Partition, Quota, Store, Table};
use crate::text::number;

#[derive(Clone, Copy, PartialEq, Eq, Debug)]
enum Shape {
    Table {
        rows: usize,
    },
    Journal {
        bytes: usize,
    },
    Pile {
        limit: usize,
        bound: u8,
        rows: usize,
        bytes: usize,
    },
}

/// A layout with the word that says all its sizes.
pub struct Layout {
    pub word: String,
    shape: Shape,
}

fn size(word: &str) -> Option<usize> {
    number(word)
        .filter(|&number| number <= 1_000_000)
        .map(|number| number as usize)
}

impl Shape {
    fn word(&self) -> String {
        match self {
            Shape::Table { rows } => format!("table:{rows}"),
            Shape::Journal { bytes } => format!("journal:{bytes}"),
            Shape::Pile {
                limit,
                bound,
                rows,
                bytes,
            } => format!("pile:{limit}:{bound}:{rows}:{bytes}"),
        }
    }
}

impl Layout {
    pub fn read(word: &str) -> Option<Layout> {
        let parts: Vec<&str> = word.split(':').collect();
        let shape = match parts[..] {
            ["table"] => Shape::Table { rows: 64 },
            ["journal"] => Shape::Journal { bytes: 1792 },
            ["pile"] => Shape::Pile {
                limit: 8,
                bound: 100,
                rows: 64,
                bytes: 1792,
            },
            ["table", rows] => Shape::Table { rows: size(rows)? },
            ["journal", bytes] => Shape::Journal {
                bytes: size(bytes)?,
            },
            ["pile", limit, bound, rows, bytes] => Shape::Pile {
                limit: size(limit)?,
                bound: u8::try_from(number(bound)?).ok()?,
                rows: size(rows)?,
                bytes: size(bytes)?,
            },
            _ => return None,
        };
        Some(Layout {
            word: shape.word(),
            shape,
        })
    }

    /// Fresh stores of this layout.
    pub fn build(&self) -> Box<dyn Store> {
        match self.shape {
            Shape::Table { rows } => Box::new(Table::new(rows)),
            Shape::Journal { bytes } => Box::new(Journal::new(bytes)),
            Shape::Pile {
                limit,
                bound,
                rows,
                bytes,
            } => {
                let first = Box::new(Table::new(rows));
                let second = Box::new(Link {
                    below: Box::new(Journal::new(bytes)),
                });
                Box::new(Quota::new(
                    limit,
                    Box::new(Partition {
                        bound,
                        first,
                        second,
                    }),
                ))
            }
        }
    }
}

#[cfg(test)]
mod tests {
    use super::*;

    fn shape(word: &str) -> Option<Shape> {
        Layout::read(word).map(|layout| layout.shape)
    }

    #[test]
    fn short_and_long_words() {
        assert_eq!(shape("table"), shape("table:64"));
        assert_eq!(shape("journal"), shape("journal:1792"));
        assert_eq!(shape("pile"), shape("pile:8:100:64:1792"));
        assert_eq!(shape("table:1000001"), None);
        assert_eq!(shape("pile:8:256:64:1792"), None);
        assert_eq!(shape("pile:8"), None);
        assert_eq!(shape("heap"), None);
    }
}
