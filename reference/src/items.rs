//! Items, their kinds, their bodies and codes, and stamps.

use std::fmt;

/// A refusal by its number.
#[derive(Clone, Copy, PartialEq, Eq, Debug)]
pub struct Refusal(pub u8);

pub const HIGHEST_SEQUENCE: u32 = 268_435_455;
const MOST_LITRES: u64 = 99_999_999;

/// The stamp of an order: the greater stamp is the later.
pub fn stamp_of(writer: u8, sequence: u32) -> u32 {
    sequence * 16 + u32::from(writer)
}

/// What is held for an item under a stamp. The blank version is all zeros.
#[derive(Clone, Copy, PartialEq, Eq, Debug, Default)]
pub struct Version {
    pub stamp: u32,
    pub code: u64,
    pub mark: u64,
}

impl Version {
    pub const BLANK: Version = Version {
        stamp: 0,
        code: 0,
        mark: 0,
    };
}

#[derive(Clone, Copy, PartialEq, Eq, Debug)]
pub enum Kind {
    Quantity,
    LineUp,
    Card,
}

impl Kind {
    /// The kind of an item; item 0 has none.
    pub fn of(item: u8) -> Option<Kind> {
        match item {
            0 => None,
            1..=99 => Some(Kind::Quantity),
            100..=199 => Some(Kind::LineUp),
            200..=255 => Some(Kind::Card),
        }
    }

    pub fn name(self) -> &'static str {
        match self {
            Kind::Quantity => "quantity",
            Kind::LineUp => "line-up",
            Kind::Card => "tank card",
        }
    }

    /// The words of a body of this kind, each with a number after it.
    pub fn words(self) -> &'static [&'static str] {
        match self {
            Kind::Quantity => &["volume", "rate"],
            Kind::LineUp => &["from", "to", "valves"],
            Kind::Card => &["tank", "limit"],
        }
    }
}

#[derive(Clone, Copy, PartialEq, Eq, Debug)]
pub enum Body {
    Quantity {
        volume: u64,
        rate: u64,
    },
    LineUp {
        source: u64,
        destination: u64,
        valves: u64,
    },
    Card {
        tank: u64,
        limit: u64,
    },
}

fn is_tank(number: u64) -> bool {
    (1..=255).contains(&number)
}

impl Body {
    /// The body with these numbers, in the order of the kind's words.
    pub fn from_numbers(kind: Kind, numbers: &[u64]) -> Option<Body> {
        let body = match (kind, numbers) {
            (Kind::Quantity, &[volume, rate]) => Body::Quantity { volume, rate },
            (Kind::LineUp, &[source, destination, valves]) => Body::LineUp {
                source,
                destination,
                valves,
            },
            (Kind::Card, &[tank, limit]) => Body::Card { tank, limit },
            _ => return None,
        };
        body.is_valid().then_some(body)
    }

    fn is_valid(self) -> bool {
        match self {
            Body::Quantity { volume, rate } => volume <= MOST_LITRES && rate <= 65_535,
            Body::LineUp {
                source,
                destination,
                valves,
            } => {
                is_tank(source) && is_tank(destination) && source != destination && valves <= 65_535
            }
            Body::Card { tank, limit } => is_tank(tank) && limit <= MOST_LITRES,
        }
    }

    pub fn code(self) -> u64 {
        match self {
            Body::Quantity { volume, rate } => volume * 65_536 + rate,
            Body::LineUp {
                source,
                destination,
                valves,
            } => source * 16_777_216 + destination * 65_536 + valves,
            Body::Card { tank, limit } => tank * (1 << 54) + limit,
        }
    }

    /// The body that has this code, if any has.
    pub fn from_code(kind: Kind, code: u64) -> Option<Body> {
        let body = match kind {
            Kind::Quantity => Body::Quantity {
                volume: code / 65_536,
                rate: code % 65_536,
            },
            Kind::LineUp => Body::LineUp {
                source: code / 16_777_216,
                destination: code / 65_536 % 256,
                valves: code % 65_536,
            },
            Kind::Card => Body::Card {
                tank: code / (1 << 54),
                limit: code % (1 << 54),
            },
        };
        body.is_valid().then_some(body)
    }
}

impl fmt::Display for Body {
    fn fmt(&self, out: &mut fmt::Formatter) -> fmt::Result {
        match self {
            Body::Quantity { volume, rate } => write!(out, "volume {volume} rate {rate}"),
            Body::LineUp {
                source,
                destination,
                valves,
            } => {
                write!(out, "from {source} to {destination} valves {valves}")
            }
            Body::Card { tank, limit } => write!(out, "tank {tank} limit {limit}"),
        }
    }
}

/// Whether a line-up, a quantity and a card permit the transfer together.
/// A missing body permits nothing.
pub fn permits(line_up: Option<Body>, quantity: Option<Body>, card: Option<Body>) -> bool {
    match (line_up, quantity, card) {
        (
            Some(Body::LineUp { destination, .. }),
            Some(Body::Quantity { volume, .. }),
            Some(Body::Card { tank, limit }),
        ) => tank == destination && volume <= limit,
        _ => false,
    }
}

#[cfg(test)]
mod tests {
    use super::*;

    #[test]
    fn worked_codes() {
        let quantity = Body::from_numbers(Kind::Quantity, &[10, 3]).unwrap();
        assert_eq!(quantity.code(), 655_363);
        let line_up = Body::from_numbers(Kind::LineUp, &[1, 2, 3]).unwrap();
        assert_eq!(line_up.code(), 16_908_291);
        let card = Body::from_numbers(Kind::Card, &[2, 10]).unwrap();
        assert_eq!(card.code(), 2 * 18_014_398_509_481_984 + 10);
    }

    #[test]
    fn codes_read_back() {
        let bodies = [
            (Kind::Quantity, vec![0, 0]),
            (Kind::Quantity, vec![99_999_999, 65_535]),
            (Kind::LineUp, vec![255, 1, 65_535]),
            (Kind::Card, vec![255, 99_999_999]),
        ];
        for (kind, numbers) in bodies {
            let body = Body::from_numbers(kind, &numbers).unwrap();
            assert_eq!(Body::from_code(kind, body.code()), Some(body));
        }
    }

    #[test]
    fn bounds_of_bodies() {
        assert_eq!(Body::from_numbers(Kind::Quantity, &[100_000_000, 0]), None);
        assert_eq!(Body::from_numbers(Kind::Quantity, &[0, 65_536]), None);
        assert_eq!(Body::from_numbers(Kind::LineUp, &[4, 4, 0]), None);
        assert_eq!(Body::from_numbers(Kind::LineUp, &[0, 4, 0]), None);
        assert_eq!(Body::from_numbers(Kind::LineUp, &[1, 256, 0]), None);
        assert_eq!(Body::from_numbers(Kind::LineUp, &[1, 2, 65_536]), None);
        assert_eq!(Body::from_numbers(Kind::Card, &[0, 0]), None);
        assert_eq!(Body::from_numbers(Kind::Card, &[1, 100_000_000]), None);
        assert_eq!(Body::from_code(Kind::LineUp, 0), None);
        assert_eq!(Body::from_code(Kind::Card, 0), None);
        assert_eq!(Body::from_code(Kind::Quantity, u64::MAX), None);
    }

    #[test]
    fn stamps() {
        assert_eq!(stamp_of(1, 1), 17);
        assert_eq!(stamp_of(15, HIGHEST_SEQUENCE), u32::MAX);
    }

    #[test]
    fn a_permit_wants_the_tank_and_the_limit() {
        let line_up = Body::from_numbers(Kind::LineUp, &[1, 2, 3]);
        let quantity = Body::from_numbers(Kind::Quantity, &[10, 3]);
        let card = |tank, limit| Body::from_numbers(Kind::Card, &[tank, limit]);
        assert!(permits(line_up, quantity, card(2, 10)));
        assert!(!permits(line_up, quantity, card(2, 9)));
        assert!(!permits(line_up, quantity, card(1, 10)));
        assert!(!permits(line_up, quantity, None));
    }
}
