//! The service: orders and reads over one store and one naming rule.

use crate::items::{permits, stamp_of, Body, Kind, Refusal, Version, HIGHEST_SEQUENCE};
use crate::naming::Rule;
use crate::stores::Store;

/// The eleven calls.
#[derive(Clone, PartialEq, Eq, Debug)]
pub enum Call {
    File {
        writer: u8,
        sequence: u32,
        items: Vec<u8>,
        codes: Vec<u64>,
    },
    Prepare {
        writer: u8,
        place: u8,
    },
    Commit {
        writer: u8,
        place: u8,
    },
    Close {
        writer: u8,
    },
    Withdraw {
        writer: u8,
    },
    Open {
        reader: u8,
        items: Vec<u8>,
    },
    First {
        reader: u8,
        place: u8,
    },
    Second {
        reader: u8,
        place: u8,
    },
    Take {
        reader: u8,
        place: u8,
    },
    Release {
        reader: u8,
    },
    Permit {
        reader: u8,
        line_up: u8,
        quantity: u8,
        card: u8,
    },
}

#[derive(Clone, Copy, PartialEq, Eq, Debug)]
pub enum Answer {
    Number(u32),
    Shown { stamp: u32, code: u64 },
    Permit(bool),
}

struct Order {
    stamp: u32,
    items: Vec<u8>,
    codes: Vec<u64>,
    prepared: Vec<bool>,
    committed: Vec<bool>,
}

impl Order {
    fn is_gathering(&self) -> bool {
        self.prepared.contains(&false)
    }

    fn is_complete(&self) -> bool {
        !self.is_gathering() && !self.committed.contains(&false)
    }
}

#[derive(Default)]
struct OrderRow {
    last_sequence: u32,
    open: Option<Order>,
}

/// One place of a read: what the first ask kept, and what the second one did.
#[derive(Clone)]
struct Place {
    item: u8,
    first: Option<Version>,
    second: Option<Version>,
}

impl Place {
    fn kept(&self) -> Version {
        self.second.or(self.first).unwrap_or(Version::BLANK)
    }
}

struct Read {
    places: Vec<Place>,
}

impl Read {
    /// The first version of each place, once all first asks are made.
    fn firsts(&self) -> Option<Vec<(u32, u64)>> {
        let pair = |version: Version| (version.stamp, version.mark);
        self.places
            .iter()
            .map(|place| place.first.map(pair))
            .collect()
    }

    /// The wanted stamps of a place where a second ask is due; refused where
    /// none is.
    fn second_due(&self, rule: Rule, place: usize) -> Result<[u32; 8], Refusal> {
        let firsts = self.firsts().ok_or(Refusal(25))?;
        let wanted = rule.wanted(&firsts, place, self.places[place].item);
        if self.places[place].second.is_none() && rule.asks_again(&wanted) {
            Ok(wanted)
        } else {
            Err(Refusal(26))
        }
    }

    fn is_finished(&self, rule: Rule) -> bool {
        let done = |place| self.second_due(rule, place) == Err(Refusal(26));
        (0..self.places.len()).all(done)
    }

    fn asks(&self) -> u32 {
        let asks =
            |place: &Place| u32::from(place.first.is_some()) + u32::from(place.second.is_some());
        self.places.iter().map(asks).sum()
    }
}

pub struct Service {
    rule: Rule,
    store: Box<dyn Store>,
    orders: [OrderRow; 16],
    reads: [Option<Read>; 16],
}

/// Refuses a list that is empty, too long, or has item 0 or an item twice.
fn check_items(items: &[u8]) -> Result<(), Refusal> {
    if items.is_empty() || items.len() > 8 {
        return Err(Refusal(13));
    }
    let twice = |place: usize| items[..place].contains(&items[place]);
    if items.contains(&0) || (0..items.len()).any(twice) {
        return Err(Refusal(14));
    }
    Ok(())
}

fn check_place(place: u8, length: usize) -> Result<usize, Refusal> {
    let place = usize::from(place);
    if place < length {
        Ok(place)
    } else {
        Err(Refusal(17))
    }
}

fn order_row(orders: &mut [OrderRow; 16], writer: u8) -> Result<&mut OrderRow, Refusal> {
    orders.get_mut(usize::from(writer)).ok_or(Refusal(10))
}

fn open_order(orders: &mut [OrderRow; 16], writer: u8) -> Result<&mut Order, Refusal> {
    order_row(orders, writer)?.open.as_mut().ok_or(Refusal(16))
}

fn open_read(reads: &mut [Option<Read>; 16], reader: u8) -> Result<&mut Read, Refusal> {
    let row = reads.get_mut(usize::from(reader)).ok_or(Refusal(21))?;
    row.as_mut().ok_or(Refusal(23))
}

impl Service {
    pub fn new(rule: Rule, store: Box<dyn Store>) -> Service {
        Service {
            rule,
            store,
            orders: Default::default(),
            reads: Default::default(),
        }
    }

    pub fn call(&mut self, call: &Call) -> Result<Answer, Refusal> {
        match *call {
            Call::File {
                writer,
                sequence,
                ref items,
                ref codes,
            } => self
                .file(writer, sequence, items, codes)
                .map(Answer::Number),
            Call::Prepare { writer, place } => self.prepare(writer, place).map(Answer::Number),
            Call::Commit { writer, place } => self.commit(writer, place).map(Answer::Number),
            Call::Close { writer } => self.close(writer).map(Answer::Number),
            Call::Withdraw { writer } => self.withdraw(writer).map(Answer::Number),
            Call::Open { reader, ref items } => self.open(reader, items).map(Answer::Number),
            Call::First { reader, place } => self.first(reader, place).map(Answer::Number),
            Call::Second { reader, place } => self.second(reader, place).map(Answer::Number),
            Call::Take { reader, place } => {
                let version = self.take(reader, place)?;
                Ok(Answer::Shown {
                    stamp: version.stamp,
                    code: version.code,
                })
            }
            Call::Release { reader } => self.release(reader).map(Answer::Number),
            Call::Permit {
                reader,
                line_up,
                quantity,
                card,
            } => self
                .permit(reader, line_up, quantity, card)
                .map(Answer::Permit),
        }
    }

    fn file(
        &mut self,
        writer: u8,
        sequence: u32,
        items: &[u8],
        codes: &[u64],
    ) -> Result<u32, Refusal> {
        let row = order_row(&mut self.orders, writer)?;
        if row.open.is_some() {
            return Err(Refusal(11));
        }
        if sequence > HIGHEST_SEQUENCE || sequence <= row.last_sequence {
            return Err(Refusal(12));
        }
        if items.len() != codes.len() {
            return Err(Refusal(13));
        }
        check_items(items)?;
        let has_body = |(&item, &code): (&u8, &u64)| {
            Kind::of(item).is_some_and(|kind| Body::from_code(kind, code).is_some())
        };
        if !items.iter().zip(codes).all(has_body) {
            return Err(Refusal(15));
        }
        let stamp = stamp_of(writer, sequence);
        row.last_sequence = sequence;
        row.open = Some(Order {
            stamp,
            items: items.to_vec(),
            codes: codes.to_vec(),
            prepared: vec![false; items.len()],
            committed: vec![false; items.len()],
        });
        Ok(stamp)
    }

    fn prepare(&mut self, writer: u8, place: u8) -> Result<u32, Refusal> {
        let order = open_order(&mut self.orders, writer)?;
        let place = check_place(place, order.items.len())?;
        let mark = self.rule.mark(&order.items);
        let version = Version {
            stamp: order.stamp,
            code: order.codes[place],
            mark,
        };
        let new = self.store.put(order.items[place], version)?;
        order.prepared[place] = true;
        Ok(u32::from(new))
    }

    fn commit(&mut self, writer: u8, place: u8) -> Result<u32, Refusal> {
        let order = open_order(&mut self.orders, writer)?;
        let place = check_place(place, order.items.len())?;
        if order.is_gathering() {
            return Err(Refusal(18));
        }
        let rose = self.store.commit(order.items[place], order.stamp)?;
        order.committed[place] = true;
        Ok(u32::from(rose))
    }

    fn close(&mut self, writer: u8) -> Result<u32, Refusal> {
        let order = open_order(&mut self.orders, writer)?;
        if !order.is_complete() {
            return Err(Refusal(19));
        }
        let stamp = order.stamp;
        self.orders[usize::from(writer)].open = None;
        Ok(stamp)
    }

    fn withdraw(&mut self, writer: u8) -> Result<u32, Refusal> {
        let order = open_order(&mut self.orders, writer)?;
        if !order.is_gathering() {
            return Err(Refusal(20));
        }
        let stamp = order.stamp;
        self.orders[usize::from(writer)].open = None;
        Ok(stamp)
    }

    fn open(&mut self, reader: u8, items: &[u8]) -> Result<u32, Refusal> {
        let row = self.reads.get_mut(usize::from(reader)).ok_or(Refusal(21))?;
        if row.is_some() {
            return Err(Refusal(22));
        }
        check_items(items)?;
        let place = |&item: &u8| Place {
            item,
            first: None,
            second: None,
        };
        *row = Some(Read {
            places: items.iter().map(place).collect(),
        });
        Ok(items.len() as u32)
    }

    fn first(&mut self, reader: u8, place: u8) -> Result<u32, Refusal> {
        let read = open_read(&mut self.reads, reader)?;
        let place = check_place(place, read.places.len())?;
        let place = &mut read.places[place];
        if place.first.is_some() {
            return Err(Refusal(24));
        }
        let version = self.store.last(place.item)?;
        place.first = Some(version);
        Ok(version.stamp)
    }

    fn second(&mut self, reader: u8, place: u8) -> Result<u32, Refusal> {
        let read = open_read(&mut self.reads, reader)?;
        let place = check_place(place, read.places.len())?;
        let wanted = read.second_due(self.rule, place)?;
        let place = &mut read.places[place];
        let picked = self.store.pick(place.item, &wanted)?;
        let first = place.kept();
        let kept = if picked.stamp > first.stamp {
            picked
        } else {
            first
        };
        place.second = Some(kept);
        Ok(kept.stamp)
    }

    /// What a place of a finished read shows.
    pub fn take(&self, reader: u8, place: u8) -> Result<Version, Refusal> {
        let read = self.read(reader)?;
        let place = check_place(place, read.places.len())?;
        if !read.is_finished(self.rule) {
            return Err(Refusal(27));
        }
        Ok(read.places[place].kept())
    }

    fn release(&mut self, reader: u8) -> Result<u32, Refusal> {
        let asks = open_read(&mut self.reads, reader)?.asks();
        self.reads[usize::from(reader)] = None;
        Ok(asks)
    }

    fn permit(&self, reader: u8, line_up: u8, quantity: u8, card: u8) -> Result<bool, Refusal> {
        let read = self.read(reader)?;
        let length = read.places.len();
        let line_up = &read.places[check_place(line_up, length)?];
        let quantity = &read.places[check_place(quantity, length)?];
        let card = &read.places[check_place(card, length)?];
        if !read.is_finished(self.rule) {
            return Err(Refusal(27));
        }
        let body = |place: &Place, kind: Kind| {
            if Kind::of(place.item) != Some(kind) {
                return Err(Refusal(28));
            }
            let version = place.kept();
            let shown = version.stamp != 0;
            Ok(if shown {
                Body::from_code(kind, version.code)
            } else {
                None
            })
        };
        let line_up = body(line_up, Kind::LineUp)?;
        let quantity = body(quantity, Kind::Quantity)?;
        let card = body(card, Kind::Card)?;
        Ok(permits(line_up, quantity, card))
    }

    fn read(&self, reader: u8) -> Result<&Read, Refusal> {
        let row = self.reads.get(usize::from(reader)).ok_or(Refusal(21))?;
        row.as_ref().ok_or(Refusal(23))
    }

    /// The writers that have an open order.
    pub fn open_writers(&self) -> impl Iterator<Item = usize> + '_ {
        (0..16).filter(|&writer| self.orders[writer].open.is_some())
    }

    /// The readers that have an open read.
    pub fn open_readers(&self) -> impl Iterator<Item = usize> + '_ {
        (0..16).filter(|&reader| self.reads[reader].is_some())
    }
}

#[cfg(test)]
mod tests {
    use super::*;
    use crate::naming::ALL_RULES;
    use crate::stores::Table;

    fn service(rule: Rule) -> Service {
        Service::new(rule, Box::new(Table::new(64)))
    }

    /// Files and prepares items 1 and 100 by writer 1.
    fn prepared(service: &mut Service, sequence: u32) {
        service
            .file(1, sequence, &[1, 100], &[655_363, 16_908_291])
            .unwrap();
        assert_eq!(service.prepare(1, 0), Ok(1));
        assert_eq!(service.prepare(1, 1), Ok(1));
    }

    #[test]
    fn an_order_goes_through() {
        let mut service = service(Rule::List);
        assert_eq!(
            service.file(1, 1, &[1, 100], &[655_363, 16_908_291]),
            Ok(17)
        );
        assert_eq!(service.file(1, 2, &[1], &[0]), Err(Refusal(11)));
        assert_eq!(service.prepare(1, 0), Ok(1));
        assert_eq!(service.prepare(1, 0), Ok(0));
        assert_eq!(service.prepare(1, 2), Err(Refusal(17)));
        assert_eq!(service.commit(1, 0), Err(Refusal(18)));
        assert_eq!(service.prepare(1, 1), Ok(1));
        assert_eq!(service.withdraw(1), Err(Refusal(20)));
        assert_eq!(service.commit(1, 0), Ok(1));
        assert_eq!(service.commit(1, 0), Ok(0));
        assert_eq!(service.close(1), Err(Refusal(19)));
        assert_eq!(service.commit(1, 1), Ok(1));
        assert_eq!(service.close(1), Ok(17));
        assert_eq!(service.close(1), Err(Refusal(16)));
        assert_eq!(service.file(1, 1, &[1], &[0]), Err(Refusal(12)));
    }

    #[test]
    fn filing_refuses_in_its_order() {
        let mut service = service(Rule::List);
        assert_eq!(service.file(16, 0, &[], &[]), Err(Refusal(10)));
        assert_eq!(service.file(15, 0, &[], &[]), Err(Refusal(12)));
        assert_eq!(service.file(15, 268_435_456, &[], &[]), Err(Refusal(12)));
        assert_eq!(service.file(15, 268_435_455, &[], &[]), Err(Refusal(13)));
        assert_eq!(service.file(15, 1, &[0; 9], &[0; 9]), Err(Refusal(13)));
        assert_eq!(service.file(15, 1, &[1], &[0, 0]), Err(Refusal(13)));
        assert_eq!(service.file(15, 1, &[1, 0], &[0; 2]), Err(Refusal(14)));
        assert_eq!(service.file(15, 1, &[100, 100], &[0; 2]), Err(Refusal(14)));
        assert_eq!(service.file(15, 1, &[100], &[0]), Err(Refusal(15)));
        assert_eq!(service.file(15, 268_435_455, &[1], &[0]), Ok(u32::MAX));
    }

    /// A read that meets an order between its commits asks again and shows
    /// the order whole.
    #[test]
    fn a_read_overtakes_an_order() {
        for rule in ALL_RULES {
            let mut service = service(rule);
            prepared(&mut service, 1);
            assert_eq!(service.open(3, &[1, 100]), Ok(2));
            assert_eq!(service.first(3, 0), Ok(0));
            assert_eq!(service.second(3, 0), Err(Refusal(25)));
            assert_eq!(service.commit(1, 1), Ok(1));
            assert_eq!(service.first(3, 1), Ok(17));
            assert_eq!(service.first(3, 1), Err(Refusal(24)));
            assert_eq!(service.take(3, 0), Err(Refusal(27)));
            assert_eq!(service.second(3, 0), Ok(17));
            assert_eq!(service.second(3, 0), Err(Refusal(26)));
            let twice = rule.always_asks_twice();
            let second = service.second(3, 1);
            assert_eq!(second, if twice { Ok(17) } else { Err(Refusal(26)) });
            assert_eq!(service.take(3, 0).unwrap().code, 655_363);
            assert_eq!(service.take(3, 1).unwrap().code, 16_908_291);
            assert_eq!(service.take(3, 2), Err(Refusal(17)));
            assert_eq!(service.release(3), Ok(if twice { 4 } else { 3 }));
        }
    }

    #[test]
    fn a_permit_refuses_in_its_order() {
        let mut service = service(Rule::List);
        assert_eq!(service.permit(16, 0, 0, 0), Err(Refusal(21)));
        assert_eq!(service.permit(3, 0, 0, 0), Err(Refusal(23)));
        service.open(3, &[1, 100, 200]).unwrap();
        assert_eq!(service.permit(3, 0, 0, 3), Err(Refusal(17)));
        assert_eq!(service.permit(3, 0, 0, 0), Err(Refusal(27)));
        for place in 0..3 {
            service.first(3, place).unwrap();
        }
        assert_eq!(service.permit(3, 0, 1, 2), Err(Refusal(28)));
        assert_eq!(service.permit(3, 1, 0, 2), Ok(false));
    }
}
