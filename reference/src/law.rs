//! The law over whole runs, watched from the calls and their answers.
//!
//! The watch keeps its own record of orders and reads and works out from it
//! what is due and finished. What a place shows is what a take answers.

use std::collections::{BTreeMap, BTreeSet};

use crate::items::Refusal;
use crate::naming::Rule;
use crate::service::{Answer, Call, Service};

struct Order {
    items: Vec<u8>,
    codes: Vec<u64>,
    prepared: BTreeSet<usize>,
    withdrawn: bool,
}

struct Read {
    items: Vec<u8>,
    firsts: Vec<Option<u32>>,
    seconds: Vec<bool>,
    asks: u32,
}

pub struct Watch {
    rule: Rule,
    /// Every order there was, by its stamp.
    orders: BTreeMap<u32, Order>,
    /// The stamp of each writer's open order.
    current: [Option<u32>; 16],
    reads: [Option<Read>; 16],
    /// The stamps of all that was ever shown.
    shown: BTreeSet<u32>,
}

type Verdict = Result<(), String>;

fn require(holds: bool, otherwise: impl FnOnce() -> String) -> Verdict {
    if holds {
        Ok(())
    } else {
        Err(otherwise())
    }
}

impl Watch {
    pub fn new(rule: Rule) -> Watch {
        Watch {
            rule,
            orders: BTreeMap::new(),
            current: [None; 16],
            reads: Default::default(),
            shown: BTreeSet::new(),
        }
    }

    /// Notes a call with its answer and checks what the service shows now.
    pub fn note(
        &mut self,
        call: &Call,
        answer: Result<Answer, Refusal>,
        service: &Service,
    ) -> Verdict {
        match answer {
            Ok(Answer::Number(number)) => self.accepted(call, number)?,
            Ok(_) => {}
            Err(_) => require(!self.is_due(call), || "a due ask was refused".to_string())?,
        }
        (0..16).try_for_each(|reader| self.check_read(reader, service))
    }

    fn accepted(&mut self, call: &Call, number: u32) -> Verdict {
        match *call {
            Call::File {
                writer,
                ref items,
                ref codes,
                ..
            } => {
                let order = Order {
                    items: items.clone(),
                    codes: codes.clone(),
                    prepared: BTreeSet::new(),
                    withdrawn: false,
                };
                self.current[usize::from(writer)] = Some(number);
                let before = self.orders.insert(number, order);
                require(before.is_none(), || {
                    format!("two orders have stamp {number}")
                })
            }
            Call::Prepare { writer, place } => {
                if let Some(order) = self.order_of(writer) {
                    order.prepared.insert(usize::from(place));
                }
                Ok(())
            }
            Call::Close { writer } => {
                self.current[usize::from(writer)] = None;
                Ok(())
            }
            Call::Withdraw { writer } => {
                if let Some(order) = self.order_of(writer) {
                    order.withdrawn = true;
                }
                self.current[usize::from(writer)] = None;
                require(!self.shown.contains(&number), || {
                    format!("the order of stamp {number} was shown and is withdrawn")
                })
            }
            Call::Open { reader, ref items } => {
                self.reads[usize::from(reader)] = Some(Read {
                    items: items.clone(),
                    firsts: vec![None; items.len()],
                    seconds: vec![false; items.len()],
                    asks: 0,
                });
                Ok(())
            }
            Call::First { reader, place } => {
                let due = self.is_due(call);
                if let Some(read) = &mut self.reads[usize::from(reader)] {
                    read.firsts[usize::from(place)] = Some(number);
                    read.asks += 1;
                }
                require(due, || {
                    "a first ask was accepted that is not due".to_string()
                })
            }
            Call::Second { reader, place } => {
                let due = self.is_due(call);
                if let Some(read) = &mut self.reads[usize::from(reader)] {
                    read.seconds[usize::from(place)] = true;
                    read.asks += 1;
                }
                require(due, || {
                    "a second ask was accepted that is not due".to_string()
                })
            }
            Call::Release { reader } => {
                let read = self.reads[usize::from(reader)].take();
                let asks = read.map_or(0, |read| read.asks);
                require(asks == number, || {
                    format!("a release answers {number} asks, but {asks} were accepted")
                })
            }
            Call::Commit { .. } | Call::Take { .. } | Call::Permit { .. } => Ok(()),
        }
    }

    fn order_of(&mut self, writer: u8) -> Option<&mut Order> {
        let stamp = self.current[usize::from(writer)]?;
        self.orders.get_mut(&stamp)
    }

    /// Whether a call is an ask that is due.
    fn is_due(&self, call: &Call) -> bool {
        let read = |reader: u8| self.reads.get(usize::from(reader)).and_then(Option::as_ref);
        match *call {
            Call::First { reader, place } => {
                read(reader).is_some_and(|read| read.firsts.get(usize::from(place)) == Some(&None))
            }
            Call::Second { reader, place } => {
                read(reader).is_some_and(|read| self.due_second(read, usize::from(place)))
            }
            _ => false,
        }
    }

    fn due_second(&self, read: &Read, place: usize) -> bool {
        let mark = |stamp: u32| {
            self.orders
                .get(&stamp)
                .map_or(0, |order| self.rule.mark(&order.items))
        };
        let pair = |first: &Option<u32>| first.map(|stamp| (stamp, mark(stamp)));
        let firsts: Option<Vec<(u32, u64)>> = read.firsts.iter().map(pair).collect();
        match firsts {
            Some(firsts) if place < firsts.len() && !read.seconds[place] => {
                let wanted = self.rule.wanted(&firsts, place, read.items[place]);
                self.rule.asks_again(&wanted)
            }
            _ => false,
        }
    }

    fn check_read(&mut self, reader: usize, service: &Service) -> Verdict {
        let Some(read) = &self.reads[reader] else {
            return Ok(());
        };
        let length = read.items.len();
        require(read.asks as usize <= 2 * length, || {
            format!("reader {reader} made {} asks for {length} items", read.asks)
        })?;
        let taken: Result<Vec<_>, _> = (0..length)
            .map(|place| service.take(reader as u8, place as u8))
            .collect();
        let due =
            read.firsts.contains(&None) || (0..length).any(|place| self.due_second(read, place));
        let Ok(versions) = taken else {
            return require(due, || {
                format!("reader {reader} is unfinished, but no ask is due")
            });
        };
        require(!due, || {
            format!("reader {reader} is shown versions, but an ask is due")
        })?;
        let shown: Vec<(u8, u32, u64)> = read
            .items
            .iter()
            .zip(versions)
            .map(|(&item, version)| (item, version.stamp, version.code))
            .collect();
        for &(item, stamp, code) in &shown {
            if stamp != 0 {
                self.check_genuine(item, stamp, code)?;
                self.check_whole(stamp, &shown)?;
            }
        }
        self.shown.extend(shown.iter().map(|&(_, stamp, _)| stamp));
        Ok(())
    }

    /// What is shown was filed so, prepared everywhere, and not withdrawn.
    fn check_genuine(&self, item: u8, stamp: u32, code: u64) -> Verdict {
        let genuine = self.orders.get(&stamp).is_some_and(|order| {
            let place = order.items.iter().position(|&listed| listed == item);
            place.is_some_and(|place| order.codes[place] == code)
                && order.prepared.len() == order.items.len()
                && !order.withdrawn
        });
        require(genuine, || {
            format!("item {item} shows stamp {stamp}, which is not genuine")
        })
    }

    /// No item of the order of this stamp shows an earlier stamp.
    fn check_whole(&self, stamp: u32, shown: &[(u8, u32, u64)]) -> Verdict {
        let order = &self.orders[&stamp];
        let torn = shown
            .iter()
            .find(|&&(item, other, _)| order.items.contains(&item) && other < stamp);
        match torn {
            None => Ok(()),
            Some((item, other, _)) => Err(format!(
                "item {item} shows stamp {other} beside its order of stamp {stamp}"
            )),
        }
    }
}

#[cfg(test)]
mod tests {
    use super::*;
    use crate::stores::Table;

    #[test]
    fn an_invented_answer_is_found() {
        let service = Service::new(Rule::List, Box::new(Table::new(1)));
        let mut watch = Watch::new(Rule::List);
        let open = Call::Open {
            reader: 0,
            items: vec![1],
        };
        assert!(watch.note(&open, Ok(Answer::Number(1)), &service).is_ok());
        let first = Call::First {
            reader: 0,
            place: 0,
        };
        assert!(watch.note(&first, Err(Refusal(24)), &service).is_err());
        assert!(watch
            .note(
                &Call::Release { reader: 0 },
                Ok(Answer::Number(1)),
                &service
            )
            .is_err());
    }

    #[test]
    fn a_torn_read_is_found() {
        let mut watch = Watch::new(Rule::List);
        let file = Call::File {
            writer: 1,
            sequence: 1,
            items: vec![1, 2],
            codes: vec![7, 8],
        };
        watch.accepted(&file, 17).unwrap();
        assert!(watch.check_genuine(1, 17, 7).is_err());
        watch
            .accepted(
                &Call::Prepare {
                    writer: 1,
                    place: 0,
                },
                1,
            )
            .unwrap();
        assert!(watch.check_genuine(1, 17, 7).is_err());
        watch
            .accepted(
                &Call::Prepare {
                    writer: 1,
                    place: 1,
                },
                1,
            )
            .unwrap();
        assert!(watch.check_genuine(1, 17, 7).is_ok());
        assert!(watch.check_genuine(1, 17, 8).is_err());
        assert!(watch
            .check_whole(17, &[(1, 17, 7), (2, 17, 8), (3, 0, 0)])
            .is_ok());
        assert!(watch.check_whole(17, &[(1, 17, 7), (2, 0, 0)]).is_err());
    }
}
