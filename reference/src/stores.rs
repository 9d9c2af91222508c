//! The stores: a table, a journal, and what stands over other stores.

use std::collections::BTreeMap;

use crate::frames::{self, Reply, Request};
use crate::items::{Refusal, Version};

const ITEM_0: Refusal = Refusal(1);
const STAMP_0: Refusal = Refusal(2);
const HELD_OTHERWISE: Refusal = Refusal(3);
const NO_SPACE: Refusal = Refusal(4);
const NOT_HELD: Refusal = Refusal(5);

pub trait Store {
    /// Holds a version; whether it is new.
    fn put(&mut self, item: u8, version: Version) -> Result<bool, Refusal>;
    /// Makes the stamp the item's last if it is later; whether it was.
    fn commit(&mut self, item: u8, stamp: u32) -> Result<bool, Refusal>;
    /// The version of the item's last stamp.
    fn last(&mut self, item: u8) -> Result<Version, Refusal>;
    /// The held version with the latest of the stamps.
    fn pick(&mut self, item: u8, stamps: &[u32; 8]) -> Result<Version, Refusal>;
}

fn wants_item(item: u8) -> Result<(), Refusal> {
    if item == 0 {
        Err(ITEM_0)
    } else {
        Ok(())
    }
}

fn wants_stamp(stamp: u32) -> Result<(), Refusal> {
    if stamp == 0 {
        Err(STAMP_0)
    } else {
        Ok(())
    }
}

/// What a table and a journal have in common: a memory of versions and last
/// stamps. The four calls follow from it.
trait Memory {
    fn held(&self, item: u8, stamp: u32) -> Option<Version>;
    fn last_stamp(&self, item: u8) -> u32;
    fn space(&self) -> usize;
    fn hold(&mut self, item: u8, version: Version);
    fn raise(&mut self, item: u8, stamp: u32);
}

impl<M: Memory> Store for M {
    fn put(&mut self, item: u8, version: Version) -> Result<bool, Refusal> {
        wants_item(item)?;
        wants_stamp(version.stamp)?;
        match self.held(item, version.stamp) {
            Some(held) if held == version => Ok(false),
            Some(_) => Err(HELD_OTHERWISE),
            None if self.space() == 0 => Err(NO_SPACE),
            None => {
                self.hold(item, version);
                Ok(true)
            }
        }
    }

    fn commit(&mut self, item: u8, stamp: u32) -> Result<bool, Refusal> {
        wants_item(item)?;
        wants_stamp(stamp)?;
        self.held(item, stamp).ok_or(NOT_HELD)?;
        let rises = stamp > self.last_stamp(item);
        if rises {
            self.raise(item, stamp);
        }
        Ok(rises)
    }

    fn last(&mut self, item: u8) -> Result<Version, Refusal> {
        wants_item(item)?;
        let stamp = self.last_stamp(item);
        Ok(self.held(item, stamp).unwrap_or(Version::BLANK))
    }

    fn pick(&mut self, item: u8, stamps: &[u32; 8]) -> Result<Version, Refusal> {
        wants_item(item)?;
        let held = stamps.iter().filter_map(|&stamp| self.held(item, stamp));
        Ok(held
            .max_by_key(|version| version.stamp)
            .unwrap_or(Version::BLANK))
    }
}

/// Rows in memory.
pub struct Table {
    rows: usize,
    versions: BTreeMap<(u8, u32), Version>,
    lasts: BTreeMap<u8, u32>,
}

impl Table {
    pub fn new(rows: usize) -> Table {
        Table {
            rows,
            versions: BTreeMap::new(),
            lasts: BTreeMap::new(),
        }
    }
}

impl Memory for Table {
    fn held(&self, item: u8, stamp: u32) -> Option<Version> {
        self.versions.get(&(item, stamp)).copied()
    }

    fn last_stamp(&self, item: u8) -> u32 {
        self.lasts.get(&item).copied().unwrap_or(0)
    }

    fn space(&self) -> usize {
        self.rows - self.versions.len()
    }

    fn hold(&mut self, item: u8, version: Version) {
        self.versions.insert((item, version.stamp), version);
    }

    fn raise(&mut self, item: u8, stamp: u32) {
        self.lasts.insert(item, stamp);
    }
}

/// Records one after another in bytes. A record has the form of the put frame
/// or the commit frame that it answers; a kind byte 0 is the end.
pub struct Journal {
    bytes: Vec<u8>,
}

impl Journal {
    pub fn new(length: usize) -> Journal {
        Journal {
            bytes: vec![0; length],
        }
    }

    fn records(&self) -> Records<'_> {
        Records {
            bytes: &self.bytes,
            end: 0,
        }
    }

    fn append(&mut self, record: Request) {
        let mut records = self.records();
        records.by_ref().for_each(drop);
        let start = records.end;
        let record = record.write();
        self.bytes[start..start + record.len()].copy_from_slice(&record);
    }
}

/// The records of a journal; `end` is where the next one begins.
struct Records<'a> {
    bytes: &'a [u8],
    end: usize,
}

impl Iterator for Records<'_> {
    type Item = Request;

    fn next(&mut self) -> Option<Request> {
        let rest = &self.bytes[self.end..];
        let length = 1 + frames::request_body(*rest.first()?)?;
        self.end += length;
        Request::read(&rest[..length]).ok()
    }
}

impl Memory for Journal {
    fn held(&self, item: u8, stamp: u32) -> Option<Version> {
        self.records().find_map(|record| match record {
            Request::Put { item: of, version } if (of, version.stamp) == (item, stamp) => {
                Some(version)
            }
            _ => None,
        })
    }

    fn last_stamp(&self, item: u8) -> u32 {
        let rises = self.records().filter_map(|record| match record {
            Request::Commit { item: of, stamp } if of == item => Some(stamp),
            _ => None,
        });
        rises.last().unwrap_or(0)
    }

    fn space(&self) -> usize {
        let is_version = |record: &Request| matches!(record, Request::Put { .. });
        self.bytes.len() / 28 - self.records().filter(is_version).count()
    }

    fn hold(&mut self, item: u8, version: Version) {
        self.append(Request::Put { item, version });
    }

    fn raise(&mut self, item: u8, stamp: u32) {
        self.append(Request::Commit { item, stamp });
    }
}

/// Two stores: items below the bound live in the first.
pub struct Partition {
    pub bound: u8,
    pub first: Box<dyn Store>,
    pub second: Box<dyn Store>,
}

impl Partition {
    fn part(&mut self, item: u8) -> &mut dyn Store {
        if item < self.bound {
            self.first.as_mut()
        } else {
            self.second.as_mut()
        }
    }
}

impl Store for Partition {
    fn put(&mut self, item: u8, version: Version) -> Result<bool, Refusal> {
        self.part(item).put(item, version)
    }

    fn commit(&mut self, item: u8, stamp: u32) -> Result<bool, Refusal> {
        self.part(item).commit(item, stamp)
    }

    fn last(&mut self, item: u8) -> Result<Version, Refusal> {
        self.part(item).last(item)
    }

    fn pick(&mut self, item: u8, stamps: &[u32; 8]) -> Result<Version, Refusal> {
        self.part(item).pick(item, stamps)
    }
}

/// A store that takes no more than so many new versions of one item.
pub struct Quota {
    limit: usize,
    used: [usize; 256],
    below: Box<dyn Store>,
}

impl Quota {
    pub fn new(limit: usize, below: Box<dyn Store>) -> Quota {
        Quota {
            limit,
            used: [0; 256],
            below,
        }
    }
}

impl Store for Quota {
    fn put(&mut self, item: u8, version: Version) -> Result<bool, Refusal> {
        wants_item(item)?;
        wants_stamp(version.stamp)?;
        let used = &mut self.used[usize::from(item)];
        if *used == self.limit {
            let held = self
                .below
                .pick(item, &[version.stamp, 0, 0, 0, 0, 0, 0, 0])?;
            if held.stamp != version.stamp {
                return Err(NO_SPACE);
            }
        }
        let new = self.below.put(item, version)?;
        *used += usize::from(new);
        Ok(new)
    }

    fn commit(&mut self, item: u8, stamp: u32) -> Result<bool, Refusal> {
        self.below.commit(item, stamp)
    }

    fn last(&mut self, item: u8) -> Result<Version, Refusal> {
        self.below.last(item)
    }

    fn pick(&mut self, item: u8, stamps: &[u32; 8]) -> Result<Version, Refusal> {
        self.below.pick(item, stamps)
    }
}

/// A store that is reached through frames.
pub struct Link {
    pub below: Box<dyn Store>,
}

impl Link {
    fn ask(&mut self, request: Request) -> Result<Reply, Refusal> {
        let reply = frames::serve(self.below.as_mut(), &request.write(), frames::REPLY_BUFFER)?;
        match Reply::read(&reply)? {
            Reply::Refused(refusal) => Err(refusal),
            reply => Ok(reply),
        }
    }

    fn done(&mut self, request: Request) -> Result<bool, Refusal> {
        match self.ask(request)? {
            Reply::Done(answer) => Ok(answer),
            reply => unreachable!("the reply {reply:?} to a put or a commit"),
        }
    }

    fn version(&mut self, request: Request) -> Result<Version, Refusal> {
        match self.ask(request)? {
            Reply::Version(version) => Ok(version),
            reply => unreachable!("the reply {reply:?} to a question"),
        }
    }
}

impl Store for Link {
    fn put(&mut self, item: u8, version: Version) -> Result<bool, Refusal> {
        self.done(Request::Put { item, version })
    }

    fn commit(&mut self, item: u8, stamp: u32) -> Result<bool, Refusal> {
        self.done(Request::Commit { item, stamp })
    }

    fn last(&mut self, item: u8) -> Result<Version, Refusal> {
        self.version(Request::Last { item })
    }

    fn pick(&mut self, item: u8, stamps: &[u32; 8]) -> Result<Version, Refusal> {
        self.version(Request::Pick {
            item,
            stamps: *stamps,
        })
    }
}

#[cfg(test)]
mod tests {
    use super::*;

    fn version(stamp: u32) -> Version {
        Version {
            stamp,
            code: 655_363,
            mark: 263,
        }
    }

    /// How many versions of one item a store takes, with a rise for each.
    fn capacity(store: &mut dyn Store, item: u8) -> u32 {
        for stamp in 1.. {
            if store.put(item, version(stamp)) == Err(NO_SPACE) {
                return stamp - 1;
            }
            assert_eq!(store.commit(item, stamp), Ok(true));
        }
        unreachable!()
    }

    fn pile(limit: usize, rows: usize, bytes: usize) -> Quota {
        let second = Box::new(Link {
            below: Box::new(Journal::new(bytes)),
        });
        let first = Box::new(Table::new(rows));
        Quota::new(
            limit,
            Box::new(Partition {
                bound: 100,
                first,
                second,
            }),
        )
    }

    #[test]
    fn space_is_as_stated() {
        for rows in 0..4 {
            assert_eq!(capacity(&mut Table::new(rows), 7), rows as u32);
        }
        for (bytes, space) in [
            (0, 0),
            (27, 0),
            (28, 1),
            (55, 1),
            (56, 2),
            (84, 3),
            (1792, 64),
        ] {
            assert_eq!(capacity(&mut Journal::new(bytes), 7), space);
        }
        assert_eq!(capacity(&mut pile(8, 64, 1792), 7), 8);
        assert_eq!(capacity(&mut pile(8, 3, 1792), 99), 3);
        assert_eq!(capacity(&mut pile(8, 64, 56), 100), 2);
        assert_eq!(capacity(&mut pile(0, 64, 1792), 7), 0);
    }

    #[test]
    fn calls_refuse_in_their_order() {
        let stores: [&mut dyn Store; 3] = [
            &mut Table::new(1),
            &mut Journal::new(28),
            &mut pile(1, 1, 28),
        ];
        for store in stores {
            assert_eq!(store.put(0, version(0)), Err(Refusal(1)));
            assert_eq!(store.put(5, version(0)), Err(Refusal(2)));
            assert_eq!(store.put(5, version(17)), Ok(true));
            assert_eq!(store.put(5, version(17)), Ok(false));
            assert_eq!(
                store.put(
                    5,
                    Version {
                        mark: 1,
                        ..version(17)
                    }
                ),
                Err(Refusal(3))
            );
            assert_eq!(store.put(5, version(18)), Err(Refusal(4)));
            assert_eq!(store.commit(0, 0), Err(Refusal(1)));
            assert_eq!(store.commit(5, 0), Err(Refusal(2)));
            assert_eq!(store.commit(5, 18), Err(Refusal(5)));
            assert_eq!(store.last(5), Ok(Version::BLANK));
            assert_eq!(store.commit(5, 17), Ok(true));
            assert_eq!(store.commit(5, 17), Ok(false));
            assert_eq!(store.last(5), Ok(version(17)));
            assert_eq!(store.last(0), Err(Refusal(1)));
            assert_eq!(store.pick(0, &[17; 8]), Err(Refusal(1)));
            assert_eq!(store.pick(5, &[0, 18, 17, 1, 0, 0, 0, 0]), Ok(version(17)));
            assert_eq!(store.pick(6, &[17; 8]), Ok(Version::BLANK));
        }
    }

    #[test]
    fn a_pick_answers_the_latest_held() {
        let mut table = Table::new(3);
        for stamp in [16, 18, 17] {
            table.put(5, version(stamp)).unwrap();
        }
        assert_eq!(
            table.pick(5, &[17, 99, 18, 16, 0, 0, 0, 0]),
            Ok(version(18))
        );
        assert_eq!(
            table.pick(5, &[17, 99, 16, 16, 0, 0, 0, 0]),
            Ok(version(17))
        );
    }

    #[test]
    fn journal_records_are_22_and_6_bytes() {
        let mut journal = Journal::new(56);
        journal.put(5, version(17)).unwrap();
        journal.commit(5, 17).unwrap();
        journal.commit(5, 17).unwrap();
        assert_eq!(journal.bytes[22..29], [0x02, 5, 0, 0, 0, 0x11, 0]);
    }
}
