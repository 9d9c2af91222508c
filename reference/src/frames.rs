//! Requests and replies as bytes, and the serving of a frame by a store.

use crate::items::{Refusal, Version};
use crate::stores::Store;

#[derive(Clone, Copy, PartialEq, Eq, Debug)]
pub enum Request {
    Put { item: u8, version: Version },
    Commit { item: u8, stamp: u32 },
    Last { item: u8 },
    Pick { item: u8, stamps: [u32; 8] },
}

#[derive(Clone, Copy, PartialEq, Eq, Debug)]
pub enum Reply {
    Done(bool),
    Version(Version),
    Refused(Refusal),
}

const UNKNOWN_KIND: Refusal = Refusal(6);
const WRONG_LENGTH: Refusal = Refusal(7);
const SHORT_BUFFER: Refusal = Refusal(8);
const UNLISTED_REPLY: Refusal = Refusal(9);

/// The length of the longest reply, which a buffer for replies must have.
pub const REPLY_BUFFER: usize = 21;

/// The body's length of a request's kind.
pub fn request_body(kind: u8) -> Option<usize> {
    match kind {
        0x01 => Some(21),
        0x02 => Some(5),
        0x03 => Some(1),
        0x04 => Some(33),
        _ => None,
    }
}

fn reply_body(kind: u8) -> Option<usize> {
    match kind {
        0x11 | 0x13 => Some(1),
        0x12 => Some(20),
        _ => None,
    }
}

/// Divides a frame into kind and body, once both are as they should be.
fn divide(frame: &[u8], length: fn(u8) -> Option<usize>) -> Result<(u8, &[u8]), Refusal> {
    let (&kind, body) = frame.split_first().ok_or(UNKNOWN_KIND)?;
    if length(kind).ok_or(UNKNOWN_KIND)? == body.len() {
        Ok((kind, body))
    } else {
        Err(WRONG_LENGTH)
    }
}

fn four(bytes: &[u8]) -> u32 {
    u32::from_be_bytes(bytes[..4].try_into().unwrap())
}

fn eight(bytes: &[u8]) -> u64 {
    u64::from_be_bytes(bytes[..8].try_into().unwrap())
}

fn read_version(bytes: &[u8]) -> Version {
    Version {
        stamp: four(bytes),
        code: eight(&bytes[4..]),
        mark: eight(&bytes[12..]),
    }
}

fn write_version(version: Version, bytes: &mut Vec<u8>) {
    bytes.extend(version.stamp.to_be_bytes());
    bytes.extend(version.code.to_be_bytes());
    bytes.extend(version.mark.to_be_bytes());
}

impl Request {
    pub fn read(frame: &[u8]) -> Result<Request, Refusal> {
        let (kind, body) = divide(frame, request_body)?;
        let (item, rest) = (body[0], &body[1..]);
        Ok(match kind {
            0x01 => Request::Put {
                item,
                version: read_version(rest),
            },
            0x02 => Request::Commit {
                item,
                stamp: four(rest),
            },
            0x03 => Request::Last { item },
            _ => Request::Pick {
                item,
                stamps: std::array::from_fn(|n| four(&rest[4 * n..])),
            },
        })
    }

    pub fn write(&self) -> Vec<u8> {
        match *self {
            Request::Put { item, version } => {
                let mut bytes = vec![0x01, item];
                write_version(version, &mut bytes);
                bytes
            }
            Request::Commit { item, stamp } => {
                let mut bytes = vec![0x02, item];
                bytes.extend(stamp.to_be_bytes());
                bytes
            }
            Request::Last { item } => vec![0x03, item],
            Request::Pick { item, stamps } => {
                let mut bytes = vec![0x04, item];
                bytes.extend(stamps.iter().flat_map(|stamp| stamp.to_be_bytes()));
                bytes
            }
        }
    }
}

impl Reply {
    pub fn read(frame: &[u8]) -> Result<Reply, Refusal> {
        match divide(frame, reply_body)? {
            (0x11, &[answer @ 0..=1]) => Ok(Reply::Done(answer == 1)),
            (0x12, body) => Ok(Reply::Version(read_version(body))),
            (0x13, &[number @ 1..=7]) => Ok(Reply::Refused(Refusal(number))),
            _ => Err(UNLISTED_REPLY),
        }
    }

    pub fn write(&self) -> Vec<u8> {
        match *self {
            Reply::Done(answer) => vec![0x11, u8::from(answer)],
            Reply::Version(version) => {
                let mut bytes = vec![0x12];
                write_version(version, &mut bytes);
                bytes
            }
            Reply::Refused(refusal) => vec![0x13, refusal.0],
        }
    }
}

/// What a store replies to a frame, read or not.
fn answer(store: &mut dyn Store, frame: &[u8]) -> Result<Reply, Refusal> {
    Ok(match Request::read(frame)? {
        Request::Put { item, version } => Reply::Done(store.put(item, version)?),
        Request::Commit { item, stamp } => Reply::Done(store.commit(item, stamp)?),
        Request::Last { item } => Reply::Version(store.last(item)?),
        Request::Pick { item, stamps } => Reply::Version(store.pick(item, &stamps)?),
    })
}

/// Serves a frame into a reply buffer of `room` bytes: the reply's bytes.
pub fn serve(store: &mut dyn Store, frame: &[u8], room: usize) -> Result<Vec<u8>, Refusal> {
    if room < REPLY_BUFFER {
        return Err(SHORT_BUFFER);
    }
    Ok(answer(store, frame).unwrap_or_else(Reply::Refused).write())
}

#[cfg(test)]
mod tests {
    use super::*;
    use crate::stores::Table;

    #[test]
    fn worked_frames() {
        let commit = Request::Commit { item: 5, stamp: 17 };
        assert_eq!(commit.write(), [0x02, 5, 0, 0, 0, 0x11]);
        assert_eq!(Request::read(&[0x02, 5, 0, 0, 0, 0x11]), Ok(commit));
        assert_eq!(Request::read(&[3, 5, 5]), Err(Refusal(7)));
        assert_eq!(Request::read(&[]), Err(Refusal(6)));
        assert_eq!(Request::read(&[0x11, 1]), Err(Refusal(6)));
    }

    #[test]
    fn requests_read_back() {
        let version = Version {
            stamp: 17,
            code: 1 << 63,
            mark: 263,
        };
        let requests = [
            (Request::Put { item: 255, version }, 22),
            (
                Request::Commit {
                    item: 1,
                    stamp: u32::MAX,
                },
                6,
            ),
            (Request::Last { item: 0 }, 2),
            (
                Request::Pick {
                    item: 9,
                    stamps: [1, 2, 3, 4, 5, 6, 7, u32::MAX],
                },
                34,
            ),
        ];
        for (request, length) in requests {
            assert_eq!(request.write().len(), length);
            assert_eq!(Request::read(&request.write()), Ok(request));
        }
    }

    #[test]
    fn replies_are_those_listed() {
        assert_eq!(Reply::read(&[0x11, 1]), Ok(Reply::Done(true)));
        assert_eq!(Reply::read(&[0x11, 2]), Err(Refusal(9)));
        assert_eq!(Reply::read(&[0x13, 0]), Err(Refusal(9)));
        assert_eq!(Reply::read(&[0x13, 7]), Ok(Reply::Refused(Refusal(7))));
        assert_eq!(Reply::read(&[0x13, 8]), Err(Refusal(9)));
        assert_eq!(Reply::read(&[0x12, 8]), Err(Refusal(7)));
        assert_eq!(Reply::read(&[0x01]), Err(Refusal(6)));
    }

    #[test]
    fn serving_wants_a_buffer_of_21() {
        let mut table = Table::new(1);
        let commit = [0x02, 5, 0, 0, 0, 0x11];
        assert_eq!(serve(&mut table, &commit, 20), Err(Refusal(8)));
        assert_eq!(serve(&mut table, &commit, 21), Ok(vec![0x13, 5]));
        assert_eq!(serve(&mut table, &[3, 5, 5], 21), Ok(vec![0x13, 7]));
        assert_eq!(serve(&mut table, &[], 21), Ok(vec![0x13, 6]));
    }
}
