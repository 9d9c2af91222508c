//! Station inputs: frames as text, served by one store.

use std::fmt::Write;

use crate::frames::{serve, Reply, Request, REPLY_BUFFER};
use crate::items::{Refusal, Version};
use crate::layout::Layout;
use crate::text::{is_blank, lines, number};

const NO_DIGIT: &str = "a character is no hexadecimal digit";
const ONE_DIGIT: &str = "a byte has one digit";
const NO_SIZE: &str = "a buffer has a size from 0 to 255";

fn reason(refusal: Refusal) -> &'static str {
    match refusal.0 {
        1 => "no item has number 0",
        2 => "no version has stamp 0",
        3 => "another version is held with the stamp",
        4 => "there is no space for another version",
        5 => "no version is held with the stamp",
        6 => "the frame is of no known kind",
        7 => "the frame has not the length of its kind",
        8 => "the buffer is too short",
        9 => "the reply is none of those listed",
        other => unreachable!("refusal {other} at a station"),
    }
}

/// What a line asks for.
enum Line {
    Read(Vec<u8>),
    Serve { frame: Vec<u8>, room: usize },
}

fn read_line(line: &str) -> Result<Line, &'static str> {
    let line = line.trim_start_matches(is_blank);
    if let Some(bytes) = line.strip_prefix("reply ") {
        return Ok(Line::Read(read_bytes(bytes)?));
    }
    if let Some(rest) = line.strip_prefix("buffer ") {
        let (size, bytes) = rest.split_once(' ').ok_or(NO_SIZE)?;
        let room = number(size).filter(|&size| size <= 255).ok_or(NO_SIZE)? as usize;
        return Ok(Line::Serve {
            frame: read_bytes(bytes)?,
            room,
        });
    }
    Ok(Line::Serve {
        frame: read_bytes(line)?,
        room: REPLY_BUFFER,
    })
}

/// Two digits a byte, from left to right.
fn read_bytes(text: &str) -> Result<Vec<u8>, &'static str> {
    let mut bytes = Vec::new();
    let mut characters = text.chars();
    while let Some(character) = characters.next() {
        if is_blank(character) {
            continue;
        }
        let high = character.to_digit(16).ok_or(NO_DIGIT)?;
        let second = characters
            .next()
            .filter(|&second| !is_blank(second))
            .ok_or(ONE_DIGIT)?;
        let low = second.to_digit(16).ok_or(NO_DIGIT)?;
        bytes.push((16 * high + low) as u8);
    }
    Ok(bytes)
}

/// The bytes with a blank before each.
fn show(bytes: &[u8]) -> String {
    bytes.iter().map(|byte| format!(" {byte:02x}")).collect()
}

fn version_meaning(version: Version) -> String {
    format!(
        "stamp {} code {} mark {}",
        version.stamp, version.code, version.mark
    )
}

fn unread(refusal: Refusal) -> String {
    format!("unread {}: {}", refusal.0, reason(refusal))
}

fn request_meaning(frame: &[u8]) -> String {
    match Request::read(frame) {
        Ok(Request::Put { item, version }) => {
            format!("put item {item} {}", version_meaning(version))
        }
        Ok(Request::Commit { item, stamp }) => format!("commit item {item} stamp {stamp}"),
        Ok(Request::Last { item }) => format!("last item {item}"),
        Ok(Request::Pick { item, stamps }) => {
            let stamps = stamps.map(|stamp| stamp.to_string()).join(" ");
            format!("pick item {item} of {stamps}")
        }
        Err(refusal) => unread(refusal),
    }
}

fn reply_meaning(reply: &[u8]) -> String {
    match Reply::read(reply) {
        Ok(Reply::Done(answer)) => format!("done {}", u8::from(answer)),
        Ok(Reply::Version(version)) => format!("version {}", version_meaning(version)),
        Ok(Reply::Refused(refusal)) => format!("refused {}: {}", refusal.0, reason(refusal)),
        Err(refusal) => unread(refusal),
    }
}

/// Serves the frames of an input; what is printed.
pub fn play(name: &str, text: &str, layout: &Layout) -> String {
    let mut store = layout.build();
    let mut out = format!("station {}: {name}\n", layout.word);
    let (mut served, mut refused, mut without) = (0, 0, 0);
    for (number, line) in lines(text) {
        match read_line(line) {
            Err(reason) => {
                without += 1;
                writeln!(out, "line {number}: no frame: {reason}").unwrap();
            }
            Ok(Line::Read(reply)) => {
                writeln!(out, "read{}: {}", show(&reply), reply_meaning(&reply)).unwrap();
            }
            Ok(Line::Serve { frame, room }) => {
                writeln!(out, "frame{}: {}", show(&frame), request_meaning(&frame)).unwrap();
                match serve(store.as_mut(), &frame, room) {
                    Ok(reply) => {
                        writeln!(out, "reply{}: {}", show(&reply), reply_meaning(&reply)).unwrap();
                        match Reply::read(&reply) {
                            Ok(Reply::Refused(_)) => refused += 1,
                            _ => served += 1,
                        }
                    }
                    Err(refusal) => {
                        refused += 1;
                        let reason = reason(refusal);
                        writeln!(out, "no reply: refused {}: {reason}", refusal.0).unwrap();
                    }
                }
            }
        }
    }
    for item in 1..=255 {
        if let Ok(version) = store.last(item) {
            if version.stamp != 0 {
                writeln!(out, "item {item} last {}", version_meaning(version)).unwrap();
            }
        }
    }
    writeln!(
        out,
        "{served} frames served, {refused} refused, {without} lines without a frame"
    )
    .unwrap();
    out
}

#[cfg(test)]
mod tests {
    use super::*;

    #[test]
    fn bytes_are_read_from_left_to_right() {
        assert_eq!(read_bytes("0aB1 \t2 2"), Err(ONE_DIGIT));
        assert_eq!(read_bytes(" 0aB1\t22\r"), Ok(vec![0x0a, 0xb1, 0x22]));
        assert_eq!(read_bytes("0g"), Err(NO_DIGIT));
        assert_eq!(read_bytes("0 g"), Err(ONE_DIGIT));
        assert_eq!(read_bytes("000"), Err(ONE_DIGIT));
        assert_eq!(read_bytes("+1"), Err(NO_DIGIT));
    }

    #[test]
    fn a_station_input() {
        let text = "# a comment\n\n02 05 00 00 00 11\n\
            01 05 00000011 000000000009ffff 0000000000000107\n\
            0205 00000011\n03 05\n03 05 05\n03 5\n03 0x\n\
            buffer 20 0305\nbuffer 256 0305\nbuffer 21 \nreply 11 01\nreply 13 08\nreply \n\
            04 05 00000000 00000011 00000012 00000000 00000000 00000000 00000000 00000000\n\
            01 06 00000011 0000000000000000 0000000000000000\n";
        let expected = "station table:1: a\n\
            frame 02 05 00 00 00 11: commit item 5 stamp 17\n\
            reply 13 05: refused 5: no version is held with the stamp\n\
            frame 01 05 00 00 00 11 00 00 00 00 00 09 ff ff 00 00 00 00 00 00 01 07: put item 5 stamp 17 code 655359 mark 263\n\
            reply 11 01: done 1\n\
            frame 02 05 00 00 00 11: commit item 5 stamp 17\n\
            reply 11 01: done 1\n\
            frame 03 05: last item 5\n\
            reply 12 00 00 00 11 00 00 00 00 00 09 ff ff 00 00 00 00 00 00 01 07: version stamp 17 code 655359 mark 263\n\
            frame 03 05 05: unread 7: the frame has not the length of its kind\n\
            reply 13 07: refused 7: the frame has not the length of its kind\n\
            line 8: no frame: a byte has one digit\n\
            line 9: no frame: a character is no hexadecimal digit\n\
            frame 03 05: last item 5\n\
            no reply: refused 8: the buffer is too short\n\
            line 11: no frame: a buffer has a size from 0 to 255\n\
            frame: unread 6: the frame is of no known kind\n\
            reply 13 06: refused 6: the frame is of no known kind\n\
            read 11 01: done 1\n\
            read 13 08: unread 9: the reply is none of those listed\n\
            read: unread 6: the frame is of no known kind\n\
            frame 04 05 00 00 00 00 00 00 00 11 00 00 00 12 00 00 00 00 00 00 00 00 00 00 00 00 00 00 00 00 00 00 00 00: pick item 5 of 0 17 18 0 0 0 0 0\n\
            reply 12 00 00 00 11 00 00 00 00 00 09 ff ff 00 00 00 00 00 00 01 07: version stamp 17 code 655359 mark 263\n\
            frame 01 06 00 00 00 11 00 00 00 00 00 00 00 00 00 00 00 00 00 00 00 00: put item 6 stamp 17 code 0 mark 0\n\
            reply 13 04: refused 4: there is no space for another version\n\
            item 5 last stamp 17 code 655359 mark 263\n\
            4 frames served, 5 refused, 3 lines without a frame\n";
        assert_eq!(play("a", text, &Layout::read("table:1").unwrap()), expected);
    }
}
