//! Scripts of calls: their reading, their playing, and what is printed.

use std::collections::BTreeMap;
use std::fmt::Write;

use crate::items::{permits, Body, Kind, Refusal};
use crate::law::Watch;
use crate::layout::Layout;
use crate::naming::Rule;
use crate::service::{Answer, Call, Service};
use crate::text::{lines, number, words};

const NO_NAME: &str = "no call: it begins with the name of no call";
const OTHER_NUMBERS: &str = "no call: the call wants other numbers";
const TOO_LARGE: &str = "no call: a number is too large for its field";
const NO_ITEM: &str = "refused 14: a line begins with an item from 1 to 255";
const OTHER_FIELDS: &str = "refused 15: the fields are not those of the item's kind";
const NO_BODY: &str = "refused 15: the values make no body of the item's kind";

fn reason(refusal: Refusal) -> &'static str {
    match refusal.0 {
        1 => "the item is 0",
        2 => "the stamp is 0",
        3 => "this item and stamp are held with another code or mark",
        4 => "no space is left for the item",
        5 => "this item and stamp are not held",
        10 => "a writer is a number from 0 to 15",
        11 => "the writer has an open order",
        12 => "the sequence is out of range or not above the writer's last",
        13 => "the list is empty, longer than eight, or not as long as the codes",
        14 => "an item is 0 or stands twice",
        15 => "a code is of no body of its item's kind",
        16 => "the writer has no open order",
        17 => "the place is beyond the list",
        18 => "the order is gathering: prepare every place first",
        19 => "the order is not complete: commit every place first",
        20 => "the order is sealed: commit the rest and close",
        21 => "a reader is a number from 0 to 15",
        22 => "the reader has an open read",
        23 => "the reader has no open read",
        24 => "the first ask was made already",
        25 => "a first ask is missing",
        26 => "no second ask is due here",
        27 => "the read is not finished",
        28 => "the body's kind is not the item's",
        other => unreachable!("refusal {other} in a script"),
    }
}

/// A call with the number of its line.
struct Line {
    number: usize,
    call: Call,
}

/// The number in a word that its field can hold.
fn field<T: TryFrom<u64>>(word: &str) -> Result<T, &'static str> {
    let number = number(word).ok_or(OTHER_NUMBERS)?;
    T::try_from(number).map_err(|_| TOO_LARGE)
}

/// As many fields as are wanted, of numbers up to 255.
fn fields<const N: usize>(words: &[&str]) -> Result<[u8; N], &'static str> {
    if words.len() != N {
        return Err(OTHER_NUMBERS);
    }
    let mut fields = [0; N];
    for (place, word) in fields.iter_mut().zip(words) {
        *place = field(word)?;
    }
    Ok(fields)
}

fn read_call(words: &[&str]) -> Result<Call, &'static str> {
    let (&name, rest) = words.split_first().ok_or(NO_NAME)?;
    Ok(match name {
        "file" => read_file(rest)?,
        "prepare" => {
            let [writer, place] = fields(rest)?;
            Call::Prepare { writer, place }
        }
        "commit" => {
            let [writer, place] = fields(rest)?;
            Call::Commit { writer, place }
        }
        "close" => {
            let [writer] = fields(rest)?;
            Call::Close { writer }
        }
        "withdraw" => {
            let [writer] = fields(rest)?;
            Call::Withdraw { writer }
        }
        "open" => {
            let (reader, items) = rest.split_first().ok_or(OTHER_NUMBERS)?;
            let reader = field(reader)?;
            let items = items
                .iter()
                .map(|word| field(word))
                .collect::<Result<_, _>>()?;
            Call::Open { reader, items }
        }
        "first" => {
            let [reader, place] = fields(rest)?;
            Call::First { reader, place }
        }
        "second" => {
            let [reader, place] = fields(rest)?;
            Call::Second { reader, place }
        }
        "take" => {
            let [reader, place] = fields(rest)?;
            Call::Take { reader, place }
        }
        "release" => {
            let [reader] = fields(rest)?;
            Call::Release { reader }
        }
        "permit" => {
            let [reader, line_up, quantity, card] = fields(rest)?;
            Call::Permit {
                reader,
                line_up,
                quantity,
                card,
            }
        }
        _ => return Err(NO_NAME),
    })
}

fn read_file(words: &[&str]) -> Result<Call, &'static str> {
    let [writer, sequence, entries @ ..] = words else {
        return Err(OTHER_NUMBERS);
    };
    let writer = field(writer)?;
    let sequence = field(sequence)?;
    let (mut items, mut codes) = (Vec::new(), Vec::new());
    let mut rest = entries;
    while !rest.is_empty() {
        let (item, body, after) = read_entry(rest)?;
        items.push(item);
        codes.push(body.code());
        rest = after;
    }
    Ok(Call::File {
        writer,
        sequence,
        items,
        codes,
    })
}

/// The item and body at the beginning of the words, and the words after them.
fn read_entry<'a, 'b>(words: &'a [&'b str]) -> Result<(u8, Body, &'a [&'b str]), &'static str> {
    let item = number(words[0])
        .and_then(|number| u8::try_from(number).ok())
        .ok_or(NO_ITEM)?;
    let kind = Kind::of(item).ok_or(NO_ITEM)?;
    let length = 2 * kind.words().len();
    let entry = words.get(1..1 + length).ok_or(OTHER_FIELDS)?;
    let mut numbers = Vec::new();
    for (pair, &name) in entry.chunks(2).zip(kind.words()) {
        if pair[0] != name {
            return Err(OTHER_FIELDS);
        }
        numbers.push(number(pair[1]).ok_or(OTHER_FIELDS)?);
    }
    let body = Body::from_numbers(kind, &numbers).ok_or(NO_BODY)?;
    Ok((item, body, &words[1 + length..]))
}

fn describe(call: &Call) -> String {
    match *call {
        Call::File {
            writer,
            sequence,
            ref items,
            ..
        } => {
            format!("file {writer} {sequence} of {} items", items.len())
        }
        Call::Prepare { writer, place } => format!("prepare {writer} {place}"),
        Call::Commit { writer, place } => format!("commit {writer} {place}"),
        Call::Close { writer } => format!("close {writer}"),
        Call::Withdraw { writer } => format!("withdraw {writer}"),
        Call::Open { reader, ref items } => {
            let items: String = items.iter().map(|item| format!(" {item}")).collect();
            format!("open {reader}{items}")
        }
        Call::First { reader, place } => format!("first {reader} {place}"),
        Call::Second { reader, place } => format!("second {reader} {place}"),
        Call::Take { reader, place } => format!("take {reader} {place}"),
        Call::Release { reader } => format!("release {reader}"),
        Call::Permit {
            reader,
            line_up,
            quantity,
            card,
        } => {
            format!("permit {reader} {line_up} {quantity} {card}")
        }
    }
}

fn describe_answer(answer: Result<Answer, Refusal>) -> String {
    match answer {
        Ok(Answer::Number(number)) => format!("answer {number}"),
        Ok(Answer::Shown { stamp, code }) => format!("shows stamp {stamp} code {code}"),
        Ok(Answer::Permit(yes)) => format!("answer {}", yes_or_no(yes)),
        Err(refusal) => format!("refused {}: {}", refusal.0, reason(refusal)),
    }
}

fn yes_or_no(yes: bool) -> &'static str {
    if yes {
        "yes"
    } else {
        "no"
    }
}

fn kind_name(item: u8) -> &'static str {
    Kind::of(item).map_or("", Kind::name)
}

/// Plays a script under each rule; what is printed, or how the law was broken.
pub fn play(name: &str, text: &str, layout: &Layout, rules: &[Rule]) -> Result<String, String> {
    let mut out = format!("script: {name}\n");
    let mut script = Vec::new();
    for (number, line) in lines(text) {
        match read_call(&words(line)) {
            Ok(call) => script.push(Line { number, call }),
            Err(reason) => writeln!(out, "line {number}: {reason}").unwrap(),
        }
    }
    for &rule in rules {
        play_rule(&script, layout, rule, &mut out).map_err(|broken| {
            format!(
                "{name}, layout {}, rule {}, {broken}",
                layout.word,
                rule.name()
            )
        })?;
    }
    Ok(out)
}

fn play_rule(script: &[Line], layout: &Layout, rule: Rule, out: &mut String) -> Result<(), String> {
    let mut service = Service::new(rule, layout.build());
    let mut watch = Watch::new(rule);
    let mut accepted = Vec::new();
    writeln!(out, "layout {}, rule {}", layout.word, rule.name()).unwrap();
    for Line { number, call } in script {
        let answer = service.call(call);
        writeln!(
            out,
            "line {number}: {}: {}",
            describe(call),
            describe_answer(answer)
        )
        .unwrap();
        watch
            .note(call, answer, &service)
            .map_err(|broken| format!("line {number}: {broken}"))?;
        if let Ok(answer) = answer {
            accepted.push((call, answer));
        }
    }
    report(&accepted, out);
    for writer in service.open_writers() {
        writeln!(out, "still open: order of writer {writer}").unwrap();
    }
    for reader in service.open_readers() {
        writeln!(out, "still open: read of reader {reader}").unwrap();
    }
    Ok(())
}

/// A read as the report follows it: its items and their first stamps.
struct Asked {
    items: Vec<u8>,
    firsts: Vec<u32>,
}

/// The first ask before, while no opening came since.
struct Before {
    reader: u8,
    item: u8,
    stamp: u32,
}

/// Follows the accepted calls and gathers what is printed after them.
#[derive(Default)]
struct Report {
    /// Bodies as filed, by stamp and item.
    bodies: BTreeMap<(u32, u8), Body>,
    reads: BTreeMap<u8, Asked>,
    before: Option<Before>,
    as_asked: String,
    as_taken: String,
    releases: String,
}

fn report(accepted: &[(&Call, Answer)], out: &mut String) {
    let mut report = Report::default();
    for (call, answer) in accepted {
        report.follow(call, *answer);
    }
    out.push_str("item by item, as first asked:\n");
    out.push_str(&report.as_asked);
    out.push_str("together, as taken:\n");
    out.push_str(&report.as_taken);
    out.push_str(&report.releases);
}

impl Report {
    fn follow(&mut self, call: &Call, answer: Answer) {
        match (call, answer) {
            (Call::File { items, codes, .. }, Answer::Number(stamp)) => {
                for (&item, &code) in items.iter().zip(codes) {
                    let body = Kind::of(item).and_then(|kind| Body::from_code(kind, code));
                    self.bodies.extend(body.map(|body| ((stamp, item), body)));
                }
            }
            (Call::Open { reader, items }, _) => {
                let read = Asked {
                    items: items.clone(),
                    firsts: vec![0; items.len()],
                };
                self.reads.insert(*reader, read);
                self.before = None;
            }
            (&Call::First { reader, place }, Answer::Number(stamp)) => {
                self.first_asked(reader, usize::from(place), stamp);
            }
            (&Call::Take { reader, place }, Answer::Shown { stamp, .. }) => {
                let item = self.reads[&reader].items[usize::from(place)];
                self.as_taken += &self.shown(item, stamp);
            }
            (
                &Call::Permit {
                    reader,
                    line_up,
                    quantity,
                    card,
                },
                Answer::Permit(yes),
            ) => {
                let as_asked = permits(
                    self.first_body(reader, line_up),
                    self.first_body(reader, quantity),
                    self.first_body(reader, card),
                );
                let line = |yes| format!("  permit of reader {reader}: {}\n", yes_or_no(yes));
                self.as_asked += &line(as_asked);
                self.as_taken += &line(yes);
            }
            (Call::Release { reader }, Answer::Number(asks)) => {
                self.releases += &format!("reader {reader} made {asks} asks\n");
            }
            _ => {}
        }
    }

    fn first_asked(&mut self, reader: u8, place: usize, stamp: u32) {
        let read = self.reads.get_mut(&reader).expect("a read that is open");
        let item = read.items[place];
        read.firsts[place] = stamp;
        self.as_asked += &self.shown(item, stamp);
        let before = self.before.replace(Before {
            reader,
            item,
            stamp,
        });
        if let Some(before) = before.filter(|before| before.reader == reader) {
            self.as_asked += &beside((before.stamp, before.item), (stamp, item));
        }
    }

    fn shown(&self, item: u8, stamp: u32) -> String {
        match self.bodies.get(&(stamp, item)) {
            Some(body) => format!("  item {item} of stamp {stamp}: {body}\n"),
            None => format!("  item {item}: nothing\n"),
        }
    }

    fn first_body(&self, reader: u8, place: u8) -> Option<Body> {
        let read = &self.reads[&reader];
        let place = usize::from(place);
        self.bodies
            .get(&(read.firsts[place], read.items[place]))
            .copied()
    }
}

/// The line for two first asks, by stamp and item, with different stamps.
fn beside(one: (u32, u8), other: (u32, u8)) -> String {
    if one.0 == other.0 {
        return String::new();
    }
    let (later, earlier) = if one.0 > other.0 {
        (one, other)
    } else {
        (other, one)
    };
    let age = if earlier.0 == 0 { "no" } else { "the old" };
    format!(
        "  the new {} of item {} beside {age} {} of item {}\n",
        kind_name(later.1),
        later.1,
        kind_name(earlier.1),
        earlier.1
    )
}

#[cfg(test)]
mod tests {
    use super::*;
    use crate::naming::ALL_RULES;

    fn played(text: &str, layout: &str, rules: &[Rule]) -> String {
        play("a", text, &Layout::read(layout).unwrap(), rules).unwrap()
    }

    #[test]
    fn lines_that_are_no_calls() {
        let judged = |line: &str| read_call(&words(line)).unwrap_err();
        assert_eq!(judged("File 1 1"), NO_NAME);
        assert_eq!(judged("file 1"), OTHER_NUMBERS);
        assert_eq!(judged("open"), OTHER_NUMBERS);
        assert_eq!(judged("close 1 2"), OTHER_NUMBERS);
        assert_eq!(judged("prepare 256 x"), TOO_LARGE);
        assert_eq!(judged("prepare x 256"), OTHER_NUMBERS);
        assert_eq!(judged("close 18446744073709551616"), OTHER_NUMBERS);
        assert_eq!(judged("file 1 4294967296 x"), TOO_LARGE);
        assert_eq!(judged("open 1 2 256 x"), TOO_LARGE);
        assert_eq!(judged("file 1 1 0 volume 1 rate 1"), NO_ITEM);
        assert_eq!(judged("file 1 1 5 volume 1 rate"), OTHER_FIELDS);
        assert_eq!(judged("file 1 1 5 rate 1 volume 1"), OTHER_FIELDS);
        assert_eq!(judged("file 1 1 5 volume 100000000 rate x"), OTHER_FIELDS);
        assert_eq!(judged("file 1 1 5 volume 100000000 rate 1"), NO_BODY);
        assert_eq!(
            judged("file 1 1 5 volume 1 rate 1 200 tank 1"),
            OTHER_FIELDS
        );
    }

    #[test]
    fn numbers_that_fit_reach_the_service() {
        let text = "file 255 0\nopen 16\nopen 0\n";
        let expected = "script: a\n\
            layout table, rule list\n\
            line 1: file 255 0 of 0 items: refused 10: a writer is a number from 0 to 15\n\
            line 2: open 16 of 0 items: refused 21: a reader is a number from 0 to 15\n\
            line 3: open 0 of 0 items: refused 13: the list is empty, longer than eight, or not as long as the codes\n\
            item by item, as first asked:\n\
            together, as taken:\n";
        assert_eq!(played(text, "table", &[Rule::List]), expected);
    }

    #[test]
    fn a_read_that_overtakes_an_order() {
        let text = "file 1 1 5 volume 10 rate 3 100 from 1 to 2 valves 3 200 tank 2 limit 9\n\
            prepare 1 0\nprepare 1 1\nprepare 1 2\ncommit 1 0\n\
            open 3 5 100 200\nfirst 3 0\nfirst 3 1\ncommit 1 1\ncommit 1 2\nfirst 3 2\n\
            second 3 1\ntake 3 1\npermit 3 1 0 2\nrelease 3\nboo\n";
        let expected = "script: a\n\
            line 16: no call: it begins with the name of no call\n\
            layout pile, rule filter\n\
            line 1: file 1 1 of 3 items: answer 17\n\
            line 2: prepare 1 0: answer 1\n\
            line 3: prepare 1 1: answer 1\n\
            line 4: prepare 1 2: answer 1\n\
            line 5: commit 1 0: answer 1\n\
            line 6: open 3 of 3 items: answer 3\n\
            line 7: first 3 0: answer 17\n\
            line 8: first 3 1: answer 0\n\
            line 9: commit 1 1: answer 1\n\
            line 10: commit 1 2: answer 1\n\
            line 11: first 3 2: answer 17\n\
            line 12: second 3 1: answer 17\n\
            line 13: take 3 1: shows stamp 17 code 16908291\n\
            line 14: permit 3 1 0 2: answer no\n\
            line 15: release 3: answer 4\n\
            item by item, as first asked:\n\
            \x20 item 5 of stamp 17: volume 10 rate 3\n\
            \x20 item 100: nothing\n\
            \x20 the new quantity of item 5 beside no line-up of item 100\n\
            \x20 item 200 of stamp 17: tank 2 limit 9\n\
            \x20 the new tank card of item 200 beside no line-up of item 100\n\
            \x20 permit of reader 3: no\n\
            together, as taken:\n\
            \x20 item 100 of stamp 17: from 1 to 2 valves 3\n\
            \x20 permit of reader 3: no\n\
            reader 3 made 4 asks\n\
            still open: order of writer 1\n";
        assert_eq!(played(text, "pile", &[Rule::Filter]), expected);
    }

    #[test]
    fn space_ends_at_the_stated_size() {
        let text = "file 0 1 5 volume 1 rate 1 6 volume 1 rate 1\nprepare 0 0\nprepare 0 1\n";
        let refused = "line 3: prepare 0 1: refused 4: no space is left for the item\n";
        for layout in ["table:1", "journal:28", "journal:55", "pile:1:6:1:27"] {
            assert_eq!(played(text, layout, &ALL_RULES).matches(refused).count(), 3);
        }
        for layout in ["table:2", "journal:56", "pile:1:6:1:28"] {
            assert!(!played(text, layout, &ALL_RULES).contains("refused"));
        }
    }
}
