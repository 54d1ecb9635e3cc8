//! Ken in plain Rust: the same protocol over disks, links and outlets of the same kind, without a proof and without checks of its
//! script. It reads a script on standard input and prints the report of `ken run`. README.md says what it is held against.

use std::collections::{BTreeMap, BTreeSet, HashMap, VecDeque};
use std::fs::File;
use std::io::{self, Read, Write};
use std::os::fd::AsFd;
use std::process::ExitCode;

const PAGE: usize = 256;
const MOST_NODES: usize = 8;
const OUTSIDE: u8 = 255;
const OPEN: u8 = 0xa5;
const CLOSED: u8 = 0;
/// A log goes over to the other disk with so many records.
const RECORDS: usize = 32;
/// The oldest unacknowledged messages that are sent again.
const MOST_DUE: usize = 16;
const MOST_WAITING: usize = 1_024;
const MOST_GIVEN: usize = 4_096;
const MOST_REFUSALS: u64 = 64;
const HEADER: usize = 32;
const HEAD: usize = 16;

enum Fault {
    Disk,
    Outlet,
}

// ---- the script

mod json {
    pub enum Value {
        Number(u64),
        Text(Vec<u8>),
        List(Vec<Value>),
        Object(Vec<(Vec<u8>, Value)>),
    }

    impl Value {
        pub fn number(&self) -> u64 {
            match self {
                Value::Number(number) => *number,
                _ => panic!("a number"),
            }
        }

        pub fn text(&self) -> &[u8] {
            match self {
                Value::Text(text) => text,
                _ => panic!("a text"),
            }
        }

        pub fn list(&self) -> &[Value] {
            match self {
                Value::List(items) => items,
                _ => panic!("a list"),
            }
        }

        pub fn get(&self, key: &str) -> Option<&Value> {
            match self {
                Value::Object(pairs) => pairs
                    .iter()
                    .rev()
                    .find(|(name, _)| name == key.as_bytes())
                    .map(|(_, value)| value),
                _ => panic!("an object"),
            }
        }
    }

    pub struct Reader<'a> {
        pub bytes: &'a [u8],
        pub at: usize,
    }

    impl Reader<'_> {
        fn next(&mut self) -> u8 {
            while self.bytes[self.at].is_ascii_whitespace() {
                self.at += 1;
            }
            self.at += 1;
            self.bytes[self.at - 1]
        }

        fn items(&mut self, end: u8, mut item: impl FnMut(&mut Self)) {
            if self.next() == end {
                return;
            }
            self.at -= 1;
            loop {
                item(self);
                if self.next() == end {
                    return;
                }
            }
        }

        fn text(&mut self) -> Vec<u8> {
            let mut text = Vec::new();
            loop {
                self.at += 1;
                match self.bytes[self.at - 1] {
                    b'"' => return text,
                    b'\\' => {
                        self.at += 1;
                        match self.bytes[self.at - 1] {
                            b'u' => {
                                let digits = std::str::from_utf8(&self.bytes[self.at..self.at + 4])
                                    .expect("digits");
                                text.push(
                                    u8::from_str_radix(digits, 16).expect("a printable letter"),
                                );
                                self.at += 4;
                            }
                            letter => text.push(letter),
                        }
                    }
                    letter => text.push(letter),
                }
            }
        }

        pub fn value(&mut self) -> Value {
            match self.next() {
                b'"' => Value::Text(self.text()),
                b'[' => {
                    let mut items = Vec::new();
                    self.items(b']', |reader| items.push(reader.value()));
                    Value::List(items)
                }
                b'{' => {
                    let mut pairs = Vec::new();
                    self.items(b'}', |reader| {
                        reader.next();
                        let name = reader.text();
                        reader.next();
                        pairs.push((name, reader.value()));
                    });
                    Value::Object(pairs)
                }
                _ => {
                    let start = self.at - 1;
                    while self.bytes.get(self.at).is_some_and(u8::is_ascii_digit) {
                        self.at += 1;
                    }
                    let digits = std::str::from_utf8(&self.bytes[start..self.at]).expect("digits");
                    Value::Number(digits.parse().expect("a number"))
                }
            }
        }
    }
}

#[derive(Clone, Copy)]
enum Kind {
    Ring,
    Tally,
    Share,
    Mix,
    Kv,
    /// The services of `ken_own`, which are no kinds of Ken's.
    Ledger,
    Leases,
}

#[derive(Clone, Copy)]
enum Act {
    Lose,
    Repeat,
    Hold(u64),
}

struct Script {
    nodes: u8,
    kind: Kind,
    pages: usize,
    seed: u64,
    cap: usize,
    restarts: u64,
    value: json::Value,
}

impl Script {
    fn read(bytes: &[u8]) -> Self {
        let value = json::Reader { bytes, at: 0 }.value();
        let number = |key, absent| value.get(key).map_or(absent, json::Value::number);
        let kind = match value.get("kind").expect("a kind").text() {
            b"ring" => Kind::Ring,
            b"tally" => Kind::Tally,
            b"share" => Kind::Share,
            b"mix" => Kind::Mix,
            b"kv" => Kind::Kv,
            b"ledger" => Kind::Ledger,
            b"leases" => Kind::Leases,
            _ => panic!("a kind that there is"),
        };
        Script {
            nodes: number("nodes", 0) as u8,
            kind,
            pages: number("pages", 16) as usize,
            seed: number("seed", 0),
            cap: number("turns", 1_000) as usize,
            restarts: number("restarts", 64),
            value,
        }
    }

    /// The items of a list whose first number is this node's.
    fn of_node(&self, key: &str, node: u8) -> impl Iterator<Item = &[json::Value]> {
        let items = self.value.get(key).map_or(&[][..], json::Value::list);
        items
            .iter()
            .map(json::Value::list)
            .filter(move |item| item[0].number() == u64::from(node))
    }

    fn cuts(&self, node: u8, disk: u64) -> BTreeMap<u64, u64> {
        let cuts = self
            .of_node("cuts", node)
            .filter(|cut| cut[1].number() == disk);
        cuts.map(|cut| (cut[2].number(), cut[3].number())).collect()
    }

    fn acts(&self, key: &str, node: u8) -> HashMap<(u8, u64), Act> {
        let act = |value: &json::Value| match value {
            json::Value::Text(word) if word == b"lose" => Act::Lose,
            json::Value::Text(_) => Act::Repeat,
            puts => Act::Hold(puts.number()),
        };
        self.of_node(key, node)
            .map(|it| ((it[1].number() as u8, it[2].number()), act(&it[3])))
            .collect()
    }
}

/// The generator that random words and torn writes are drawn from.
struct Lcg(u64);

impl Lcg {
    fn next(&mut self) -> u64 {
        self.0 = self
            .0
            .wrapping_mul(6_364_136_223_846_793_005)
            .wrapping_add(1_442_695_040_888_963_407);
        self.0 >> 33
    }
}

// ---- devices

/// A disk that can be torn: it knows what was written since the last sync.
struct Disk {
    seen: Vec<u8>,
    synced: Vec<u8>,
    ranges: Vec<(usize, usize)>,
    calls: u64,
    cuts: BTreeMap<u64, u64>,
    hint: u64,
    is_down: bool,
}

impl Disk {
    fn new(cuts: BTreeMap<u64, u64>) -> Self {
        Disk {
            seen: Vec::new(),
            synced: Vec::new(),
            ranges: Vec::new(),
            calls: 0,
            cuts,
            hint: 0,
            is_down: false,
        }
    }

    fn call(&mut self) -> Result<(), Fault> {
        self.calls += 1;
        if let Some(pick) = self.cuts.remove(&self.calls) {
            self.hint = pick;
            self.is_down = true;
        }
        if self.is_down {
            Err(Fault::Disk)
        } else {
            Ok(())
        }
    }

    fn write(&mut self, at: usize, bytes: &[u8]) -> Result<(), Fault> {
        let end = at + bytes.len();
        if self.seen.len() < end {
            self.seen.resize(end, 0);
        }
        self.seen[at..end].copy_from_slice(bytes);
        self.ranges.push((at, end));
        self.call()
    }

    fn sync(&mut self) -> Result<(), Fault> {
        self.call()?;
        self.keep_written();
        Ok(())
    }

    fn keep_written(&mut self) {
        self.synced.resize(self.seen.len(), 0);
        for (at, end) in self.ranges.drain(..) {
            self.synced[at..end].copy_from_slice(&self.seen[at..end]);
        }
    }

    fn write_through(&mut self, at: usize, bytes: &[u8]) -> Result<(), Fault> {
        self.write(at, bytes)?;
        self.sync()
    }

    /// A crash: what it leaves of the writes since the last sync is as the pick says.
    fn restart(&mut self, pick: u64) {
        self.is_down = false;
        match pick {
            0 => self.keep_written(),
            1 => {
                let end = self.synced.len();
                for (at, to) in self.ranges.drain(..) {
                    let to = to.min(end);
                    if at < to {
                        self.seen[at..to].copy_from_slice(&self.synced[at..to]);
                    }
                }
                self.seen.truncate(end);
            }
            _ => self.tear(Lcg(pick)),
        }
    }

    fn tear(&mut self, mut answers: Lcg) {
        let longer = (self.seen.len() - self.synced.len()) as u64;
        let end = self.synced.len() + (answers.next() % (longer + 1)) as usize;
        let places: BTreeSet<usize> = self.ranges.drain(..).flat_map(|(at, to)| at..to).collect();
        self.synced.resize(self.seen.len(), 0);
        for place in places.into_iter().take_while(|place| *place < end) {
            match answers.next() % 3 {
                0 => (),
                1 => self.synced[place] = self.seen[place],
                _ => self.synced[place] = (answers.next() % 256) as u8,
            }
        }
        self.synced.truncate(end);
        self.seen.clone_from(&self.synced);
    }
}

/// What leaves a node on its links of one kind.
#[derive(Default)]
struct Links {
    acts: HashMap<(u8, u64), Act>,
    puts: [u64; MOST_NODES],
    /// Packets that are held, each with the put after which it is passed on.
    held: Vec<(u8, u64, Vec<u8>)>,
}

impl Links {
    fn put(&mut self, to: u8, packet: Vec<u8>, inbox: &mut VecDeque<Vec<u8>>) {
        let mut pass = |packet| {
            if inbox.len() < MOST_WAITING {
                inbox.push_back(packet);
            }
        };
        self.puts[usize::from(to)] += 1;
        let number = self.puts[usize::from(to)];
        if self.acts.is_empty() {
            pass(packet);
            return;
        }
        match self.acts.get(&(to, number)) {
            None => pass(packet),
            Some(Act::Lose) => (),
            Some(Act::Repeat) => {
                pass(packet.clone());
                pass(packet);
            }
            Some(Act::Hold(puts)) => self.held.push((to, number + puts, packet)),
        }
        for (_, _, packet) in self.held.extract_if(.., |it| (it.0, it.1) == (to, number)) {
            pass(packet);
        }
    }
}

// ---- the heap

/// A heap of pages that keeps those that a turn writes as they were before.
struct Heap {
    bytes: Vec<u8>,
    saved: Vec<(u32, [u8; PAGE])>,
    is_saved: Vec<bool>,
}

impl Heap {
    fn new(pages: usize) -> Self {
        let mut bytes = vec![0; PAGE * pages];
        bytes[8..12].copy_from_slice(b"KENH");
        bytes[12..16].copy_from_slice(&(pages as u32).to_be_bytes());
        bytes[16..20].copy_from_slice(&((PAGE * pages - HEAD) as u32).to_be_bytes());
        Heap {
            bytes,
            saved: Vec::new(),
            is_saved: vec![false; pages],
        }
    }

    fn page(&self, page: u32) -> &[u8] {
        &self.bytes[page as usize * PAGE..][..PAGE]
    }

    fn write(&mut self, at: usize, bytes: &[u8]) {
        for page in at / PAGE..(at + bytes.len()).div_ceil(PAGE) {
            if !self.is_saved[page] {
                self.is_saved[page] = true;
                self.saved.push((
                    page as u32,
                    self.bytes[page * PAGE..][..PAGE]
                        .try_into()
                        .expect("a page"),
                ));
            }
        }
        self.bytes[at..at + bytes.len()].copy_from_slice(bytes);
    }

    /// Hands over the pages that the turn changed, rising.
    fn freeze(&mut self, changed: &mut Vec<u32>) {
        self.saved.sort_unstable_by_key(|(page, _)| *page);
        changed.clear();
        for (page, old) in &self.saved {
            self.is_saved[*page as usize] = false;
            if self.bytes[*page as usize * PAGE..][..PAGE] != *old {
                changed.push(*page);
            }
        }
        self.saved.clear();
    }

    fn root(&self) -> u64 {
        number_at(&self.bytes, 0)
    }

    fn set_root(&mut self, root: u64) {
        self.write(0, &root.to_be_bytes());
    }

    /// The cells: head, span, and length of the block, which is 0 for a gap.
    fn cells(&self) -> impl Iterator<Item = (usize, usize, usize)> {
        let mut head = HEAD;
        std::iter::from_fn(move || {
            let bytes = self.bytes.get(head..head + 8)?;
            let span = u32::from_be_bytes(bytes[..4].try_into().expect("a field")) as usize;
            let length = u32::from_be_bytes(bytes[4..].try_into().expect("a field")) as usize;
            head += span;
            Some((head - span, span, length))
        })
    }

    fn write_head(&mut self, head: usize, span: usize, length: usize) {
        let mut bytes = [0; HEAD];
        bytes[..4].copy_from_slice(&(span as u32).to_be_bytes());
        bytes[4..8].copy_from_slice(&(length as u32).to_be_bytes());
        self.write(head, &bytes);
    }

    /// The head of the pair of a key, and what stands behind the key and its space.
    fn pair(&self, key: &[u8]) -> Option<(usize, &[u8])> {
        self.cells().find_map(|(head, _, length)| {
            let rest = self.bytes[head + HEAD..][..length].strip_prefix(key)?;
            Some((head, rest.strip_prefix(b" ")?))
        })
    }

    /// Puts a block into the lowest gap where it fits.
    fn add(&mut self, block: [&[u8]; 3]) -> bool {
        let length: usize = block.iter().map(|part| part.len()).sum();
        let wanted = HEAD + length.next_multiple_of(HEAD);
        let Some((head, span, _)) = self
            .cells()
            .find(|(_, span, length)| *length == 0 && wanted <= *span)
        else {
            return false;
        };
        if wanted < span {
            self.write_head(head + wanted, span - wanted, 0);
        }
        self.write_head(head, wanted, length);
        let mut at = head + HEAD;
        for part in block {
            self.write(at, part);
            at += part.len();
        }
        true
    }

    /// Makes a block a gap, together with the gaps beside it.
    fn free(&mut self, head: usize) {
        let (mut start, mut end) = (head, head);
        for (at, span, length) in self.cells() {
            if at == head {
                end = at + span;
            } else if length == 0 && at + span == head {
                start = at;
            } else if length == 0 && at == end && head < at {
                end = at + span;
            } else if end < at {
                break;
            }
        }
        self.write_head(start, end - start, 0);
    }
}

fn number_at(bytes: &[u8], at: usize) -> u64 {
    u64::from_be_bytes(bytes[at..at + 8].try_into().expect("a field"))
}

/// A text of 1 to 9 digits without a leading zero.
fn count_in(text: &[u8]) -> Option<u64> {
    let is_count = (1..=9).contains(&text.len())
        && text.iter().all(u8::is_ascii_digit)
        && (text.len() == 1 || text[0] != b'0');
    is_count.then(|| {
        text.iter()
            .fold(0, |count, digit| 10 * count + u64::from(digit - b'0'))
    })
}

/// What is asked about a lease.
enum Action {
    Acquire(u64),
    Renew(u64),
    Release,
}

/// `acquire NAME TERM`, `renew NAME TERM` or `release NAME`. A name has 1 to 32 bytes and no space.
fn lease_command(text: &[u8]) -> Option<(&[u8], Action)> {
    let mut words = text.splitn(3, |letter| *letter == b' ');
    let (word, name) = (words.next()?, words.next()?);
    let term = words.next();
    if !(1..=32).contains(&name.len()) {
        return None;
    }
    let count = term.and_then(count_in).filter(|count| *count > 0);
    match (word, term, count) {
        (b"acquire", _, Some(count)) => Some((name, Action::Acquire(count))),
        (b"renew", _, Some(count)) => Some((name, Action::Renew(count))),
        (b"release", None, _) => Some((name, Action::Release)),
        _ => None,
    }
}

// ---- the node

/// A text in a node's store of texts.
#[derive(Clone, Copy)]
struct Text {
    at: usize,
    length: u16,
}

#[derive(Clone, Copy)]
struct Due {
    number: u64,
    stamp: u64,
    text: Text,
}

#[derive(Clone, Copy)]
struct Out {
    number: u64,
    text: Text,
}

struct Send {
    to: u8,
    number: u64,
    text: Text,
}

/// A sealed turn, as the report tells it.
#[derive(Clone, Copy)]
struct Turn {
    stamp: u64,
    from: u8,
    number: u64,
    draws: [u64; 2],
    draw_count: u8,
}

/// What comes out of a turn.
#[derive(Default)]
struct Effects {
    draws: [u64; 2],
    draw_count: u8,
    sends: Vec<Send>,
    outs: Vec<Out>,
}

/// Up to where each sender's messages were taken, how many were sent, and how many outputs there were.
#[derive(Clone, Default)]
struct Numbers {
    stamp: u64,
    consumed: [u64; MOST_NODES],
    inputs: u64,
    sent: [u64; MOST_NODES],
    outputs: u64,
}

impl Numbers {
    fn consumed(&mut self, from: u8) -> &mut u64 {
        match from {
            OUTSIDE => &mut self.inputs,
            _ => &mut self.consumed[usize::from(from)],
        }
    }
}

#[derive(Default)]
struct Inbox {
    mail: VecDeque<Vec<u8>>,
    acks: VecDeque<Vec<u8>>,
}

struct Node {
    node: u8,
    nodes: u8,
    kind: Kind,
    cap: usize,
    inputs: Vec<Vec<u8>>,
    // The devices: disks 0 and 2 hold logs, disk 1 the image.
    disks: [Disk; 3],
    words: Lcg,
    clock: u64,
    fails: BTreeSet<u64>,
    outlet_calls: u64,
    mail: Links,
    acks: Links,
    // The store.
    heap: Heap,
    log: usize,
    generation: u32,
    gate: usize,
    records: usize,
    numbers: Numbers,
    /// The turn that last changed each page of a record or a base.
    changed_by: Vec<u64>,
    /// Pages that are still to write to the image.
    frozen: VecDeque<(u32, [u8; PAGE])>,
    /// Through which turn pages are safe in the image.
    settled: u64,
    // What is due.
    texts: Vec<u8>,
    due: [VecDeque<Due>; MOST_NODES],
    outs: VecDeque<Out>,
    refusals: u64,
    // What the report tells.
    turns: Vec<Turn>,
    emitted: Vec<Out>,
    most_emitted: u64,
    restarts: u64,
    restart_lines: Vec<usize>,
    // Kept for their memory.
    effects: Effects,
    spelled: Vec<u8>,
    changed: Vec<u32>,
}

impl Node {
    fn new(script: &Script, node: u8) -> Self {
        Node {
            node,
            nodes: script.nodes,
            kind: script.kind,
            cap: script.cap,
            inputs: script
                .of_node("inputs", node)
                .map(|input| input[1].text().to_vec())
                .collect(),
            disks: [0, 1, 2].map(|disk| Disk::new(script.cuts(node, disk))),
            words: Lcg(script.seed.wrapping_add(u64::from(node))),
            clock: 0,
            fails: script
                .of_node("outlets", node)
                .map(|fail| fail[1].number())
                .collect(),
            outlet_calls: 0,
            mail: Links {
                acts: script.acts("mail", node),
                ..Links::default()
            },
            acks: Links {
                acts: script.acts("acks", node),
                ..Links::default()
            },
            heap: Heap::new(script.pages),
            log: 0,
            generation: 1,
            gate: 0,
            records: 0,
            numbers: Numbers::default(),
            changed_by: vec![0; script.pages],
            frozen: VecDeque::new(),
            settled: 0,
            texts: Vec::new(),
            due: Default::default(),
            outs: VecDeque::new(),
            refusals: 0,
            turns: Vec::new(),
            emitted: Vec::new(),
            most_emitted: 0,
            restarts: 0,
            restart_lines: Vec::new(),
            effects: Effects::default(),
            spelled: Vec::new(),
            changed: Vec::new(),
        }
    }

    fn text_since(&self, at: usize) -> Text {
        Text {
            at,
            length: (self.texts.len() - at) as u16,
        }
    }

    fn keep(&mut self, text: &[u8]) -> Text {
        self.texts.extend_from_slice(text);
        self.text_since(self.texts.len() - text.len())
    }

    fn keep_count(&mut self, count: u64) -> Text {
        let at = self.texts.len();
        write!(self.texts, "{count}").expect("memory");
        self.text_since(at)
    }

    fn text(&self, text: Text) -> &[u8] {
        &self.texts[text.at..][..usize::from(text.length)]
    }

    // ---- logs and image

    fn create(&mut self) -> Result<(), Fault> {
        self.heap = Heap::new(self.changed_by.len());
        for page in 0..self.changed_by.len() {
            let [_, image, _] = &mut self.disks;
            image.write(page * PAGE, self.heap.page(page as u32))?;
        }
        self.disks[1].sync()?;
        self.log = 0;
        self.generation = 1;
        self.format(&[])
    }

    fn format(&mut self, base: &[u8]) -> Result<(), Fault> {
        let mut bytes = b"KENL\x01".to_vec();
        bytes.extend([self.node, self.nodes]);
        bytes.extend((self.changed_by.len() as u32).to_be_bytes());
        bytes.extend(self.generation.to_be_bytes());
        bytes.extend(
            (if base.is_empty() {
                0
            } else {
                self.turns.len() as u64
            })
            .to_be_bytes(),
        );
        bytes.extend((base.len() as u32).to_be_bytes());
        bytes.extend([0; 4]);
        bytes.extend(base);
        bytes.push(CLOSED);
        let log = &mut self.disks[self.log];
        let closing: &[u8] = if log.seen.first().is_some_and(|gate| *gate != OPEN) {
            &[]
        } else {
            &[CLOSED]
        };
        log.write_through(0, closing)?;
        log.write_through(1, &bytes)?;
        log.write_through(0, &[OPEN])?;
        self.gate = bytes.len();
        self.records = 0;
        Ok(())
    }

    /// Goes over to the other log, with all that isn't done yet.
    fn turnover(&mut self) -> Result<(), Fault> {
        let mut base = std::mem::take(&mut self.spelled);
        base.clear();
        let numbers = &self.numbers;
        let counts = [numbers.stamp]
            .into_iter()
            .chain(numbers.consumed)
            .chain([numbers.inputs])
            .chain(numbers.sent)
            .chain([numbers.outputs]);
        for count in counts {
            base.extend(count.to_be_bytes());
        }
        base.extend((self.due.iter().map(VecDeque::len).sum::<usize>() as u32).to_be_bytes());
        for (to, due) in self.due.iter().enumerate() {
            for message in due {
                base.push(to as u8);
                base.extend(message.number.to_be_bytes());
                base.extend(message.stamp.to_be_bytes());
                put_text(&mut base, self.text(message.text));
            }
        }
        base.extend((self.outs.len() as u32).to_be_bytes());
        for out in &self.outs {
            base.extend(out.number.to_be_bytes());
            put_text(&mut base, self.text(out.text));
        }
        let settled = self.settled;
        self.changed.clear();
        self.changed.extend(
            (0u32..)
                .zip(&self.changed_by)
                .filter(|(_, turn)| **turn > settled)
                .map(|(page, _)| page),
        );
        put_pages(&mut base, &self.changed, &self.heap);
        // (pages that the base leaves out are no longer of the log)
        for turn in &mut self.changed_by {
            if *turn <= settled {
                *turn = 0;
            }
        }
        self.log = 2 - self.log;
        self.generation += 1;
        let done = self.format(&base);
        self.spelled = base;
        done
    }

    fn seal(&mut self, from: u8, number: u64, stamp: u64) -> Result<(), Fault> {
        let count = self.turns.len() as u64 + 1;
        self.heap.freeze(&mut self.changed);
        let mut bytes = std::mem::take(&mut self.spelled);
        bytes.clear();
        bytes.extend([0; 4]);
        bytes.extend(count.to_be_bytes());
        bytes.extend(stamp.to_be_bytes());
        bytes.push(from);
        bytes.extend(number.to_be_bytes());
        bytes.push(self.effects.draw_count);
        for draw in &self.effects.draws[..usize::from(self.effects.draw_count)] {
            bytes.extend(draw.to_be_bytes());
        }
        bytes.push(self.effects.sends.len() as u8);
        for send in &self.effects.sends {
            bytes.push(send.to);
            bytes.extend(send.number.to_be_bytes());
            put_text(&mut bytes, self.text(send.text));
        }
        bytes.push(self.effects.outs.len() as u8);
        for out in &self.effects.outs {
            bytes.extend(out.number.to_be_bytes());
            put_text(&mut bytes, self.text(out.text));
        }
        put_pages(&mut bytes, &self.changed, &self.heap);
        let length = bytes.len() as u32 - 4;
        bytes[..4].copy_from_slice(&length.to_be_bytes());
        bytes.push(CLOSED);
        let log = &mut self.disks[self.log];
        let done = log
            .write_through(self.gate + 1, &bytes)
            .and_then(|()| log.write_through(self.gate, &[OPEN]));
        self.gate += bytes.len();
        self.spelled = bytes;
        done?;
        self.records += 1;
        for page in &self.changed {
            self.changed_by[*page as usize] = count;
            self.frozen
                .push_back((*page, self.heap.page(*page).try_into().expect("a page")));
        }
        *self.numbers.consumed(from) = number;
        self.numbers.stamp = stamp;
        for send in &self.effects.sends {
            self.numbers.sent[usize::from(send.to)] = send.number;
            self.due[usize::from(send.to)].push_back(Due {
                number: send.number,
                stamp,
                text: send.text,
            });
        }
        for out in &self.effects.outs {
            self.numbers.outputs = out.number;
            self.outs.push_back(*out);
        }
        self.turns.push(Turn {
            stamp,
            from,
            number,
            draws: self.effects.draws,
            draw_count: self.effects.draw_count,
        });
        Ok(())
    }

    fn patch(&mut self) -> Result<(), Fault> {
        while let Some((page, content)) = self.frozen.pop_front() {
            self.disks[1].write(page as usize * PAGE, &content)?;
        }
        self.disks[1].sync()?;
        self.settled = self.turns.len() as u64;
        Ok(())
    }

    /// Restarts the disks, and goes on from what they hold.
    fn restart(&mut self) -> Result<(), Fault> {
        self.restarts += 1;
        let pick = self
            .disks
            .iter()
            .find(|disk| disk.is_down)
            .map_or(0, |disk| disk.hint);
        for disk in &mut self.disks {
            disk.restart(pick);
        }
        self.refusals = 0;
        let generation = |disk: &Disk| match disk.seen[..] {
            [OPEN, ..] if HEADER <= disk.seen.len() => {
                u32::from_be_bytes(disk.seen[12..16].try_into().expect("a field"))
            }
            _ => 0,
        };
        let (first, second) = (generation(&self.disks[0]), generation(&self.disks[2]));
        if first.max(second) == 0 {
            self.create()?;
        } else {
            self.log = if first < second { 2 } else { 0 };
            self.generation = first.max(second);
            self.recover();
        }
        self.restart_lines.push(self.turns.len());
        Ok(())
    }

    fn recover(&mut self) {
        let log = std::mem::take(&mut self.disks[self.log].seen);
        let mut fields = Fields {
            bytes: &log,
            at: 16,
        };
        let before = fields.number();
        let base = fields.length();
        fields.at = HEADER;
        self.heap
            .bytes
            .copy_from_slice(&self.disks[1].seen[..PAGE * self.changed_by.len()]);
        self.heap.freeze(&mut Vec::new());
        self.numbers = Numbers::default();
        self.due.iter_mut().for_each(VecDeque::clear);
        self.outs.clear();
        self.frozen.clear();
        self.changed_by.fill(0);
        self.settled = 0;
        self.records = 0;
        if base > 0 {
            self.take_base(&mut fields, before);
        }
        let mut count = before;
        while fields.bytes[fields.at] == OPEN {
            count += 1;
            self.take_record(&mut fields, count);
        }
        self.gate = fields.at;
        self.disks[self.log].seen = log;
    }

    fn take_base(&mut self, fields: &mut Fields<'_>, turn: u64) {
        let numbers = &mut self.numbers;
        numbers.stamp = fields.number();
        numbers.consumed = std::array::from_fn(|_| fields.number());
        numbers.inputs = fields.number();
        numbers.sent = std::array::from_fn(|_| fields.number());
        numbers.outputs = fields.number();
        for _ in 0..fields.length() {
            let to = fields.byte();
            let (number, stamp) = (fields.number(), fields.number());
            self.take_message(to, number, stamp, fields.text());
        }
        for _ in 0..fields.length() {
            self.take_out(fields);
        }
        self.take_pages(fields, turn);
    }

    fn take_record(&mut self, fields: &mut Fields<'_>, count: u64) {
        fields.at += 13;
        let stamp = fields.number();
        let from = fields.byte();
        let number = fields.number();
        let draw_count = fields.byte();
        let mut draws = [0; 2];
        draws[..usize::from(draw_count)].fill_with(|| fields.number());
        for _ in 0..fields.byte() {
            let to = fields.byte();
            let number = fields.number();
            self.numbers.sent[usize::from(to)] = number;
            self.take_message(to, number, stamp, fields.text());
        }
        for _ in 0..fields.byte() {
            self.numbers.outputs = self.take_out(fields);
        }
        self.take_pages(fields, count);
        self.numbers.stamp = stamp;
        *self.numbers.consumed(from) = number;
        self.records += 1;
        // (a record in doubt that landed)
        if self.turns.len() < count as usize {
            self.turns.push(Turn {
                stamp,
                from,
                number,
                draws,
                draw_count,
            });
        }
    }

    fn take_message(&mut self, to: u8, number: u64, stamp: u64, text: &[u8]) {
        let text = self.keep(text);
        self.due[usize::from(to)].push_back(Due {
            number,
            stamp,
            text,
        });
    }

    fn take_out(&mut self, fields: &mut Fields<'_>) -> u64 {
        let number = fields.number();
        let text = self.keep(fields.text());
        self.outs.push_back(Out { number, text });
        number
    }

    fn take_pages(&mut self, fields: &mut Fields<'_>, turn: u64) {
        for _ in 0..fields.short() {
            let page = fields.length() as u32;
            let content: [u8; PAGE] = fields.take(PAGE).try_into().expect("a page");
            self.heap.bytes[page as usize * PAGE..][..PAGE].copy_from_slice(&content);
            self.changed_by[page as usize] = turn;
            self.frozen.push_back((page, content));
        }
    }

    // ---- turns

    /// The next message, and acknowledgements of old ones.
    fn next_mail(&mut self, inboxes: &mut [Inbox]) -> Option<Vec<u8>> {
        for _ in 0..MOST_GIVEN {
            let packet = inboxes[usize::from(self.node)].mail.pop_front()?;
            let (from, number) = (packet[1], number_at(&packet, 3));
            let consumed = self.numbers.consumed[usize::from(from)];
            if number == consumed + 1 {
                return Some(packet);
            }
            if number <= consumed {
                self.acknowledge(from, inboxes);
            }
        }
        None
    }

    fn acknowledge(&mut self, from: u8, inboxes: &mut [Inbox]) {
        let mut packet = Vec::with_capacity(11);
        packet.extend([2, self.node, from]);
        packet.extend(self.numbers.consumed[usize::from(from)].to_be_bytes());
        self.acks
            .put(from, packet, &mut inboxes[usize::from(from)].acks);
    }

    fn output_kept(&mut self, text: Text) {
        let number = self.numbers.outputs + self.effects.outs.len() as u64 + 1;
        self.effects.outs.push(Out { number, text });
    }

    fn output(&mut self, text: &[u8]) {
        let text = self.keep(text);
        self.output_kept(text);
    }

    fn output_count(&mut self, count: u64) {
        let text = self.keep_count(count);
        self.output_kept(text);
    }

    fn send(&mut self, to: u8, text: Text) {
        let number = self.numbers.sent[usize::from(to)] + 1;
        self.effects.sends.push(Send { to, number, text });
    }

    fn send_count(&mut self, to: u8, count: u64) {
        let text = self.keep_count(count);
        self.send(to, text);
    }

    fn draw(&mut self, draw: u64) {
        self.effects.draws[usize::from(self.effects.draw_count)] = draw;
        self.effects.draw_count += 1;
    }

    fn handle(&mut self, from: u8, text: &[u8]) {
        self.effects.draw_count = 0;
        self.effects.sends.clear();
        self.effects.outs.clear();
        match self.kind {
            Kind::Kv => return self.command(text),
            Kind::Ledger => return self.account(from, text),
            Kind::Leases => return self.keep_lease(from, text),
            _ => (),
        }
        let Some(count) = count_in(text) else {
            return self.output(b"bad");
        };
        let next = (self.node + 1) % self.nodes;
        let root = self.heap.root();
        match self.kind {
            Kind::Ring => {
                self.heap.set_root(root.wrapping_add(1));
                if count > 0 {
                    self.send_count(next, count - 1);
                }
                self.output_count(count);
            }
            Kind::Tally => {
                self.heap.set_root(root.wrapping_add(count));
                if from == OUTSIDE {
                    let node = self.node;
                    for to in (0..self.nodes).filter(|to| *to != node) {
                        let text = self.keep(text);
                        self.send(to, text);
                    }
                }
                self.output_count(root.wrapping_add(count));
            }
            Kind::Share => {
                self.heap.set_root(root.wrapping_add(count - count / 2));
                if count / 2 > 0 {
                    self.send_count(next, count / 2);
                }
                self.output_count(count);
            }
            Kind::Mix | Kind::Kv | Kind::Ledger | Kind::Leases => {
                self.read_clock();
                let word = self.words.next();
                self.draw(word);
                self.heap.set_root(self.clock);
                if count > 0 {
                    self.send_count((word % u64::from(self.nodes)) as u8, count - 1);
                }
                self.output_count(word % 1000);
            }
        }
    }

    /// A reading of the clock, which is drawn.
    fn read_clock(&mut self) -> u64 {
        self.clock += 1;
        self.draw(self.clock);
        self.clock
    }

    /// The ledger: a deposit, a payment to another node, or one of another node.
    fn account(&mut self, from: u8, text: &[u8]) {
        let root = self.heap.root();
        let payment = match text {
            [digit @ b'0'..=b'9', b' ', amount @ ..] if from == OUTSIDE => {
                count_in(amount).map(|amount| (digit - b'0', amount))
            }
            _ => None,
        };
        let after = match (payment, count_in(text)) {
            (Some((to, amount)), _) if to >= self.nodes || amount > root => {
                return self.output(b"refused");
            }
            (Some((_, amount)), _) => root - amount,
            (None, None) => return self.output(b"bad"),
            (None, Some(amount)) => match root.checked_add(amount) {
                Some(after) => after,
                None => return self.output(b"full"),
            },
        };
        let reading = self.read_clock();
        self.heap.set_root(after);
        self.output_count(after);
        self.output_count(reading);
        if let Some((to, amount)) = payment {
            self.send_count(to, amount);
        }
    }

    /// Leases: what is asked goes to the keeper of its name, whose answer is output by the node that asked.
    fn keep_lease(&mut self, from: u8, text: &[u8]) {
        let asked = lease_command(text);
        if from == OUTSIDE {
            let Some((name, _)) = asked else {
                return self.output(b"bad");
            };
            let (keeper, text) = (name[0] % self.nodes, self.keep(text));
            return self.send(keeper, text);
        }
        let Some((name, action)) = asked else {
            let words: [&[u8]; 5] = [b"granted ", b"held ", b"lost ", b"released ", b"full "];
            let is_answer = words.iter().any(|word| text.starts_with(word));
            return self.output(if is_answer { text } else { b"bad" });
        };
        let reading = self.read_clock();
        let answer = self.decide(from, reading, name, action);
        let text = self.keep(&answer);
        self.send(from, text);
    }

    /// What the keeper of a name answers.
    fn decide(&mut self, node: u8, reading: u64, name: &[u8], action: Action) -> Vec<u8> {
        let old = self.heap.pair(name).map(|(head, rest)| {
            let place = head + HEAD + name.len() + 1;
            (place, rest[0], number_at(rest, 1), number_at(rest, 9))
        });
        let is_held = matches!(old, Some((_, holder, start, end)) if holder == node && start <= reading && reading < end);
        let name_text = String::from_utf8_lossy(name);
        let told = |word: &str| format!("{word} {name_text}").into_bytes();
        let granted = |start, end| format!("granted {name_text} {start} {end}").into_bytes();
        match (action, old) {
            (Action::Acquire(_), Some((.., end))) if reading < end => {
                format!("held {name_text} {end}").into_bytes()
            }
            (Action::Acquire(term), old) => {
                let Some(end) = reading.checked_add(term) else {
                    return told("full");
                };
                let fields = [&[node][..], &reading.to_be_bytes(), &end.to_be_bytes()].concat();
                match old {
                    Some((place, ..)) => self.heap.write(place, &fields),
                    None if !self.heap.add([name, b" ", &fields]) => return told("full"),
                    None => (),
                }
                granted(reading, end)
            }
            (Action::Renew(term), Some((place, _, start, end))) if is_held => {
                let Some(later) = reading.checked_add(term) else {
                    return told("full");
                };
                self.heap.write(place + 9, &later.max(end).to_be_bytes());
                granted(start, later.max(end))
            }
            (Action::Release, Some((place, ..))) if is_held => {
                self.heap.write(place + 9, &reading.to_be_bytes());
                told("released")
            }
            _ => told("lost"),
        }
    }

    fn command(&mut self, text: &[u8]) {
        let is_key = |key: &[u8]| !key.is_empty() && !key.contains(&b' ');
        match text.split_at_checked(4) {
            Some((b"put ", rest)) => {
                let Some(space) = rest
                    .iter()
                    .position(|letter| *letter == b' ')
                    .filter(|place| *place > 0)
                else {
                    return self.output(b"bad");
                };
                let (key, value) = (&rest[..space], &rest[space + 1..]);
                let old = self.heap.pair(key).map(|(head, _)| head);
                if !self.heap.add([key, b" ", value]) {
                    return self.output(b"full");
                }
                if let Some(head) = old {
                    self.heap.free(head);
                }
                self.output(b"ok");
            }
            Some((b"get ", key)) if is_key(key) => {
                let at = self.texts.len();
                match self.heap.pair(key) {
                    Some((_, value)) => self.texts.extend_from_slice(value),
                    None => self.texts.extend_from_slice(b"none"),
                }
                self.output_kept(self.text_since(at));
            }
            Some((b"del ", key)) if is_key(key) => {
                match self.heap.pair(key).map(|(head, _)| head) {
                    Some(head) => {
                        self.heap.free(head);
                        self.output(b"ok");
                    }
                    None => self.output(b"none"),
                }
            }
            _ => self.output(b"bad"),
        }
    }

    fn turn_once(&mut self, inboxes: &mut [Inbox]) -> Result<bool, Fault> {
        if self.turns.len() == self.cap {
            return Ok(false);
        }
        if self.records == RECORDS {
            self.turnover()?;
        }
        if let Some(packet) = self.next_mail(inboxes) {
            let from = packet[1];
            self.handle(from, &packet[21..]);
            let stamp = self.numbers.stamp.max(number_at(&packet, 11)) + 1;
            self.seal(from, number_at(&packet, 3), stamp)?;
            self.acknowledge(from, inboxes);
            return Ok(true);
        }
        let place = self.numbers.inputs as usize;
        if place == self.inputs.len() {
            return Ok(false);
        }
        let input = std::mem::take(&mut self.inputs[place]);
        self.handle(OUTSIDE, &input);
        self.inputs[place] = input;
        self.seal(OUTSIDE, place as u64 + 1, self.numbers.stamp + 1)?;
        Ok(true)
    }

    // ---- the outside

    fn send_due(&mut self, inboxes: &mut [Inbox]) {
        for to in 0..self.nodes {
            for place in 0..self.due[usize::from(to)].len().min(MOST_DUE) {
                let message = self.due[usize::from(to)][place];
                let mut packet = Vec::with_capacity(21 + usize::from(message.text.length));
                packet.extend([1, self.node, to]);
                packet.extend(message.number.to_be_bytes());
                packet.extend(message.stamp.to_be_bytes());
                put_text(&mut packet, self.text(message.text));
                self.mail
                    .put(to, packet, &mut inboxes[usize::from(to)].mail);
            }
        }
    }

    fn hear(&mut self, inboxes: &mut [Inbox]) {
        for _ in 0..MOST_GIVEN {
            let Some(packet) = inboxes[usize::from(self.node)].acks.pop_front() else {
                return;
            };
            let (due, through) = (&mut self.due[usize::from(packet[1])], number_at(&packet, 3));
            while due.front().is_some_and(|message| message.number <= through) {
                due.pop_front();
            }
        }
    }

    fn emit(&mut self) -> Result<(), Fault> {
        while let Some(out) = self.outs.front() {
            self.outlet_calls += 1;
            if self.fails.contains(&self.outlet_calls) {
                if self.refusals == MOST_REFUSALS {
                    return Err(Fault::Outlet);
                }
                self.refusals += 1;
                return Ok(());
            }
            self.refusals = 0;
            self.most_emitted = self.most_emitted.max(out.number);
            self.emitted.push(*out);
            self.outs.pop_front();
        }
        Ok(())
    }

    fn work(&mut self, inboxes: &mut [Inbox]) -> Result<(), Fault> {
        while self.turn_once(inboxes)? {}
        self.patch()?;
        self.send_due(inboxes);
        self.hear(inboxes);
        self.emit()
    }

    /// Restarts until a restart answers, as often as it may be restarted.
    fn raise(&mut self, most: u64) -> Result<(), Fault> {
        while self.restarts < most {
            if self.restart().is_ok() {
                return Ok(());
            }
        }
        Err(Fault::Disk)
    }
}

/// Fields of a log, one after the other.
struct Fields<'a> {
    bytes: &'a [u8],
    at: usize,
}

impl<'a> Fields<'a> {
    fn take(&mut self, count: usize) -> &'a [u8] {
        self.at += count;
        &self.bytes[self.at - count..self.at]
    }

    fn byte(&mut self) -> u8 {
        self.take(1)[0]
    }

    fn short(&mut self) -> usize {
        usize::from(u16::from_be_bytes(
            self.take(2).try_into().expect("a field"),
        ))
    }

    fn length(&mut self) -> usize {
        u32::from_be_bytes(self.take(4).try_into().expect("a field")) as usize
    }

    fn number(&mut self) -> u64 {
        number_at(self.take(8), 0)
    }

    fn text(&mut self) -> &'a [u8] {
        let length = self.short();
        self.take(length)
    }
}

fn put_text(bytes: &mut Vec<u8>, text: &[u8]) {
    bytes.extend((text.len() as u16).to_be_bytes());
    bytes.extend(text);
}

fn put_pages(bytes: &mut Vec<u8>, pages: &[u32], heap: &Heap) {
    bytes.extend((pages.len() as u16).to_be_bytes());
    for page in pages {
        bytes.extend(page.to_be_bytes());
        bytes.extend(heap.page(*page));
    }
}

// ---- the run

enum Ending {
    Settled,
    Cut { waiting: u64 },
    Down { node: u8 },
}

/// How much waits for a node.
fn waiting_for(nodes: &[Node], to: &Node) -> u64 {
    let place = usize::from(to.node);
    let mail = nodes
        .iter()
        .map(|from| from.numbers.sent[place] - to.numbers.consumed[usize::from(from.node)]);
    mail.sum::<u64>() + to.inputs.len() as u64 - to.numbers.inputs
}

/// The ending, where there is nothing more to do.
fn ending_of(nodes: &[Node]) -> Option<Ending> {
    let mut waiting = 0;
    for node in nodes {
        let waits = waiting_for(nodes, node);
        if node.most_emitted < node.numbers.outputs || waits > 0 && node.turns.len() < node.cap {
            return None;
        }
        waiting += waits;
    }
    Some(if waiting == 0 {
        Ending::Settled
    } else {
        Ending::Cut { waiting }
    })
}

fn play(script: &Script) -> (Vec<Node>, Ending) {
    let mut nodes: Vec<_> = (0..script.nodes)
        .map(|node| Node::new(script, node))
        .collect();
    let mut inboxes: Vec<_> = nodes.iter().map(|_| Inbox::default()).collect();
    for place in 0..nodes.len() {
        let node = &mut nodes[place];
        if node.create().is_err() && node.raise(script.restarts).is_err() {
            let node = place as u8;
            return (nodes, Ending::Down { node });
        }
    }
    loop {
        for place in 0..nodes.len() {
            let node = &mut nodes[place];
            let is_up = match node.work(&mut inboxes) {
                Ok(()) => true,
                Err(Fault::Disk) => node.raise(script.restarts).is_ok(),
                Err(Fault::Outlet) => false,
            };
            if !is_up {
                let node = place as u8;
                return (nodes, Ending::Down { node });
            }
        }
        if let Some(ending) = ending_of(&nodes) {
            return (nodes, ending);
        }
    }
}

/// Each line is a write of its own, as Ken's lines are.
fn print(out: &mut impl Write, nodes: &[Node], waiting: u64) -> io::Result<()> {
    let mut turns: Vec<_> = nodes
        .iter()
        .flat_map(|node| node.turns.iter().map(|turn| (turn.stamp, node.node, turn)))
        .collect();
    turns.sort_unstable_by_key(|(stamp, node, _)| (*stamp, *node));
    let mut line = Vec::new();
    let mut end = |line: &mut Vec<u8>| {
        line.push(b'\n');
        let written = out.write_all(line);
        line.clear();
        written
    };
    for (stamp, node, turn) in &turns {
        write!(line, "turn {stamp} {node} ")?;
        match turn.from {
            OUTSIDE => write!(line, "out {}", turn.number)?,
            from => write!(line, "{from} {}", turn.number)?,
        }
        match turn.draw_count {
            0 => write!(line, " -")?,
            1 => write!(line, " {}", turn.draws[0])?,
            _ => write!(line, " {},{}", turn.draws[0], turn.draws[1])?,
        }
        end(&mut line)?;
    }
    for node in nodes {
        for emitted in &node.emitted {
            write!(line, "emit {} {} ", node.node, emitted.number)?;
            line.extend(node.text(emitted.text));
            end(&mut line)?;
        }
    }
    for node in nodes {
        for turns in &node.restart_lines {
            write!(line, "restart {} at {turns}", node.node)?;
            end(&mut line)?;
        }
    }
    for node in nodes {
        write!(line, "heap {} {}", node.node, node.heap.root())?;
        for (head, _, length) in node.heap.cells().filter(|(_, _, length)| *length > 0) {
            write!(line, " {}:{length}", head + HEAD)?;
        }
        end(&mut line)?;
    }
    match waiting {
        0 => write!(line, "end settled {}", turns.len())?,
        _ => write!(line, "end cut {} {waiting}", turns.len())?,
    }
    end(&mut line)
}

fn main() -> ExitCode {
    let mut bytes = Vec::new();
    io::stdin().read_to_end(&mut bytes).expect("a script");
    let (nodes, ending) = play(&Script::read(&bytes));
    // Without the buffer of `Stdout`.
    let mut out = File::from(
        io::stdout()
            .as_fd()
            .try_clone_to_owned()
            .expect("standard output"),
    );
    match ending {
        Ending::Settled => {
            print(&mut out, &nodes, 0).expect("a report that can be written");
            ExitCode::SUCCESS
        }
        Ending::Cut { waiting } => {
            print(&mut out, &nodes, waiting).expect("a report that can be written");
            eprintln!("ken: cut");
            ExitCode::from(3)
        }
        Ending::Down { node } => {
            eprintln!("ken: node {node} is down");
            ExitCode::from(5)
        }
    }
}
