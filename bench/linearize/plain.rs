// The search of `kv_linearize` in plain Rust, by itself: the same lines are read and written, and the same steps are taken, but nothing is
// proved, and of the lines that claim nothing only the first word is read. It has no answers for memory and faults of reading.
//
//     plain [--most STEPS] < HISTORY
use std::collections::hash_map::Entry;
use std::collections::{HashMap, HashSet};
use std::io::{Read, Write};
use std::process::exit;

type Pair = (u32, u64);

enum Claim {
    Submit(Pair, Vec<u8>),
    Accept(Pair, Vec<u8>),
}

struct Line {
    claim: Claim,
    number: usize,
    /// The claim of the other kind with the same client and id.
    other: Option<usize>,
}

// ---- the key-value store

/// What takes an op back.
enum Undo {
    Nothing,
    Value(Vec<u8>, Option<Vec<u8>>),
}

#[derive(Default)]
struct Kv(HashMap<Vec<u8>, Vec<u8>>);

enum Op<'a> {
    Get(&'a [u8]),
    Put(&'a [u8], &'a [u8]),
    Delete(&'a [u8]),
    Swap(&'a [u8], &'a [u8], &'a [u8]),
    Bad,
}

fn string<'a>(bytes: &mut &'a [u8]) -> Option<&'a [u8]> {
    let (length, rest) = bytes.split_at_checked(2)?;
    let (string, rest) = rest.split_at_checked(u16::from_be_bytes([length[0], length[1]]) as usize)?;
    *bytes = rest;
    Some(string)
}

fn op_of(mut bytes: &[u8]) -> Op<'_> {
    let whole = |bytes: &mut &[u8]| bytes.is_empty().then_some(());
    let mut read = || {
        let letter = *bytes.split_off_first()?;
        let key = string(&mut bytes).filter(|key| (1..=64).contains(&key.len()))?;
        let mut value = || string(&mut bytes).filter(|value| value.len() <= 256);
        let op = match letter {
            b'G' => Op::Get(key),
            b'P' => Op::Put(key, value()?),
            b'D' => Op::Delete(key),
            b'C' => Op::Swap(key, value()?, value()?),
            _ => return None,
        };
        whole(&mut bytes).map(|()| op)
    };
    read().unwrap_or(Op::Bad)
}

fn key_of(op: &[u8]) -> &[u8] {
    match op_of(op) {
        Op::Get(key) | Op::Put(key, _) | Op::Delete(key) | Op::Swap(key, ..) => key,
        Op::Bad => &[],
    }
}

fn shown(value: Option<&Vec<u8>>) -> Vec<u8> {
    value.map_or_else(|| b"none".to_vec(), |value| [b"=", &value[..]].concat())
}

impl Kv {
    fn apply(&mut self, op: &[u8]) -> (Vec<u8>, Undo) {
        match op_of(op) {
            Op::Get(key) => (shown(self.0.get(key)), Undo::Nothing),
            Op::Put(key, _) if self.0.len() == 4096 && !self.0.contains_key(key) => (b"full".to_vec(), Undo::Nothing),
            Op::Put(key, value) => {
                let before = self.0.insert(key.to_vec(), value.to_vec());
                (shown(before.as_ref()), Undo::Value(key.to_vec(), before))
            }
            Op::Delete(key) => {
                let before = self.0.remove(key);
                (shown(before.as_ref()), Undo::Value(key.to_vec(), before))
            }
            Op::Swap(key, old, new) => match self.0.get_mut(key) {
                Some(value) if value == old => {
                    let before = std::mem::replace(value, new.to_vec());
                    (b"yes".to_vec(), Undo::Value(key.to_vec(), Some(before)))
                }
                _ => (b"no".to_vec(), Undo::Nothing),
            },
            Op::Bad => (b"bad".to_vec(), Undo::Nothing),
        }
    }

    fn undo(&mut self, undo: Undo) {
        match undo {
            Undo::Nothing => {}
            Undo::Value(key, Some(value)) => drop(self.0.insert(key, value)),
            Undo::Value(key, None) => drop(self.0.remove(&key)),
        }
    }

    fn save(&self) -> Vec<u8> {
        let mut all: Vec<_> = self.0.iter().collect();
        all.sort();
        let mut saved = (all.len() as u32).to_be_bytes().to_vec();
        for string in all.into_iter().flat_map(|(key, value)| [key, value]) {
            saved.extend((string.len() as u16).to_be_bytes());
            saved.extend(string);
        }
        saved
    }
}

// ---- the search in one part

struct Step {
    submit: usize,
    line: usize,
    /// Its place among those that waited, and how many others did.
    at: usize,
    others: usize,
    /// Where it leads nowhere, so many of those that waited do.
    tried: usize,
    undo: Undo,
}

enum Outcome {
    /// Each request with the claim before which it was placed.
    Found(Vec<(usize, usize)>),
    /// The furthest claim that was not passed.
    Nothing(usize),
    Spent,
}

struct Search<'a> {
    lines: &'a [Line],
    /// The places of the claims of the part.
    own: &'a [usize],
    host: Kv,
    /// Of these so many are passed; and of the requests that wait so many were tried.
    line: usize,
    next: usize,
    steps: Vec<Step>,
    waiting: Vec<usize>,
    placed: &'a mut [bool],
    failed: HashSet<(usize, Vec<usize>, Vec<u8>)>,
}

impl Search<'_> {
    /// Passes the claim here, where it submits, or accepts what is placed.
    fn pass(&mut self) -> bool {
        let here = self.own[self.line];
        match self.lines[here].claim {
            Claim::Submit(..) => self.waiting.push(here),
            Claim::Accept(..) if self.lines[here].other.is_some_and(|submit| self.placed[submit]) => {}
            Claim::Accept(..) => return false,
        }
        (self.line, self.next) = (self.line + 1, 0);
        true
    }

    /// Whether the claim here accepts what is not placed.
    fn is_stuck(&self) -> bool {
        let here = &self.lines[self.own[self.line]];
        matches!(here.claim, Claim::Accept(..)) && here.other.is_some_and(|submit| !self.placed[submit])
    }

    fn op(&self, submit: usize) -> &[u8] {
        match &self.lines[submit].claim {
            Claim::Submit(_, op) => op,
            Claim::Accept(..) => unreachable!(),
        }
    }

    /// Places the request that waits at `at`, where its answer is the one that is accepted.
    fn try_at(&mut self, at: usize, tried: usize) -> bool {
        let (lines, submit, line) = (self.lines, self.waiting[at], self.line);
        let Claim::Submit(_, op) = &lines[submit].claim else { unreachable!() };
        let (answer, undo) = self.host.apply(op);
        if lines[submit].other.is_some_and(|accept| !matches!(&lines[accept].claim, Claim::Accept(_, it) if *it == answer)) {
            self.host.undo(undo);
            return false;
        }
        self.waiting.remove(at);
        self.placed[submit] = true;
        self.steps.push(Step { submit, line, at, others: self.waiting.len(), tried, undo });
        self.next = 0;
        true
    }

    /// Places each accepted read that waits and whose answer is the one that is accepted, until what the claim here accepts is placed: no
    /// other need be tried in its place.
    fn place_reads(&mut self) -> bool {
        let (before, mut at) = (self.waiting.len(), 0);
        while at < self.waiting.len() {
            let submit = self.waiting[at];
            let reads = self.lines[submit].other.is_some() && matches!(op_of(self.op(submit)), Op::Get(_) | Op::Bad);
            if !reads || !self.is_stuck() || !self.try_at(at, self.waiting.len()) {
                at += 1;
            }
        }
        self.waiting.len() < before
    }

    fn configuration(&self) -> (usize, Vec<usize>, Vec<u8>) {
        (self.line, self.waiting.clone(), self.host.save())
    }

    /// Takes the last step back.
    fn go_back(&mut self) -> bool {
        let Some(step) = self.steps.pop() else { return false };
        self.host.undo(step.undo);
        self.placed[step.submit] = false;
        self.waiting.truncate(step.others);
        self.waiting.insert(step.at, step.submit);
        (self.line, self.next) = (step.line, step.tried);
        true
    }

    fn run(mut self, left: &mut u64) -> Outcome {
        let mut furthest = 0;
        while self.line < self.own.len() {
            if *left == 0 {
                return Outcome::Spent;
            }
            *left -= 1;
            if self.pass() {
                continue;
            }
            furthest = furthest.max(self.line);
            let known = self.next == 0 && !self.failed.is_empty() && self.failed.contains(&self.configuration());
            if known || self.next >= self.waiting.len() {
                if !known {
                    self.failed.insert(self.configuration());
                }
                if !self.go_back() {
                    return Outcome::Nothing(self.own[furthest]);
                }
            } else if self.next > 0 || !self.place_reads() {
                let at = self.next;
                if !self.try_at(at, at + 1) {
                    self.next += 1;
                }
            }
        }
        Outcome::Found(self.steps.iter().map(|step| (self.own[step.line], step.submit)).collect())
    }
}

/// Looks for an order of the claims at the places `own`.
fn find(lines: &[Line], own: &[usize], placed: &mut [bool], left: &mut u64) -> Outcome {
    let (steps, waiting) = (Vec::new(), Vec::new());
    Search { lines, own, host: Kv::default(), line: 0, next: 0, steps, waiting, placed, failed: HashSet::new() }.run(left)
}

// ---- lines

fn refuses(number: usize, clause: u8) -> ! {
    println!("refuted line {number} clause {clause}");
    exit(8)
}

fn bytes_of(text: &str) -> Option<Vec<u8>> {
    if text == "-" {
        return Some(Vec::new());
    }
    let digit = |c: u8| match c {
        b'0'..=b'9' => Some(c - b'0'),
        b'a'..=b'f' => Some(c - b'a' + 10),
        _ => None,
    };
    if text.is_empty() || text.len() % 2 == 1 {
        return None;
    }
    text.as_bytes().chunks_exact(2).map(|pair| Some(digit(pair[0])? * 16 + digit(pair[1])?)).collect()
}

fn hex_of(bytes: &[u8], text: &mut String) {
    if bytes.is_empty() {
        text.push('-');
    }
    for byte in bytes {
        text.push(char::from_digit(u32::from(byte >> 4), 16).unwrap());
        text.push(char::from_digit(u32::from(byte & 15), 16).unwrap());
    }
}

fn claim_of(line: &str) -> Option<Claim> {
    let mut fields = line.split(' ');
    let (word, client, id, bytes) = (fields.next()?, fields.next()?, fields.next()?, bytes_of(fields.next()?)?);
    let pair = (client.strip_prefix('c')?.parse().ok().filter(|it| *it < 16)?, id.parse().ok().filter(|it| *it > 0)?);
    match (word, fields.next()) {
        ("submit", None) if bytes.len() <= 640 => Some(Claim::Submit(pair, bytes)),
        ("accept", None) if bytes.len() <= 257 => Some(Claim::Accept(pair, bytes)),
        _ => None,
    }
}

fn put_line(word: &str, claim: &Claim, text: &mut String) {
    let (Claim::Submit((client, id), bytes) | Claim::Accept((client, id), bytes)) = claim;
    text.push_str(&format!("{word} c{client} {id} "));
    hex_of(bytes, text);
    text.push('\n');
}

/// The claims, or the first line that is refused.
fn read(input: &str) -> Vec<Line> {
    let (mut lines, mut ended) = (Vec::new(), false);
    for (at, line) in input.split_inclusive('\n').enumerate() {
        let number = at + 1;
        let Some(line) = line.strip_suffix('\n') else { refuses(number, 2) };
        match line.split(' ').next().unwrap_or("") {
            _ if line.len() > 4096 => refuses(number, 1),
            _ if ended => refuses(number, 2),
            "transcript" if at == 0 => {}
            "submit" | "accept" if at > 0 => match claim_of(line) {
                Some(claim) => lines.push(Line { claim, number, other: None }),
                None => refuses(number, 2),
            },
            "busy" | "send" | "dead" | "replica" | "entry" | "history" if at > 0 => {}
            "end" if at > 0 => ended = true,
            _ => refuses(number, 2),
        }
    }
    if !ended {
        refuses(input.split_inclusive('\n').count() + 1, 2);
    }
    lines
}

/// Says of each claim which other one has its client and id.
fn pair_up(lines: &mut [Line]) {
    let mut submitted: HashMap<Pair, usize> = HashMap::new();
    for at in 0..lines.len() {
        let number = lines[at].number;
        match lines[at].claim {
            Claim::Submit(pair, _) => match submitted.entry(pair) {
                Entry::Occupied(_) => {
                    println!("repeated line {number}");
                    exit(9)
                }
                Entry::Vacant(it) => drop(it.insert(at)),
            },
            Claim::Accept(pair, _) => match submitted.get(&pair) {
                Some(&submit) if lines[submit].other.is_none() => {
                    lines[submit].other = Some(at);
                    lines[at].other = Some(submit);
                }
                _ => refuses(number, 5),
            },
        }
    }
}

/// The places of the claims of each part, and the part; one part where there are more than the service has room for.
fn parts_of(lines: &[Line]) -> Vec<(Vec<u8>, Vec<usize>)> {
    let (mut parts, mut numbers): (Vec<(Vec<u8>, Vec<usize>)>, HashMap<&[u8], usize>) = (Vec::new(), HashMap::new());
    let mut part_at: Vec<usize> = Vec::new();
    for (at, line) in lines.iter().enumerate() {
        let part = match (&line.claim, line.other) {
            (Claim::Submit(_, op), _) => *numbers.entry(key_of(op)).or_insert_with_key(|key| {
                parts.push((key.to_vec(), Vec::new()));
                parts.len() - 1
            }),
            (Claim::Accept(..), submit) => part_at[submit.unwrap()],
        };
        part_at.push(part);
        parts[part].1.push(at);
    }
    if parts.len() > 4096 {
        return vec![(Vec::new(), (0..lines.len()).collect())];
    }
    parts
}

fn main() {
    let words: Vec<String> = std::env::args().skip(1).collect();
    let most: u64 = match &words[..] {
        [] => 100_000_000,
        [option, most] if option == "--most" && most.parse::<u64>().is_ok() => most.parse().unwrap(),
        _ => {
            println!("usage: plain [--most STEPS] < HISTORY");
            exit(2)
        }
    };
    let mut input = String::new();
    std::io::stdin().read_to_string(&mut input).unwrap();
    let mut lines = read(&input);
    pair_up(&mut lines);
    let (mut left, mut placed, mut order) = (most, vec![false; lines.len()], Vec::new());
    for (part, own) in parts_of(&lines) {
        match find(&lines, &own, &mut placed, &mut left) {
            Outcome::Found(mut steps) => order.append(&mut steps),
            Outcome::Nothing(claim) => {
                let mut hex = String::new();
                hex_of(&part, &mut hex);
                println!("none part {hex} line {}", lines[claim].number);
                exit(8)
            }
            Outcome::Spent => {
                println!("unknown steps {most}");
                exit(9)
            }
        }
    }
    // no two parts place before one claim, and those of one part are in their order
    order.sort_by_key(|(line, _)| *line);
    let mut text = String::from("transcript 1 replicas 1 sequencers 1 clients 16\n");
    for line in &lines {
        put_line(if matches!(line.claim, Claim::Submit(..)) { "submit" } else { "accept" }, &line.claim, &mut text);
    }
    for (at, (_, submit)) in order.iter().enumerate() {
        put_line(&format!("history {}", at + 1), &lines[*submit].claim, &mut text);
    }
    text.push_str("end\n");
    std::io::stdout().write_all(text.as_bytes()).unwrap();
}
