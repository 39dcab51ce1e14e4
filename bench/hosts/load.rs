// Clients for bench/hosts.sh, in one process: some of its own, which submit ops one after the other over UDP and count replies as
// docs/PROTOCOL.md says, and the program's. All ops and answers are written to a transcript for kv_linearize. std alone: rustc -O load.rs
//
//   load LIST TRANSCRIPT CLIENTS KEYS VALUE RATE OPS PUTS
//
// CLIENTS of its own (1 to 15) have the places from c0 on of the list of hosts LIST. Each submits ops at KEYS keys, with values of VALUE bytes,
// of which all differ; RATE in a second at most, all clients together (0: each as soon as the one before is answered), OPS in all (0: until
// it is told to end). Of 100 ops PUTS are puts, the others gets, with some compare-and-sets and deletes among them where PUTS is below 100.
// Standard input tells it, a line each:
//
//   mark NAME                 the time until an op that is submitted from now on is accepted: `mark NAME SECONDS`, once that is so
//   gap                       the longest time since the last gap in which nothing was accepted: `gap SECONDS`, at once
//   client PROGRAM N OPS..    runs the program's client N, which has ops that are not in use elsewhere: `client N STATUS SECONDS`
//   end                       no op is submitted any more, and the end of input says the same
//
// In the end each key is read. `all ..` tells of all ops; the status is 1 where one was not accepted within 20 s of the end.
use std::collections::HashMap;
use std::fs::File;
use std::io::{BufRead, BufReader, BufWriter, Write};
use std::net::{SocketAddr, UdpSocket};
use std::process::{exit, Command, Stdio};
use std::sync::atomic::{AtomicBool, AtomicU64, Ordering::Relaxed};
use std::sync::{Arc, Mutex};
use std::time::{Duration, Instant};

// The place at which the program's clients are in the transcript.
const PROGRAMS: usize = 15;

struct Site {
    replicas: Vec<SocketAddr>,
    sequencers: Vec<SocketAddr>,
    places: HashMap<usize, SocketAddr>,
    list: String,
}

struct Mark {
    name: String,
    at: Instant,
}

// What is written down, in the order of time.
struct Record {
    lines: BufWriter<File>,
    marks: Vec<Mark>,
    last: Instant,
    gap: Duration,
    waits: Vec<u32>,
    submitted: u64,
    accepted: u64,
    programs: u64,
}

struct Load {
    site: Site,
    record: Mutex<Record>,
    ends: AtomicBool,
    // no op waits for an answer any more
    gives_up: AtomicBool,
    taken: AtomicU64,
    retries: AtomicU64,
    ops: u64,
    keys: u64,
    value: usize,
    puts: u64,
    pause: Duration,
}

#[derive(Clone)]
struct Reply {
    view: (u32, u64),
    slot: u32,
    result: Option<Vec<u8>>,
}

fn number(bytes: &[u8]) -> u64 {
    bytes.iter().fold(0, |n, b| n << 8 | u64::from(*b))
}

fn hex(bytes: &[u8]) -> String {
    bytes.iter().map(|b| format!("{b:02x}")).collect()
}

fn read_site(path: &str) -> Site {
    let text = std::fs::read_to_string(path).expect("the list");
    let mut at: HashMap<&str, SocketAddr> = HashMap::new();
    for line in text.lines() {
        if let [name, address] = line.split_whitespace().collect::<Vec<_>>()[..] {
            if let Ok(address) = address.parse() {
                at.insert(name, address);
            }
        }
    }
    let all = |letter: char| (0..).map_while(|i| at.get(format!("{letter}{i}").as_str()).copied()).collect::<Vec<_>>();
    Site {
        replicas: all('r'),
        sequencers: all('s'),
        places: (0..16).filter_map(|i| Some((i, *at.get(format!("c{i}").as_str())?))).collect(),
        list: path.to_string(),
    }
}

impl Record {
    fn submit(&mut self, client: usize, id: u64, op: &[u8]) {
        self.submitted += 1;
        writeln!(self.lines, "submit c{client} {id} {}", hex(op)).expect("the transcript");
    }

    fn accept(&mut self, client: usize, id: u64, result: &str, began: Instant) {
        let now = Instant::now();
        self.accepted += 1;
        self.gap = self.gap.max(now - self.last);
        self.last = now;
        writeln!(self.lines, "accept c{client} {id} {result}").expect("the transcript");
        self.marks.retain(|mark| {
            if mark.at <= began {
                println!("mark {} {:.3}", mark.name, (now - mark.at).as_secs_f64());
            }
            mark.at > began
        });
    }
}

// A reply of a replica to this client's request.
fn reply(bytes: &[u8], client: usize, id: u64) -> Option<(usize, Reply)> {
    if bytes.len() < 36 || bytes[..4] != *b"NO\x03\x03" {
        return None;
    }
    if number(&bytes[21..25]) != client as u64 || number(&bytes[25..33]) != id {
        return None;
    }
    let view = (number(&bytes[5..9]) as u32, number(&bytes[9..17]));
    let result = (bytes[33] == 1).then(|| bytes[36..].to_vec());
    Some((bytes[4] as usize, Reply { view, slot: number(&bytes[17..21]) as u32, result }))
}

// The result, where f + 1 replicas replied for one slot of one view and the leader is one of them.
fn accepted(kept: &[Option<Reply>], last: &Reply) -> Option<Vec<u8>> {
    let same = |r: &&Reply| r.view == last.view && r.slot == last.slot;
    let count = kept.iter().flatten().filter(same).count();
    let leader = kept[last.view.0 as usize % kept.len()].as_ref().filter(same)?;
    if count > kept.len() / 2 { leader.result.clone() } else { None }
}

fn with_length(bytes: &[u8]) -> Vec<u8> {
    [&(bytes.len() as u16).to_be_bytes(), bytes].concat()
}

fn key_of(key: u64) -> Vec<u8> {
    with_length(format!("k{key}").as_bytes())
}

// The next op of a client: which one it is, its number says, by a mixed up copy of it.
fn op_of(load: &Load, client: usize, id: u64) -> Vec<u8> {
    let drawn = (id * 16 + client as u64).wrapping_mul(0x9e37_79b9_7f4a_7c15) >> 20;
    let key = key_of(drawn / 100 % load.keys);
    let mut value = format!("{client}.{id}.").into_bytes();
    value.resize(load.value.max(value.len()), b'v');
    let kind = drawn % 100;
    if kind < load.puts {
        [b"P", &key[..], &with_length(&value)].concat()
    } else if kind < load.puts + (100 - load.puts) / 8 {
        [b"D", &key[..]].concat()
    } else if kind < load.puts + (100 - load.puts) / 4 {
        let old = format!("{client}.{}.", id - 1).into_bytes();
        [b"C", &key[..], &with_length(&old), &with_length(&value)].concat()
    } else {
        [b"G", &key[..]].concat()
    }
}

// Submits an op, and waits for its answer. Whether there was one.
fn ask(load: &Load, socket: &UdpSocket, client: usize, id: u64, op: &[u8]) -> bool {
    let sent = [b"NO\x03\x01", &(client as u32).to_be_bytes()[..], &id.to_be_bytes(), &with_length(op)].concat();
    let mut bytes = [0u8; 2048];
    let mut kept: Vec<Option<Reply>> = vec![None; load.site.replicas.len()];
    let began = {
        let mut record = load.record.lock().expect("a lock");
        record.submit(client, id, op);
        Instant::now()
    };
    loop {
        for sequencer in &load.site.sequencers {
            let _ = socket.send_to(&sent, sequencer);
        }
        let until = Instant::now() + Duration::from_millis(200);
        while let Some(left) = until.checked_duration_since(Instant::now()) {
            let _ = socket.set_read_timeout(Some(left.max(Duration::from_millis(1))));
            let Ok((len, from)) = socket.recv_from(&mut bytes) else { break };
            let Some((replica, r)) = reply(&bytes[..len], client, id) else { continue };
            if load.site.replicas.get(replica) != Some(&from) {
                continue;
            }
            kept[replica] = Some(r.clone());
            if let Some(result) = accepted(&kept, &r) {
                let mut record = load.record.lock().expect("a lock");
                record.accept(client, id, &hex(&result), began);
                record.waits.push(began.elapsed().as_micros().min(u128::from(u32::MAX)) as u32);
                return true;
            }
        }
        load.retries.fetch_add(1, Relaxed);
        if load.gives_up.load(Relaxed) {
            return false;
        }
    }
}

// A client: how many of its ops were not accepted. The first one reads all keys in the end.
fn run(load: &Load, client: usize, clients: usize) -> u64 {
    let socket = UdpSocket::bind(load.site.places[&client]).expect("the address of a place");
    let mut due = Instant::now() + load.pause.mul_f64(client as f64 / clients as f64);
    let mut id = 0;
    while !load.ends.load(Relaxed) && (load.ops == 0 || load.taken.fetch_add(1, Relaxed) < load.ops) {
        std::thread::sleep(due.saturating_duration_since(Instant::now()));
        due = due.max(Instant::now()) + load.pause;
        id += 1;
        if !ask(load, &socket, client, id, &op_of(load, client, id)) {
            return 1;
        }
    }
    if client == 0 {
        for key in 0..load.keys {
            id += 1;
            if !ask(load, &socket, client, id, &[b"G", &key_of(key)[..]].concat()) {
                return 1;
            }
        }
    }
    0
}

fn bytes_of(text: &str) -> Vec<u8> {
    (0..text.len() / 2).map(|i| u8::from_str_radix(&text[2 * i..2 * i + 2], 16).expect("digits")).collect()
}

// The program's client of this number. Its ops are submitted at the latest when it starts, as the transcript has them.
fn run_program(load: &Load, program: &str, name: &str, ops: &[String]) {
    let began = Instant::now();
    let first = {
        let mut record = load.record.lock().expect("a lock");
        let first = record.programs;
        for (i, op) in ops.iter().enumerate() {
            record.submit(PROGRAMS, first + 1 + i as u64, &bytes_of(op));
        }
        record.programs += ops.len() as u64;
        first
    };
    let mut child = Command::new(program).args([&load.site.list, name]).args(ops).stdout(Stdio::piped()).spawn().expect("the program");
    for line in BufReader::new(child.stdout.take().expect("a pipe")).lines().map_while(Result::ok) {
        if let ["accept", _, id, result] = line.split(' ').collect::<Vec<_>>()[..] {
            let id: u64 = id.parse().expect("a number");
            load.record.lock().expect("a lock").accept(PROGRAMS, first + id, result, began);
        }
    }
    let status = child.wait().expect("the program ends").code().unwrap_or(-1);
    println!("client {name} {status} {:.3}", began.elapsed().as_secs_f64());
}

fn heeds(load: &Arc<Load>, line: &str, running: &mut Vec<std::thread::JoinHandle<()>>) {
    let words: Vec<String> = line.split_whitespace().map(str::to_string).collect();
    match words.first().map(String::as_str) {
        Some("mark") => {
            load.record.lock().expect("a lock").marks.push(Mark { name: words[1].clone(), at: Instant::now() });
        }
        Some("gap") => {
            let mut record = load.record.lock().expect("a lock");
            let now = Instant::now();
            println!("gap {:.3}", record.gap.max(now - record.last).as_secs_f64());
            (record.gap, record.last) = (Duration::ZERO, now);
        }
        Some("client") => {
            let load = load.clone();
            running.push(std::thread::spawn(move || run_program(&load, &words[1], &words[2], &words[3..])));
        }
        _ => load.ends.store(true, Relaxed),
    }
}

fn main() {
    let args: Vec<String> = std::env::args().skip(1).collect();
    let [list, transcript, clients, keys, value, rate, ops, puts] = &args[..] else {
        panic!("load LIST TRANSCRIPT CLIENTS KEYS VALUE RATE OPS PUTS");
    };
    let of = |text: &String| text.parse::<u64>().expect("a number");
    let (clients, rate) = (of(clients) as usize, of(rate));
    let mut lines = BufWriter::new(File::create(transcript).expect("the transcript"));
    writeln!(lines, "transcript 1 replicas 1 sequencers 1 clients 16").expect("the transcript");
    let began = Instant::now();
    let load = Arc::new(Load {
        site: read_site(list),
        record: Mutex::new(Record {
            lines,
            marks: Vec::new(),
            last: began,
            gap: Duration::ZERO,
            waits: Vec::new(),
            submitted: 0,
            accepted: 0,
            programs: 0,
        }),
        ends: AtomicBool::new(false),
        gives_up: AtomicBool::new(false),
        taken: AtomicU64::new(0),
        retries: AtomicU64::new(0),
        ops: of(ops),
        keys: of(keys),
        value: of(value) as usize,
        puts: of(puts),
        pause: if rate == 0 { Duration::ZERO } else { Duration::from_secs_f64(clients as f64 / rate as f64) },
    });
    let threads: Vec<_> = (0..clients)
        .map(|c| {
            let load = load.clone();
            std::thread::spawn(move || run(&load, c, clients))
        })
        .collect();
    let told = load.clone();
    let reader = std::thread::spawn(move || {
        let mut running = Vec::new();
        for line in std::io::stdin().lines().map_while(Result::ok) {
            heeds(&told, &line, &mut running);
            if told.ends.load(Relaxed) {
                break;
            }
        }
        told.ends.store(true, Relaxed);
        for one in running {
            let _ = one.join();
        }
    });
    // With a number of ops it ends by itself, and else it is told to.
    let mut until: Option<Instant> = None;
    while !(threads.iter().all(|t| t.is_finished()) && (load.ops > 0 || reader.is_finished())) {
        std::thread::sleep(Duration::from_millis(5));
        if load.ends.load(Relaxed) && Instant::now() > *until.get_or_insert(Instant::now() + Duration::from_secs(20)) {
            load.gives_up.store(true, Relaxed);
        }
    }
    let open: u64 = threads.into_iter().map(|t| t.join().expect("a client")).sum();
    let mut record = load.record.lock().expect("a lock");
    writeln!(record.lines, "end").expect("the transcript");
    record.lines.flush().expect("the transcript");
    record.waits.sort_unstable();
    let at = |part: usize| record.waits.get((record.waits.len() * part / 1000).min(record.waits.len().saturating_sub(1))).copied().unwrap_or(0);
    println!(
        "all submitted {} accepted {} open {open} retries {} seconds {:.2} median_us {} p99_us {} p999_us {} longest_us {}",
        record.submitted,
        record.accepted,
        load.retries.load(Relaxed),
        began.elapsed().as_secs_f64(),
        at(500),
        at(990),
        at(999),
        at(1000)
    );
    exit(i32::from(open > 0));
}
