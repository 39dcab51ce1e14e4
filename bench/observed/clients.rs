// Clients of one process for bench/observed.sh: some put values at keys of their own, others read these keys of observers, over UDP at the
// loopback address; what was asked and answered goes to standard output, for judge.py. std alone: rustc -O clients.rs
//
//   clients BASE REPLICAS SEQUENCERS OBSERVERS WRITERS READERS KEYS PAUSE UNTIL
//
// Writer w has the client number w, and keys 0 to KEYS - 1 of its own; its put number i, from 1, is at key i mod KEYS, with a value
// that spells w and i. Each put waits for its answer, and begins PAUSE microseconds or more after the one before. It is sent again
// after 200 ms. Reader r has the client number WRITERS + r, and asks observer r mod OBSERVERS for one key after the other, drawn from
// those of all writers and from one more of each that nobody writes. Where the file UNTIL is there, no more puts are begun; one without
// an answer five seconds later is given up. The readers go on for a second after that.
//
//   put WRITER NUMBER BEGAN ENDED SENT SESSION SLOT BEFORE       microseconds; ENDED, SESSION, SLOT and BEFORE are - where no answer came
//   read OBSERVER READER BEGAN ENDED POSITION WRITER KEY NUMBER  BEFORE and NUMBER are those of the puts whose values came, 0 for none
//                                                                and `bad` for what no put writes
//
// All times are from the start of this process. SENT tells how often the put was sent, to all sequencers each time.
use std::net::UdpSocket;
use std::path::Path;
use std::sync::atomic::{AtomicU64, Ordering};
use std::time::{Duration, Instant};

#[derive(Clone)]
struct Site {
    began: Instant,
    base: u16,
    replicas: usize,
    sequencers: u16,
    observers: u16,
    writers: u32,
    readers: u32,
    keys: u64,
    pause: Duration,
    until: String,
}

#[derive(Clone, PartialEq)]
struct Reply {
    leader: u32,
    session: u64,
    slot: u32,
    result: Option<Vec<u8>>,
}

static WRITING: AtomicU64 = AtomicU64::new(0);

impl Site {
    fn now(&self) -> u64 {
        self.began.elapsed().as_micros() as u64
    }

    fn ends(&self) -> bool {
        Path::new(&self.until).exists()
    }

    fn socket(&self, client: u32) -> UdpSocket {
        UdpSocket::bind(("127.0.0.1", self.base + 16 + (client % 16) as u16)).expect("a port")
    }
}

fn number(bytes: &[u8]) -> u64 {
    bytes.iter().fold(0, |n, b| n << 8 | u64::from(*b))
}

fn key(writer: u32, place: u64) -> Vec<u8> {
    format!("{writer}/{place}").into_bytes()
}

// 20 to 319 bytes, so that logs take several fragments.
fn value(writer: u32, put: u64) -> Vec<u8> {
    let mut text = format!("{writer} {put} ").into_bytes();
    let length = 20 + (put * 37 + u64::from(writer) * 11) % 237;
    text.resize(length as usize, b'a' + (put % 26) as u8);
    text
}

// The put whose value a result has.
fn put_of(writer: u32, result: &[u8]) -> String {
    if result == b"none" {
        return "0".into();
    }
    let text = String::from_utf8_lossy(result);
    let put = text.split(' ').nth(1).and_then(|word| word.parse::<u64>().ok());
    match put {
        Some(put) if result[0] == b'=' && result[1..] == value(writer, put) => put.to_string(),
        _ => "bad".into(),
    }
}

// What comes within the time, until it is taken.
fn until<T>(socket: &UdpSocket, time: Duration, mut take: impl FnMut(&[u8]) -> Option<T>) -> Option<T> {
    let mut bytes = [0u8; 2048];
    let due = Instant::now() + time;
    while let Some(left) = due.checked_duration_since(Instant::now()) {
        let _ = socket.set_read_timeout(Some(left.max(Duration::from_millis(1))));
        let Ok(len) = socket.recv(&mut bytes) else { continue };
        if let Some(taken) = take(&bytes[..len]) {
            return Some(taken);
        }
    }
    None
}

fn reply(bytes: &[u8], client: u32, id: u64) -> Option<(usize, Reply)> {
    if bytes.len() < 36 || bytes[..4] != *b"NO\x03\x03" || number(&bytes[21..25]) != u64::from(client) || number(&bytes[25..33]) != id {
        return None;
    }
    let result = (bytes[33] == 1).then(|| bytes[36..].to_vec());
    let (leader, session, slot) = (number(&bytes[5..9]) as u32, number(&bytes[9..17]), number(&bytes[17..21]) as u32);
    Some((bytes[4] as usize, Reply { leader, session, slot, result }))
}

// Where f + 1 replicas, the leader among them, replied for one slot of one view: the leader's reply.
fn accepted(kept: &[Option<Reply>], last: &Reply) -> Option<Reply> {
    let same = |r: &&Reply| (r.leader, r.session, r.slot) == (last.leader, last.session, last.slot);
    let of_leader = kept[last.leader as usize % kept.len()].as_ref().filter(same)?;
    let many = kept.iter().flatten().filter(same).count() > kept.len() / 2;
    (many && of_leader.result.is_some()).then(|| of_leader.clone())
}

fn writes(site: &Site, writer: u32) -> Vec<String> {
    let socket = site.socket(writer);
    let mut lines = Vec::new();
    let mut put = 0;
    let mut due = Instant::now();
    while !site.ends() {
        std::thread::sleep(due.saturating_duration_since(Instant::now()));
        due = Instant::now() + site.pause;
        put += 1;
        let mut op = vec![b'P'];
        for part in [key(writer, put % site.keys), value(writer, put)] {
            op.extend((part.len() as u16).to_be_bytes());
            op.extend(part);
        }
        let mut request = b"NO\x03\x01".to_vec();
        request.extend(writer.to_be_bytes());
        request.extend(put.to_be_bytes());
        request.extend((op.len() as u16).to_be_bytes());
        request.extend(op);
        let mut kept: Vec<Option<Reply>> = vec![None; site.replicas];
        let (began, mut sent, mut found, mut ending) = (site.now(), 0, None, None);
        while found.is_none() {
            if ending.is_none() && site.ends() {
                ending = Some(Instant::now());
            }
            if ending.is_some_and(|since: Instant| since.elapsed() > Duration::from_secs(5)) {
                break;
            }
            for j in 0..site.sequencers {
                let _ = socket.send_to(&request, ("127.0.0.1", site.base + 8 + j));
            }
            sent += 1;
            found = until(&socket, Duration::from_millis(200), |bytes| {
                let (replica, r) = reply(bytes, writer, put).filter(|(replica, _)| *replica < site.replicas)?;
                kept[replica] = Some(r.clone());
                accepted(&kept, &r)
            });
        }
        match found {
            Some(r) => {
                let before = put_of(writer, &r.result.expect("a result"));
                lines.push(format!("put {writer} {put} {began} {} {sent} {} {} {before}", site.now(), r.session, r.slot));
            }
            None => lines.push(format!("put {writer} {put} {began} - {sent} - - -")),
        }
    }
    WRITING.fetch_sub(1, Ordering::SeqCst);
    lines
}

fn reads(site: &Site, reader: u32) -> Vec<String> {
    let client = site.writers + reader;
    let observer = (reader % u32::from(site.observers)) as u16;
    let socket = site.socket(client);
    let mut lines = Vec::new();
    let mut drawn = u64::from(reader) + 1;
    let mut id = 0u64;
    let mut ended: Option<Instant> = None;
    loop {
        if ended.is_none() && WRITING.load(Ordering::SeqCst) == 0 {
            ended = Some(Instant::now());
        }
        if ended.is_some_and(|since| since.elapsed() > Duration::from_secs(1)) {
            return lines;
        }
        drawn = drawn.wrapping_mul(6364136223846793005).wrapping_add(1442695040888963407);
        let (writer, place) = ((drawn >> 33) % u64::from(site.writers), (drawn >> 43) % (site.keys + 1));
        let asked_for = key(writer as u32, place);
        id += 1;
        let mut read = b"NO\x03\x09".to_vec();
        read.extend(client.to_be_bytes());
        read.extend(id.to_be_bytes());
        read.extend((asked_for.len() as u16).to_be_bytes());
        read.extend(asked_for);
        let began = site.now();
        let _ = socket.send_to(&read, ("127.0.0.1", site.base + 32 + observer));
        // Where none came within 200 ms, another read is asked; an answer to the first is too late then.
        let answer = until(&socket, Duration::from_millis(200), |bytes| {
            let of_this = bytes.len() >= 23 && bytes[..4] == *b"NO\x03\x0a" && u16::from(bytes[4]) == observer;
            let right = of_this && number(&bytes[9..13]) == u64::from(client) && number(&bytes[13..21]) == id;
            right.then(|| (number(&bytes[5..9]), put_of(writer as u32, &bytes[23..])))
        });
        if let Some((position, put)) = answer {
            lines.push(format!("read {observer} {reader} {began} {} {position} {writer} {place} {put}", site.now()));
        }
        std::thread::sleep(site.pause);
    }
}

fn main() {
    let args: Vec<String> = std::env::args().skip(1).collect();
    let [base, replicas, sequencers, observers, writers, readers, keys, pause, until] = &args[..] else {
        panic!("clients BASE REPLICAS SEQUENCERS OBSERVERS WRITERS READERS KEYS PAUSE UNTIL");
    };
    let n = |text: &String| text.parse::<u64>().expect("a number");
    let site = Site {
        began: Instant::now(),
        base: n(base) as u16,
        replicas: n(replicas) as usize,
        sequencers: n(sequencers) as u16,
        observers: n(observers) as u16,
        writers: n(writers) as u32,
        readers: n(readers) as u32,
        keys: n(keys),
        pause: Duration::from_micros(n(pause)),
        until: until.clone(),
    };
    WRITING.store(u64::from(site.writers), Ordering::SeqCst);
    let threads: Vec<_> = (0..site.writers + site.readers)
        .map(|i| {
            let site = site.clone();
            std::thread::spawn(move || if i < site.writers { writes(&site, i) } else { reads(&site, i - site.writers) })
        })
        .collect();
    for thread in threads {
        for line in thread.join().expect("a client") {
            println!("{line}");
        }
    }
}
