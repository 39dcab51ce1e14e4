// Clients of one process for bench/reads.sh: each asks one observer for one key again and again, over UDP at the loopback address, until a file
// is there, and judges what it is answered. std alone: rustc -O client.rs
//
//   client BASE OBSERVERS READERS FIRST UNTIL
//
// Reader k, from 0, has the client number FIRST + k, and asks observer k mod OBSERVERS for the first key of the first client of
// bench/long/client.rs, whose values count up. It asks for the next time when it is answered, and again after 200 ms.
// The answers are wrong where a position of an observer falls, where an answer at a greater position has an older value, or where two at
// one position differ. The line tells how many were answered, and how long they waited.
use std::collections::BTreeMap;
use std::net::UdpSocket;
use std::path::Path;
use std::time::{Duration, Instant};

// What a reader saw: the waits in microseconds, the reads that were sent again, how often a position fell, and the value at each position.
#[derive(Default)]
struct Seen {
    waits: Vec<u64>,
    retries: u64,
    fallen: u64,
    values: BTreeMap<u64, u64>,
    wrong: u64,
}

fn number(bytes: &[u8]) -> u64 {
    bytes.iter().fold(0, |n, b| n << 8 | u64::from(*b))
}

// The value that a result has: its first eight bytes, the lowest in front; 0 where there is none.
fn value(result: &[u8]) -> Option<u64> {
    match result {
        b"none" => Some(0),
        [b'=', value @ ..] => Some(value.iter().take(8).rev().fold(0, |n, b| n << 8 | u64::from(*b))),
        _ => None,
    }
}

fn run(base: u16, observer: u8, client: u32, until: &Path) -> Seen {
    let socket = UdpSocket::bind(("127.0.0.1", base + 16 + (client % 16) as u16)).expect("a port");
    let mut seen = Seen::default();
    let mut bytes = [0u8; 2048];
    let mut last = 0;
    let mut id = 0u64;
    while !until.exists() {
        id += 1;
        let mut asked = b"NO\x03\x09".to_vec();
        asked.extend(client.to_be_bytes());
        asked.extend(id.to_be_bytes());
        asked.extend([0, 8]);
        asked.extend([0; 8]);
        let began = Instant::now();
        'answer: loop {
            let _ = socket.send_to(&asked, ("127.0.0.1", base + 32 + u16::from(observer)));
            let due = Instant::now() + Duration::from_millis(200);
            while let Some(left) = due.checked_duration_since(Instant::now()) {
                let _ = socket.set_read_timeout(Some(left.max(Duration::from_millis(1))));
                let Ok(len) = socket.recv(&mut bytes) else { break };
                let came = &bytes[..len];
                if len < 23 || came[..4] != *b"NO\x03\x0a" || came[4] != observer || number(&came[9..13]) != u64::from(client) || number(&came[13..21]) != id {
                    continue;
                }
                let position = number(&came[5..9]);
                seen.fallen += u64::from(position < last);
                last = last.max(position);
                match value(&came[23..]) {
                    Some(v) => seen.wrong += u64::from(seen.values.insert(position, v).is_some_and(|before| before != v)),
                    None => seen.wrong += 1,
                }
                break 'answer;
            }
            seen.retries += 1;
            if until.exists() {
                return seen;
            }
        }
        seen.waits.push(began.elapsed().as_micros() as u64);
    }
    seen
}

fn main() {
    let args: Vec<String> = std::env::args().skip(1).collect();
    let [base, observers, readers, first, until] = &args[..] else {
        panic!("client BASE OBSERVERS READERS FIRST UNTIL");
    };
    let n = |text: &String| text.parse::<u64>().expect("a number");
    let (base, observers, readers, first) = (n(base) as u16, n(observers), n(readers), n(first));
    let began = Instant::now();
    let threads: Vec<_> = (0..readers)
        .map(|k| {
            let until = until.clone();
            std::thread::spawn(move || run(base, (k % observers) as u8, (first + k) as u32, Path::new(&until)))
        })
        .collect();
    let mut all = Seen::default();
    for thread in threads {
        let seen = thread.join().expect("a reader");
        all.waits.extend(seen.waits);
        all.retries += seen.retries;
        all.fallen += seen.fallen;
        all.wrong += seen.wrong;
        for (position, v) in seen.values {
            all.wrong += u64::from(all.values.insert(position, v).is_some_and(|before| before != v));
        }
    }
    let seconds = began.elapsed().as_secs_f64();
    // of all observers, since a value at a position is that of the one history
    let ascends = all.values.values().zip(all.values.values().skip(1)).all(|(a, b)| a <= b);
    all.waits.sort_unstable();
    let at = |part: usize| all.waits.get(all.waits.len() * part / 100).copied().unwrap_or(0);
    let (position, newest) = all.values.last_key_value().map_or((0, 0), |(p, v)| (*p, *v));
    println!(
        "reads {} reads_per_second {:.0} wait_us_median {} wait_us_99 {} retries {} positions {} last_position {position} value_there {newest} fallen {} wrong {}",
        all.waits.len(),
        all.waits.len() as f64 / seconds,
        at(50),
        at(99),
        all.retries,
        all.values.len(),
        all.fallen,
        all.wrong + u64::from(!ascends)
    );
    std::process::exit(i32::from(all.waits.is_empty() || all.fallen > 0 || all.wrong > 0 || !ascends));
}
