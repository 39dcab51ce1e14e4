// A client of one process for bench/shown.sh: it puts a value, and once that is accepted it asks an observer until this or a later one is
// shown; then the next, over UDP at the loopback address. std alone: rustc -O client.rs
//
//   client BASE REPLICAS SEQUENCERS OBSERVER CLIENT TIMES PAUSE
//
// CLIENT is its number; it asks under the number CLIENT + 1. A put comes up to PAUSE milliseconds after the one before was shown, each
// pause another one, so that it has no time of its own within a tenth of a second. A read is asked when the one before was answered, and
// after 20 ms again. The line tells after how many milliseconds, from the acceptance on, a value was shown; and how long after the start
// the first answer came whose position is above 0, and the first that shows a put. The status is 1 where a value was not shown within
// 60 s, or an answer was wrong: an older value than the one before, or a lower position.
use std::net::UdpSocket;
use std::time::{Duration, Instant};

struct Site {
    base: u16,
    replicas: usize,
    sequencers: u16,
    observer: u16,
    client: u32,
}

#[derive(Clone)]
struct Reply {
    at: (u32, u64, u32),
    first: bool,
}

fn number(bytes: &[u8]) -> u64 {
    bytes.iter().fold(0, |n, b| n << 8 | u64::from(*b))
}

// The front of a request of this kind: the client and its id.
fn front(kind: u8, client: u32, id: u64) -> Vec<u8> {
    let mut bytes = vec![b'N', b'O', 3, kind];
    bytes.extend(client.to_be_bytes());
    bytes.extend(id.to_be_bytes());
    bytes
}

fn sized(part: &[u8]) -> Vec<u8> {
    [&(part.len() as u16).to_be_bytes(), part].concat()
}

// What comes within the time.
fn comes(socket: &UdpSocket, due: Instant, bytes: &mut [u8]) -> Option<usize> {
    let left = due.checked_duration_since(Instant::now())?;
    let _ = socket.set_read_timeout(Some(left.max(Duration::from_millis(1))));
    socket.recv(bytes).ok()
}

// Puts the value, and waits until f + 1 replicas replied for one slot of one view, its leader among them.
fn put(site: &Site, socket: &UdpSocket, id: u64) {
    let op = [vec![b'P'], sized(&key(site)), sized(&id.to_be_bytes())].concat();
    let request = [front(1, site.client, id), sized(&op)].concat();
    let mut kept: Vec<Option<Reply>> = vec![None; site.replicas];
    let mut bytes = [0u8; 2048];
    loop {
        for j in 0..site.sequencers {
            let _ = socket.send_to(&request, ("127.0.0.1", site.base + 8 + j));
        }
        let due = Instant::now() + Duration::from_millis(200);
        while Instant::now() < due {
            let Some(len) = comes(socket, due, &mut bytes) else { continue };
            let b = &bytes[..len];
            if len < 36 || b[..4] != *b"NO\x03\x03" || number(&b[21..25]) != u64::from(site.client) || number(&b[25..33]) != id {
                continue;
            }
            let at = (number(&b[5..9]) as u32, number(&b[9..17]), number(&b[17..21]) as u32);
            let Some(place) = kept.get_mut(usize::from(b[4])) else { continue };
            *place = Some(Reply { at, first: b[33] == 1 });
            let same = |r: &&Reply| r.at == at;
            let led = kept[at.0 as usize % site.replicas].as_ref().filter(same).is_some_and(|r| r.first);
            if led && kept.iter().flatten().filter(same).count() > site.replicas / 2 {
                return;
            }
        }
    }
}

fn key(site: &Site) -> Vec<u8> {
    format!("shown{}", site.client).into_bytes()
}

// The position and the value that the observer answers, None where nothing comes within 20 ms.
fn read(site: &Site, socket: &UdpSocket, id: u64) -> Option<(u64, u64)> {
    let asked = [front(9, site.client + 1, id), sized(&key(site))].concat();
    let _ = socket.send_to(&asked, ("127.0.0.1", site.base + 32 + site.observer));
    let mut bytes = [0u8; 2048];
    let due = Instant::now() + Duration::from_millis(20);
    while Instant::now() < due {
        let Some(len) = comes(socket, due, &mut bytes) else { continue };
        let b = &bytes[..len];
        if len < 23 || b[..4] != *b"NO\x03\x0a" || number(&b[9..13]) != u64::from(site.client + 1) || number(&b[13..21]) != id {
            continue;
        }
        let result = &b[23..];
        return Some((number(&b[5..9]), if result.first() == Some(&b'=') { number(&result[1..]) } else { 0 }));
    }
    None
}

fn main() {
    let began = Instant::now();
    let args: Vec<u64> = std::env::args().skip(1).map(|a| a.parse().expect("a number")).collect();
    let [base, replicas, sequencers, observer, client, times, pause] = args[..] else {
        panic!("client BASE REPLICAS SEQUENCERS OBSERVER CLIENT TIMES PAUSE");
    };
    let site = Site { base: base as u16, replicas: replicas as usize, sequencers: sequencers as u16, observer: observer as u16, client: client as u32 };
    let bind = |client: u32| UdpSocket::bind(("127.0.0.1", site.base + 16 + (client % 16) as u16)).expect("a port");
    let (puts, reads) = (bind(site.client), bind(site.client + 1));
    let (mut waits, mut wrong, mut id, mut last) = (Vec::new(), 0, 0, (0, 0));
    let (mut above, mut first) = (None, None);
    let mut drawn = 1u64;
    'times: for time in 1..=times {
        put(&site, &puts, time);
        let accepted = Instant::now();
        loop {
            id += 1;
            if let Some(found) = read(&site, &reads, id) {
                wrong += u64::from(found.0 < last.0 || found.1 < last.1);
                last = found;
                if found.0 > 0 {
                    above.get_or_insert(began.elapsed().as_millis());
                }
                if found.1 >= time {
                    first.get_or_insert(began.elapsed().as_millis());
                    break;
                }
            }
            if accepted.elapsed() > Duration::from_secs(60) {
                wrong += 1;
                break 'times;
            }
        }
        waits.push(accepted.elapsed().as_micros() as f64 / 1000.0);
        drawn = drawn.wrapping_mul(6364136223846793005).wrapping_add(1442695040888963407);
        std::thread::sleep(Duration::from_millis(if pause == 0 { 0 } else { (drawn >> 33) % pause }));
    }
    waits.sort_by(f64::total_cmp);
    let at = |part: usize| waits.get(waits.len() * part / 100).copied().unwrap_or(0.0);
    println!(
        "shown {} after_ms_median {:.1} after_ms_90 {:.1} after_ms_worst {:.1} first_position_ms {} first_shown_ms {} reads {id} wrong {wrong}",
        waits.len(),
        at(50),
        at(90),
        waits.last().copied().unwrap_or(0.0),
        above.unwrap_or(0),
        first.unwrap_or(0)
    );
    std::process::exit(i32::from(wrong > 0 || waits.len() as u64 != times));
}
