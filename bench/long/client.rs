// Clients of one process for bench/long.sh and bench/bursts.sh: each puts values at its own keys, one put after the other, over UDP at the loopback
// address, and counts the replies as docs/PROTOCOL.md says. std alone: rustc -O client.rs
//
//   client BASE REPLICAS SEQUENCERS CLIENTS PUTS KEYS VALUE RATE
//
// PUTS in all, at KEYS keys in all, with values of VALUE bytes, at most RATE in a second (0: each as soon as the one before is answered). Each answer has to be what the client's last put at that key wrote,
// or `none`. After every 10,000 puts a line tells how many were answered, the seconds so far, the puts a second since the line
// before, and the longest wait for an answer since then, in milliseconds. The last line tells of all, of the last view, and of the median wait.
use std::net::UdpSocket;
use std::sync::atomic::{AtomicBool, AtomicU64, Ordering};
use std::sync::{Arc, Mutex};
use std::time::{Duration, Instant};

struct Site {
    base: u16,
    replicas: usize,
    sequencers: u16,
    clients: u64,
    keys: u64,
    value: usize,
    // from one put of a client to its next at least
    pause: Duration,
}

#[derive(Default)]
struct Counts {
    answered: AtomicU64,
    taken: AtomicU64,
    retries: AtomicU64,
    wrong: AtomicU64,
    // microseconds, since the last line and in all
    longest: AtomicU64,
    longest_of_all: AtomicU64,
    waits: Mutex<Vec<u32>>,
    // the greatest session of an accepted reply, and its leader number
    view: Mutex<(u64, u32)>,
    given_up: AtomicBool,
}

#[derive(Clone)]
struct Reply {
    view: (u32, u64),
    slot: u32,
    result: Option<Vec<u8>>,
}

fn number(bytes: &[u8]) -> u64 {
    bytes.iter().fold(0, |n, b| n << 8 | u64::from(*b))
}

// A reply of a replica to this client's request.
fn reply(bytes: &[u8], client: u32, id: u64) -> Option<(usize, Reply)> {
    if bytes.len() < 36 || bytes[..4] != *b"NO\x03\x03" {
        return None;
    }
    if number(&bytes[21..25]) != u64::from(client) || number(&bytes[25..33]) != id {
        return None;
    }
    let view = (number(&bytes[5..9]) as u32, number(&bytes[9..17]));
    let result = (bytes[33] == 1).then(|| bytes[36..].to_vec());
    Some((bytes[4] as usize, Reply { view, slot: number(&bytes[17..21]) as u32, result }))
}

// The result, where f + 1 replicas replied for one slot of one view and the leader is one of them.
fn accepted(kept: &[Option<Reply>], last: &Reply) -> Option<Vec<u8>> {
    let same = |r: &&Reply| r.view == last.view && r.slot == last.slot;
    let count = kept.iter().flatten().filter(same).count();
    let leader = kept[last.view.0 as usize % kept.len()].as_ref().filter(same)?;
    if count > kept.len() / 2 { leader.result.clone() } else { None }
}

fn request(client: u32, id: u64, key: u64, value: &[u8]) -> Vec<u8> {
    let mut op = vec![0x50, 0, 8];
    op.extend(key.to_be_bytes());
    op.extend((value.len() as u16).to_be_bytes());
    op.extend(value);
    let mut bytes = b"NO\x03\x01".to_vec();
    bytes.extend(client.to_be_bytes());
    bytes.extend(id.to_be_bytes());
    bytes.extend((op.len() as u16).to_be_bytes());
    bytes.extend(op);
    bytes
}

fn run(site: &Site, client: u32, puts: u64, counts: &Counts) {
    let socket = UdpSocket::bind(("127.0.0.1", site.base + 16 + client as u16)).expect("a port");
    let own = site.keys / site.clients + u64::from(u64::from(client) < site.keys % site.clients);
    let mut values: Vec<Option<Vec<u8>>> = vec![None; own.max(1) as usize];
    let mut bytes = [0u8; 2048];
    let mut waits = Vec::new();
    let mut id = 0;
    // not all clients at once
    let mut due = Instant::now() + site.pause.mul_f64(client as f64 / site.clients as f64);
    while counts.taken.fetch_add(1, Ordering::Relaxed) < puts {
        id += 1;
        let place = (id % values.len() as u64) as usize;
        let key = u64::from(client) << 32 | place as u64;
        let mut value = vec![b'v'; site.value];
        for (to, from) in value.iter_mut().zip(id.to_be_bytes().iter().rev()) {
            *to = *from;
        }
        let sent = request(client, id, key, &value);
        std::thread::sleep(due.saturating_duration_since(Instant::now()));
        let began = Instant::now();
        due = due.max(began) + site.pause;
        let mut kept: Vec<Option<Reply>> = vec![None; site.replicas];
        let result = 'answer: loop {
            for j in 0..site.sequencers {
                let _ = socket.send_to(&sent, ("127.0.0.1", site.base + 8 + j));
            }
            let until = Instant::now() + Duration::from_millis(200);
            while let Some(left) = until.checked_duration_since(Instant::now()) {
                let _ = socket.set_read_timeout(Some(left.max(Duration::from_millis(1))));
                let Ok(len) = socket.recv(&mut bytes) else { break };
                let Some((replica, r)) = reply(&bytes[..len], client, id) else { continue };
                if replica >= site.replicas {
                    continue;
                }
                kept[replica] = Some(r.clone());
                if let Some(result) = accepted(&kept, &r) {
                    let mut view = counts.view.lock().expect("a lock");
                    *view = (*view).max((r.view.1, r.view.0));
                    break 'answer result;
                }
            }
            counts.retries.fetch_add(1, Ordering::Relaxed);
            if began.elapsed() > Duration::from_secs(60) {
                counts.given_up.store(true, Ordering::Relaxed);
                return;
            }
        };
        let waited = began.elapsed().as_micros() as u64;
        waits.push(waited.min(u64::from(u32::MAX)) as u32);
        counts.longest.fetch_max(waited, Ordering::Relaxed);
        counts.longest_of_all.fetch_max(waited, Ordering::Relaxed);
        let wanted = match &values[place] {
            None => b"none".to_vec(),
            Some(old) => [b"=", old.as_slice()].concat(),
        };
        if result != wanted {
            counts.wrong.fetch_add(1, Ordering::Relaxed);
        }
        values[place] = Some(value);
        counts.answered.fetch_add(1, Ordering::Relaxed);
    }
    counts.waits.lock().expect("a lock").extend(waits);
}

fn main() {
    let args: Vec<u64> = std::env::args().skip(1).map(|a| a.parse().expect("a number")).collect();
    let [base, replicas, sequencers, clients, puts, keys, value, rate] = args[..] else {
        panic!("client BASE REPLICAS SEQUENCERS CLIENTS PUTS KEYS VALUE RATE");
    };
    let site = Arc::new(Site {
        base: base as u16,
        replicas: replicas as usize,
        sequencers: sequencers as u16,
        clients,
        keys,
        value: value as usize,
        pause: if rate == 0 { Duration::ZERO } else { Duration::from_secs_f64(clients as f64 / rate as f64) },
    });
    let counts = Arc::new(Counts::default());
    let began = Instant::now();
    let told = Mutex::new((0u64, 0f64));
    let tell = |answered: u64| {
        let mut last = told.lock().expect("a lock");
        let seconds = began.elapsed().as_secs_f64();
        let rate = (answered - last.0) as f64 / (seconds - last.1);
        let longest = counts.longest.swap(0, Ordering::Relaxed) / 1000;
        println!("puts {answered} seconds {seconds:.1} puts_per_second {rate:.0} longest_wait_ms {longest}");
        *last = (answered, seconds);
    };
    let threads: Vec<_> = (0..clients as u32)
        .map(|c| {
            let (site, counts) = (site.clone(), counts.clone());
            std::thread::spawn(move || run(&site, c, puts, &counts))
        })
        .collect();
    let mut next = 10_000;
    while threads.iter().any(|t| !t.is_finished()) {
        std::thread::sleep(Duration::from_millis(2));
        let answered = counts.answered.load(Ordering::Relaxed);
        if answered >= next {
            tell(answered);
            next = answered - answered % 10_000 + 10_000;
        }
    }
    let answered = counts.answered.load(Ordering::Relaxed);
    let (session, leader_number) = *counts.view.lock().expect("a lock");
    let mut waits = counts.waits.lock().expect("a lock");
    waits.sort_unstable();
    let median = waits.get(waits.len() / 2).copied().unwrap_or(0);
    println!(
        "all answered {answered} wrong {} retries {} longest_wait_ms {} seconds {:.1} leader_number {leader_number} session {session} \
         median_wait_us {median}",
        counts.wrong.load(Ordering::Relaxed),
        counts.retries.load(Ordering::Relaxed),
        counts.longest_of_all.load(Ordering::Relaxed) / 1000,
        began.elapsed().as_secs_f64()
    );
    let failed = answered != puts || counts.wrong.load(Ordering::Relaxed) > 0 || counts.given_up.load(Ordering::Relaxed);
    std::process::exit(i32::from(failed));
}
