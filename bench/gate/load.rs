//! Load on a server of the Redis protocol: connections that each send some requests at once, and wait for all replies.
//!
//!     load PORT set|get|getat|wait CONNECTIONS PIPELINE SECONDS
//!
//! `set` puts one of 1,000 keys of 3 bytes a value of 3 bytes, `get` gets one, `getat` reads one at an observer, `wait` puts one and has a
//! replica confirm it (`WAIT 1 0`). It prints how many puts or gets were answered a second, the median time of a round in microseconds, and
//! the time of which one in a hundred is longer.
use std::io::{Read, Write};
use std::net::TcpStream;
use std::time::{Duration, Instant};

fn request(kind: &str, key: usize) -> Vec<u8> {
    let key = format!("{:03}", key % 1000);
    match kind {
        "get" => format!("*2\r\n$3\r\nGET\r\n$3\r\n{key}\r\n"),
        "getat" => format!("*2\r\n$5\r\nGETAT\r\n$3\r\n{key}\r\n"),
        "set" => format!("*3\r\n$3\r\nSET\r\n$3\r\n{key}\r\n$3\r\nxyz\r\n"),
        _ => format!("*3\r\n$3\r\nSET\r\n$3\r\n{key}\r\n$3\r\nxyz\r\n*3\r\n$4\r\nWAIT\r\n$1\r\n1\r\n$1\r\n0\r\n"),
    }
    .into_bytes()
}

/// How many lines end the replies to a request: of a value two.
fn lines(kind: &str) -> usize {
    if kind == "set" { 1 } else { 2 }
}

fn user(port: u16, kind: &str, pipeline: usize, until: Instant, seed: usize) -> Vec<u64> {
    let mut stream = TcpStream::connect(("127.0.0.1", port)).expect("a connection");
    stream.set_nodelay(true).expect("no delay");
    let mut times = Vec::new();
    let mut key = seed * 7919;
    let mut buf = [0u8; 65536];
    while Instant::now() < until {
        let mut bytes = Vec::new();
        for _ in 0..pipeline {
            key = key.wrapping_mul(1103515245).wrapping_add(12345) % 2147483648;
            bytes.extend(request(kind, key / 65536));
        }
        let began = Instant::now();
        stream.write_all(&bytes).expect("a write");
        let mut left = pipeline * lines(kind);
        while left > 0 {
            let count = stream.read(&mut buf).expect("a reply");
            assert!(count > 0, "the server left");
            assert!(!buf[..count].contains(&b'-'), "{}", String::from_utf8_lossy(&buf[..count]));
            left -= buf[..count].iter().filter(|b| **b == b'\n').count();
        }
        times.push(began.elapsed().as_micros() as u64);
    }
    times
}

fn main() {
    let words: Vec<String> = std::env::args().collect();
    let port: u16 = words[1].parse().unwrap();
    let kind = words[2].clone();
    let (connections, pipeline): (usize, usize) = (words[3].parse().unwrap(), words[4].parse().unwrap());
    let seconds: f64 = words[5].parse().unwrap();
    let began = Instant::now();
    let until = began + Duration::from_secs_f64(seconds);
    let users: Vec<_> = (0..connections)
        .map(|i| {
            let kind = kind.clone();
            std::thread::Builder::new()
                .stack_size(262144)
                .spawn(move || user(port, &kind, pipeline, until, i + 1))
                .unwrap()
        })
        .collect();
    let mut times: Vec<u64> = users.into_iter().flat_map(|u| u.join().unwrap()).collect();
    let took = began.elapsed().as_secs_f64();
    times.sort_unstable();
    let rounds = times.len().max(1);
    println!(
        "{kind} connections {connections} pipeline {pipeline}: {:.0} a second, median {} us, 99 % {} us",
        (times.len() * pipeline) as f64 / took,
        times.get(rounds / 2).unwrap_or(&0),
        times.get(rounds * 99 / 100).unwrap_or(&0)
    );
}
