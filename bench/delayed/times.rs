// Clients of bench/delayed.sh and bench/traced.sh, one process after the other: times their lines as they come, also those of a trace. std
// alone: rustc -O times.rs
//
//   times PROGRAM CLIENTS OPS WORDS..
//
// Client c, from 0, is `PROGRAM client --id c WORDS..` with OPS puts at a key of its own. A put waits from the moment when its `submit` line
// is read to that when its `accept` line is; a client takes from its first `submit` line to its last `accept` line, so that starts and
// ends of processes are not counted. The line tells the puts in all, the puts in a second of these times together, those after the first
// eight of each client in a second of what is left then, and the median, the 99th of a hundred and the longest wait in microseconds. The
// status is 1 where a put was not answered, or not as it should be: the first `none`, and each other one with a value that was put.
use std::collections::HashMap;
use std::io::{BufRead, BufReader};
use std::process::{exit, Command, Stdio};
use std::time::{Duration, Instant};

// The puts of a client that open its window.
const FIRST: usize = 8;

// What the clients did: each wait, the times that they took, those after their first puts, and how many answers are wrong.
#[derive(Default)]
struct Told {
    waits: Vec<Duration>,
    took: Duration,
    later: usize,
    later_took: Duration,
    wrong: usize,
}

fn op(client: usize, value: usize) -> String {
    format!("500002{client:04x}0002{value:04x}")
}

fn run(program: &str, client: usize, ops: usize, words: &[String], told: &mut Told) {
    let mut command = Command::new(program);
    command.args(["client", "--id", &client.to_string()]).args(words);
    command.args((1..=ops).map(|value| op(client, value)));
    let mut child = command.stdout(Stdio::piped()).spawn().expect("the program starts");
    let lines = BufReader::new(child.stdout.take().expect("a pipe")).lines();
    let mut open: HashMap<String, Instant> = HashMap::new();
    let (mut began, mut accepted) = (None, Vec::new());
    for line in lines.map_while(Result::ok) {
        let now = Instant::now();
        let fields: Vec<&str> = line.split(' ').collect();
        match fields[..] {
            ["submit", _, id, _] | ["out", _, "submit", id, _] => {
                began.get_or_insert(now);
                open.insert(id.to_string(), now);
            }
            ["accept", _, id, result] | ["out", _, "accept", id, result] => {
                accepted.push(now);
                match open.remove(id) {
                    Some(submitted) => told.waits.push(now - submitted),
                    None => told.wrong += 1,
                }
                told.wrong += usize::from(result != "6e6f6e65" && !result.starts_with("3d"));
            }
            _ => {}
        }
    }
    let done = child.wait().expect("the program ends").success();
    told.wrong += usize::from(!done || accepted.len() != ops);
    if let (Some(began), Some(ended)) = (began, accepted.last()) {
        told.took += *ended - began;
        if let Some(opened) = accepted.get(FIRST - 1) {
            told.later += accepted.len() - FIRST;
            told.later_took += *ended - *opened;
        }
    }
}

fn main() {
    let args: Vec<String> = std::env::args().skip(1).collect();
    let [program, clients, ops, words @ ..] = &args[..] else {
        panic!("times PROGRAM CLIENTS OPS WORDS..");
    };
    let (clients, ops) = (clients.parse().expect("a number"), ops.parse().expect("a number"));
    let mut told = Told::default();
    for client in 0..clients {
        run(program, client, ops, words, &mut told);
    }
    told.waits.sort_unstable();
    let at = |part: usize| told.waits.get((told.waits.len() * part / 100).min(told.waits.len().saturating_sub(1))).map_or(0, |w| w.as_micros());
    let rate = |count: usize, took: Duration| if took.is_zero() { 0.0 } else { count as f64 / took.as_secs_f64() };
    println!(
        "puts {} puts_per_second {:.0} after_the_first {:.0} wait_us_median {} wait_us_99 {} longest_wait_us {} wrong {}",
        told.waits.len(),
        rate(told.waits.len(), told.took),
        rate(told.later, told.later_took),
        at(50),
        at(99),
        at(100),
        told.wrong
    );
    exit(i32::from(told.wrong > 0 || told.waits.is_empty()));
}
