// What `latency.py` compiles: a client that builds a heap and then times its own requests, while other clients do something else.
//   latency PATH SHAPE CELLS REQUESTS OTHERS COUNT
// SHAPE is chain, graph or arrays; OTHERS is none, garbage, gc, same, vanish or tables, done by COUNT clients without a pause. Prints the microseconds
// of the median, of 99 and 99.9 in a hundred, and of the longest of the requests.
use std::io::{Read, Write};
use std::os::unix::net::UnixStream;
use std::sync::Arc;
use std::sync::atomic::{AtomicBool, Ordering};
use std::thread;
use std::time::Instant;

const BATCH: usize = 100;
const ARRAY: usize = 4096;

struct Client {
    stream: UnixStream,
    waiting: Vec<String>,
}

impl Client {
    fn new(path: &str) -> Client {
        Client { stream: UnixStream::connect(path).unwrap(), waiting: Vec::new() }
    }

    fn ask(&mut self, line: &str) -> String {
        let told = self.told(line);
        assert!(!told.is_empty() && !told.starts_with('!'), "{}: {}", line, told);
        told
    }

    // the reply, which may be a refusal
    fn told(&mut self, line: &str) -> String {
        self.stream.write_all(line.as_bytes()).unwrap();
        let mut bytes = [0u8; 512];
        let count = self.stream.read(&mut bytes).unwrap();
        String::from_utf8_lossy(&bytes[..count]).into_owned()
    }

    // asks a line without waiting for its reply, which is not looked at
    fn later(&mut self, line: String) {
        self.waiting.push(line);
        if self.waiting.len() == BATCH {
            self.flush();
        }
    }

    fn flush(&mut self) {
        self.stream.write_all(self.waiting.concat().as_bytes()).unwrap();
        let mut lines = 0;
        let mut bytes = [0u8; 4096];
        while lines < self.waiting.len() {
            let count = self.stream.read(&mut bytes).unwrap();
            lines += bytes[..count].iter().filter(|byte| **byte == b'\n').count();
        }
        self.waiting.clear();
    }
}

// each object holds the one before, and handle 1 the last
fn chain(client: &mut Client, objects: usize) {
    client.later("new r\n".into());
    for _ in 1..objects {
        for line in ["new r\n", "put 2 0 1\n", "drop 1\n", "dup 2\n", "drop 2\n"] {
            client.later(line.into());
        }
    }
}

// arrays in handles 1 to 8 hold objects, each of which leads to two of those before it
fn graph(client: &mut Client, objects: usize) {
    let mut seed = 1u64;
    let mut random = |below: usize| {
        seed = seed.wrapping_mul(6364136223846793005).wrapping_add(1442695040888963407);
        (seed >> 33) as usize % below
    };
    let arrays = objects.div_ceil(ARRAY);
    for _ in 0..arrays {
        client.later(format!("array {ARRAY}\n"));
    }
    let object = arrays + 1;
    for number in 0..objects {
        client.later("new rr\n".into());
        for field in 0..2 {
            if number > 0 {
                let other = random(number);
                client.later(format!("get {} {}\n", 1 + other / ARRAY, other % ARRAY));
                client.later(format!("put {object} {field} {}\n", object + 1));
                client.later(format!("drop {}\n", object + 1));
            }
        }
        client.later(format!("put {} {} {object}\n", 1 + number / ARRAY, number % ARRAY));
        client.later(format!("drop {object}\n"));
    }
}

// an array in handle 1 holds arrays
fn arrays(client: &mut Client, count: usize) {
    client.later(format!("array {ARRAY}\n"));
    for number in 0..count {
        client.later(format!("array {ARRAY}\n"));
        client.later(format!("put 1 {number} 2\n"));
        client.later("drop 2\n".into());
    }
}

// fills the tables of handles, of names, and of files and sockets, until each refuses more, and empties them
fn tables(client: &mut Client) {
    while client.told("queue\n").starts_with('=') {}
    for handle in 2..=250 {
        client.ask(&format!("drop {handle}\n"));
    }
    for number in 0..260 {
        client.told(&format!("bind n{number} 1\n"));
    }
    for number in 0..256 {
        client.ask(&format!("unbind n{number}\n"));
    }
    let mut opened = 0;
    while client.told("open r /etc/passwd\n").starts_with('=') {
        opened += 1;
    }
    for handle in 2..2 + opened {
        client.ask(&format!("close {handle}\n"));
        client.ask(&format!("drop {handle}\n"));
    }
    client.ask("drop 1\n");
}

// goes while it waits in `remove`
fn vanish(path: &str, ends: &AtomicBool) {
    while !ends.load(Ordering::Relaxed) {
        let mut client = Client::new(path);
        client.ask("queue\n");
        client.stream.write_all(b"remove 1\n").unwrap();
    }
}

fn other(path: &str, what: &str, ends: &AtomicBool) {
    if what == "vanish" {
        return vanish(path, ends);
    }
    let mut client = Client::new(path);
    while !ends.load(Ordering::Relaxed) {
        match what {
            "garbage" => {
                let made = client.ask("new r\n");
                client.ask(&format!("drop {}", &made[2..]));
            }
            "gc" => {
                client.ask("gc\n");
            }
            "tables" => tables(&mut client),
            _ => {
                client.ask("same 0 0\n");
            }
        }
    }
}

fn timed(client: &mut Client, requests: usize) -> Vec<u64> {
    let mut times = Vec::with_capacity(requests);
    for _ in 0..requests / 2 {
        let begin = Instant::now();
        let made = client.ask("new rr\n");
        let middle = Instant::now();
        client.ask(&format!("drop {}", &made[2..]));
        times.push((middle - begin).as_nanos() as u64);
        times.push(middle.elapsed().as_nanos() as u64);
    }
    times.sort();
    times
}

fn main() {
    let words: Vec<String> = std::env::args().collect();
    let number = |at: usize| words[at].parse::<usize>().unwrap();
    let (path, cells, requests) = (words[1].clone(), number(3), number(4));
    let mut client = Client::new(&path);
    match words[2].as_str() {
        "chain" => chain(&mut client, cells / 8 * 5),
        "graph" => graph(&mut client, cells / 8 * 5),
        _ => arrays(&mut client, 1000),
    }
    client.flush();
    let ends = Arc::new(AtomicBool::new(false));
    let others: Vec<_> = (0..if words[5] == "none" { 0 } else { number(6) })
        .map(|_| {
            let (path, what, ends) = (path.clone(), words[5].clone(), ends.clone());
            thread::spawn(move || other(&path, &what, &ends))
        })
        .collect();
    timed(&mut client, requests / 10);
    let times = timed(&mut client, requests);
    ends.store(true, Ordering::Relaxed);
    for thread in others {
        thread.join().unwrap();
    }
    let at = |share: f64| times[((times.len() - 1) as f64 * share) as usize] as f64 / 1000.0;
    println!("{:.1} {:.1} {:.1} {:.1}", at(0.5), at(0.99), at(0.999), at(1.0));
}
