// What `requests.py` compiles: a server that echoes lines, with one lock round a list of records as large as those of refheap, and workers that accept
// clients as its do, or with a new thread for each client; and the clients that ask a server, each waiting for each reply.
//   requests echo PATH WORKERS   serves until it is killed; with 0 workers each client gets a thread of its own
//   requests ask PATH CLIENTS N  prints the seconds that CLIENTS clients took for N requests each
use std::io::{Read, Write};
use std::os::unix::net::{UnixListener, UnixStream};
use std::sync::{Arc, Mutex};
use std::thread;
use std::time::Instant;

struct Records {
    entries: Vec<[u8; 112]>,
}

fn serve(mut stream: UnixStream, records: Arc<Mutex<Records>>) {
    let mut bytes = [0u8; 4096];
    while let Ok(count) = stream.read(&mut bytes) {
        if count == 0 {
            return;
        }
        {
            let mut records = records.lock().unwrap();
            if records.entries.len() >= 10_000 {
                records.entries.clear();
            }
            records.entries.push([bytes[0]; 112]);
        }
        if stream.write_all(&bytes[..count]).is_err() {
            return;
        }
    }
}

fn echo(path: &str, workers: usize) {
    let records = Arc::new(Mutex::new(Records {
        entries: Vec::with_capacity(10_240),
    }));
    let listener = UnixListener::bind(path).unwrap();
    thread::scope(|scope| {
        for _ in 0..workers {
            scope.spawn(|| {
                for stream in listener.incoming() {
                    serve(stream.unwrap(), records.clone());
                }
            });
        }
        if workers == 0 {
            for stream in listener.incoming() {
                let records = records.clone();
                thread::spawn(move || serve(stream.unwrap(), records));
            }
        }
    });
}

fn client(path: &str, requests: usize) {
    let mut stream = UnixStream::connect(path).unwrap();
    let mut bytes = [0u8; 64];
    for _ in 0..requests {
        stream.write_all(b"same 0 0\n").unwrap();
        assert!(stream.read(&mut bytes).unwrap() > 0);
    }
}

fn ask(path: &str, clients: usize, requests: usize) {
    let start = Instant::now();
    let threads: Vec<_> = (0..clients)
        .map(|_| {
            let path = path.to_owned();
            thread::spawn(move || client(&path, requests))
        })
        .collect();
    for thread in threads {
        thread.join().unwrap();
    }
    println!("{}", start.elapsed().as_secs_f64());
}

fn main() {
    let words: Vec<String> = std::env::args().collect();
    match words[1].as_str() {
        "echo" => echo(&words[2], words[3].parse().unwrap()),
        _ => ask(&words[2], words[3].parse().unwrap(), words[4].parse().unwrap()),
    }
}
