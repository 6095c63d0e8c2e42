// A session of the line protocol over a plain heap in ordinary Rust: no proof, no background collector, no cleaners, files or names.
// The yardstick of commands.py.
//
//     plain_session CELLS
//
// It answers each line of the standard input at once, by one write of one line, until one says `bye` or the input ends. A command of the
// protocol that it does not know is answered as a malformed line.
use std::collections::VecDeque;
use std::fmt;
use std::io::{self, BufRead, Write};

const HANDLES: usize = 251;
const FIELDS: usize = 8;
const SOFT_AGE: u64 = 4;

/// The refusals of the protocol, by their numbers.
#[derive(Clone, Copy)]
enum Refusal {
    HeapFull = 2,
    NoHandle = 3,
    HandlesFull = 4,
    WrongKind = 5,
    NoField = 6,
    WrongType = 7,
    Null = 8,
    Malformed = 15,
    WouldWait = 18,
}

enum Reply {
    Done,
    Handle(u8),
    Truth(bool),
    Int(i64),
    Stat(usize),
}

impl fmt::Display for Reply {
    fn fmt(&self, f: &mut fmt::Formatter<'_>) -> fmt::Result {
        match self {
            Reply::Done => f.write_str("ok"),
            Reply::Handle(handle) => write!(f, "= {handle}"),
            Reply::Truth(true) => f.write_str("yes"),
            Reply::Truth(false) => f.write_str("no"),
            Reply::Int(value) => write!(f, "int {value}"),
            Reply::Stat(objects) => write!(f, "stat {objects} 0 0 0 0"),
        }
    }
}

type Answer = Result<Reply, Refusal>;
type Slot = u32;

#[derive(Clone, Copy)]
enum Field {
    Ref(Option<Slot>),
    Int(i64),
}

#[derive(Clone, Copy, PartialEq)]
enum Strength {
    Soft,
    Weak,
    Phantom,
}

#[derive(Clone, Copy, PartialEq)]
enum State {
    Fresh,
    Pending,
    Queued,
    Removed,
}

struct Reference {
    strength: Strength,
    referent: Option<Slot>,
    queue: Option<Slot>,
    state: State,
    last_get: u64,
}

struct Plain {
    count: usize,
    fields: [Field; FIELDS],
}

enum Object {
    Plain(Plain),
    Reference(Reference),
    Queue(VecDeque<Slot>),
}

struct Heap {
    cells: Vec<Option<Object>>,
    marked: Vec<bool>,
    grey: Vec<Slot>,
    free: Vec<Slot>,
    handles: [Option<Slot>; HANDLES],
    pending: VecDeque<Slot>,
    collections: u64,
}

impl Heap {
    fn new(cells: u32) -> Heap {
        Heap {
            cells: (0..cells).map(|_| None).collect(),
            marked: vec![false; cells as usize],
            grey: Vec::with_capacity(cells as usize),
            free: (0..cells).rev().collect(),
            handles: [None; HANDLES],
            pending: VecDeque::new(),
            collections: 0,
        }
    }

    /// What a handle stands for; none for null.
    fn named(&self, handle: u8) -> Result<Option<Slot>, Refusal> {
        match self.handles.get(usize::from(handle)) {
            _ if handle == 0 => Ok(None),
            Some(Some(slot)) => Ok(Some(*slot)),
            _ => Err(Refusal::NoHandle),
        }
    }

    fn object(&self, handle: u8) -> Result<Slot, Refusal> {
        self.named(handle)?.ok_or(Refusal::Null)
    }

    fn plain(&mut self, slot: Slot) -> Result<&mut Plain, Refusal> {
        match &mut self.cells[slot as usize] {
            Some(Object::Plain(plain)) => Ok(plain),
            _ => Err(Refusal::WrongKind),
        }
    }

    fn reference(&mut self, slot: Slot) -> Result<&mut Reference, Refusal> {
        match &mut self.cells[slot as usize] {
            Some(Object::Reference(reference)) => Ok(reference),
            _ => Err(Refusal::WrongKind),
        }
    }

    fn queue(&mut self, slot: Slot) -> Result<&mut VecDeque<Slot>, Refusal> {
        match &mut self.cells[slot as usize] {
            Some(Object::Queue(members)) => Ok(members),
            _ => Err(Refusal::WrongKind),
        }
    }

    fn free_handle(&self) -> Result<usize, Refusal> {
        let free = self.handles[1..].iter().position(Option::is_none);
        free.map(|place| place + 1).ok_or(Refusal::HandlesFull)
    }

    /// The lowest free handle for an object, 0 for none.
    fn give(&mut self, target: Option<Slot>) -> Answer {
        let Some(slot) = target else {
            return Ok(Reply::Handle(0));
        };
        let handle = self.free_handle()?;
        self.handles[handle] = Some(slot);
        Ok(Reply::Handle(handle as u8))
    }

    fn make(&mut self, object: Object) -> Answer {
        let handle = self.free_handle()?;
        if self.free.is_empty() {
            self.collect(0);
        }
        let slot = self.free.pop().ok_or(Refusal::HeapFull)?;
        self.cells[slot as usize] = Some(object);
        self.handles[handle] = Some(slot);
        Ok(Reply::Handle(handle as u8))
    }

    fn field_of(&mut self, handle: u8, field: u8) -> Result<&mut Field, Refusal> {
        let slot = self.object(handle)?;
        self.plain(slot)?.field(field)
    }

    fn ref_field(&mut self, handle: u8, field: u8) -> Result<&mut Option<Slot>, Refusal> {
        match self.field_of(handle, field)? {
            Field::Ref(target) => Ok(target),
            Field::Int(_) => Err(Refusal::WrongType),
        }
    }

    fn int_field(&mut self, handle: u8, field: u8) -> Result<&mut i64, Refusal> {
        match self.field_of(handle, field)? {
            Field::Int(value) => Ok(value),
            Field::Ref(_) => Err(Refusal::WrongType),
        }
    }

    fn put(&mut self, handle: u8, field: u8, value: u8) -> Answer {
        self.named(handle)?;
        let target = self.named(value)?;
        *self.ref_field(handle, field)? = target;
        Ok(Reply::Done)
    }

    fn get(&mut self, handle: u8, field: u8) -> Answer {
        let target = *self.ref_field(handle, field)?;
        self.give(target)
    }

    fn set_int(&mut self, handle: u8, field: u8, value: i64) -> Answer {
        *self.int_field(handle, field)? = value;
        Ok(Reply::Done)
    }

    fn int(&mut self, handle: u8, field: u8) -> Answer {
        Ok(Reply::Int(*self.int_field(handle, field)?))
    }

    fn dup(&mut self, handle: u8) -> Answer {
        let slot = self.object(handle)?;
        self.give(Some(slot))
    }

    fn drop(&mut self, handle: u8) -> Answer {
        self.object(handle)?;
        self.handles[usize::from(handle)] = None;
        Ok(Reply::Done)
    }

    fn same(&self, left: u8, right: u8) -> Answer {
        Ok(Reply::Truth(self.named(left)? == self.named(right)?))
    }

    fn make_reference(&mut self, strength: Strength, referent: u8, queue: u8) -> Answer {
        self.named(referent)?;
        let queue = self.named(queue)?;
        let referent = Some(self.object(referent)?);
        if let Some(queue) = queue {
            self.queue(queue)?;
        }
        self.make(Object::Reference(Reference {
            strength,
            referent,
            queue,
            state: State::Fresh,
            last_get: self.collections,
        }))
    }

    fn deref(&mut self, handle: u8) -> Answer {
        let slot = self.object(handle)?;
        let now = self.collections;
        let reference = self.reference(slot)?;
        let target = match reference.strength {
            Strength::Phantom => None,
            Strength::Soft | Strength::Weak => reference.referent,
        };
        let answer = self.give(target)?;
        self.reference(slot)?.last_get = now;
        Ok(answer)
    }

    fn refers(&mut self, handle: u8, object: u8) -> Answer {
        self.named(handle)?;
        let target = self.named(object)?;
        let slot = self.object(handle)?;
        Ok(Reply::Truth(self.reference(slot)?.referent == target))
    }

    fn clear(&mut self, handle: u8) -> Answer {
        let slot = self.object(handle)?;
        self.reference(slot)?.referent = None;
        Ok(Reply::Done)
    }

    fn enqueue(&mut self, handle: u8) -> Answer {
        let slot = self.object(handle)?;
        let reference = self.reference(slot)?;
        reference.referent = None;
        let may = matches!(reference.state, State::Fresh | State::Pending);
        Ok(Reply::Truth(may && self.to_queue(slot)))
    }

    /// Puts a reference at the end of its queue, if it has one.
    fn to_queue(&mut self, slot: Slot) -> bool {
        let Some(Object::Reference(reference)) = &mut self.cells[slot as usize] else {
            return false;
        };
        let Some(queue) = reference.queue.take() else {
            return false;
        };
        reference.state = State::Queued;
        if let Some(Object::Queue(members)) = &mut self.cells[queue as usize] {
            members.push_back(slot);
        }
        true
    }

    fn enqueued(&mut self, handle: u8) -> Answer {
        let slot = self.object(handle)?;
        Ok(Reply::Truth(self.reference(slot)?.state == State::Queued))
    }

    fn poll(&mut self, handle: u8, waits: bool) -> Answer {
        let slot = self.object(handle)?;
        let Some(&front) = self.queue(slot)?.front() else {
            return if waits { Err(Refusal::WouldWait) } else { Ok(Reply::Handle(0)) };
        };
        let answer = self.give(Some(front))?;
        self.queue(slot)?.pop_front();
        self.reference(front)?.state = State::Removed;
        Ok(answer)
    }

    fn stat(&self) -> Answer {
        Ok(Reply::Stat(self.cells.len() - self.free.len()))
    }

    /// A full collection that keeps the soft references whose age is below this one.
    fn collect(&mut self, soft_age: u64) {
        self.marked.fill(false);
        for place in 0..HANDLES {
            self.shade(self.handles[place]);
        }
        for place in 0..self.pending.len() {
            self.shade(Some(self.pending[place]));
        }
        while let Some(slot) = self.grey.pop() {
            self.scan(slot, soft_age);
        }
        for slot in 0..self.cells.len() {
            if self.marked[slot] {
                self.cut_off(slot);
            } else if self.cells[slot].take().is_some() {
                self.free.push(slot as Slot);
            }
        }
        self.collections += 1;
    }

    fn shade(&mut self, target: Option<Slot>) {
        if let Some(slot) = target {
            if !self.marked[slot as usize] {
                self.marked[slot as usize] = true;
                self.grey.push(slot);
            }
        }
    }

    /// Marks what an object keeps.
    fn scan(&mut self, slot: Slot, soft_age: u64) {
        match &self.cells[slot as usize] {
            Some(Object::Plain(plain)) => {
                let (count, fields) = (plain.count, plain.fields);
                for field in &fields[..count] {
                    if let Field::Ref(target) = field {
                        self.shade(*target);
                    }
                }
            }
            Some(Object::Reference(reference)) => {
                let age = self.collections - reference.last_get;
                let is_kept = reference.strength == Strength::Soft && age < soft_age;
                let (queue, referent) = (reference.queue, reference.referent);
                self.shade(queue);
                if is_kept {
                    self.shade(referent);
                }
            }
            Some(Object::Queue(members)) => {
                let members: Vec<Slot> = members.iter().copied().collect();
                for member in members {
                    self.shade(Some(member));
                }
            }
            None => {}
        }
    }

    /// Clears a reference that stays and whose referent goes, and sets it aside for its queue.
    fn cut_off(&mut self, slot: usize) {
        let Some(Object::Reference(reference)) = &mut self.cells[slot] else {
            return;
        };
        let marked = &self.marked;
        if reference.referent.is_none_or(|referent| marked[referent as usize]) {
            return;
        }
        reference.referent = None;
        if reference.state == State::Fresh && reference.queue.is_some() {
            reference.state = State::Pending;
            self.pending.push_back(slot as Slot);
        }
    }

    /// Hands what a collection set aside over to its queues.
    fn settle(&mut self) {
        while let Some(slot) = self.pending.pop_front() {
            if let Some(Object::Reference(reference)) = &self.cells[slot as usize] {
                if reference.state == State::Pending {
                    self.to_queue(slot);
                }
            }
        }
    }
}

impl Plain {
    fn field(&mut self, field: u8) -> Result<&mut Field, Refusal> {
        let count = self.count;
        self.fields[..count].get_mut(usize::from(field)).ok_or(Refusal::NoField)
    }
}

/// A number in decimal without a leading zero.
fn number<N: std::str::FromStr>(word: &str) -> Result<N, Refusal> {
    let digits = word.as_bytes();
    let is_plain = digits.iter().all(u8::is_ascii_digit) && (digits.len() == 1 || digits[0] != b'0');
    if digits.is_empty() || !is_plain {
        return Err(Refusal::Malformed);
    }
    word.parse().map_err(|_| Refusal::Malformed)
}

fn integer(word: &str) -> Result<i64, Refusal> {
    match word.strip_prefix('-') {
        Some("0") => Err(Refusal::Malformed),
        Some(digits) => number::<u64>(digits).and_then(|_| word.parse().map_err(|_| Refusal::Malformed)),
        None => number(word),
    }
}

fn layout(word: &str) -> Result<Plain, Refusal> {
    let mut plain = Plain { count: 0, fields: [Field::Int(0); FIELDS] };
    if word == "-" {
        return Ok(plain);
    }
    if word.is_empty() || word.len() > FIELDS {
        return Err(Refusal::Malformed);
    }
    for (letter, field) in word.bytes().zip(&mut plain.fields) {
        *field = match letter {
            b'r' => Field::Ref(None),
            b'i' => Field::Int(0),
            _ => return Err(Refusal::Malformed),
        };
    }
    plain.count = word.len();
    Ok(plain)
}

fn answer(heap: &mut Heap, line: &str) -> Answer {
    let mut words = line.splitn(5, ' ');
    let fields = [words.next(), words.next(), words.next(), words.next(), words.next()];
    match fields {
        [Some("queue"), None, ..] => heap.make(Object::Queue(VecDeque::new())),
        [Some("stat"), None, ..] => heap.stat(),
        [Some("gc"), None, ..] => {
            heap.collect(SOFT_AGE);
            Ok(Reply::Done)
        }
        [Some("bye"), None, ..] => Ok(Reply::Done),
        [Some(word), Some(a), None, ..] => answer_to_one(heap, word, a),
        [Some(word), Some(a), Some(b), None, _] => answer_to_two(heap, word, a, b),
        [Some("put"), Some(a), Some(b), Some(c), None] => heap.put(number(a)?, number(b)?, number(c)?),
        [Some("setint"), Some(a), Some(b), Some(c), None] => heap.set_int(number(a)?, number(b)?, integer(c)?),
        _ => Err(Refusal::Malformed),
    }
}

fn answer_to_one(heap: &mut Heap, word: &str, a: &str) -> Answer {
    match word {
        "new" => {
            let plain = layout(a)?;
            heap.make(Object::Plain(plain))
        }
        "dup" => heap.dup(number(a)?),
        "drop" => heap.drop(number(a)?),
        "deref" => heap.deref(number(a)?),
        "clear" => heap.clear(number(a)?),
        "enqueue" => heap.enqueue(number(a)?),
        "enqueued" => heap.enqueued(number(a)?),
        "poll" => heap.poll(number(a)?, false),
        "remove" => heap.poll(number(a)?, true),
        "gc" if a == "soft" => {
            heap.collect(0);
            Ok(Reply::Done)
        }
        _ => Err(Refusal::Malformed),
    }
}

fn answer_to_two(heap: &mut Heap, word: &str, a: &str, b: &str) -> Answer {
    match word {
        "get" => heap.get(number(a)?, number(b)?),
        "int" => heap.int(number(a)?, number(b)?),
        "same" => heap.same(number(a)?, number(b)?),
        "soft" => heap.make_reference(Strength::Soft, number(a)?, number(b)?),
        "weak" => heap.make_reference(Strength::Weak, number(a)?, number(b)?),
        "phantom" => heap.make_reference(Strength::Phantom, number(a)?, number(b)?),
        "refers" => heap.refers(number(a)?, number(b)?),
        _ => Err(Refusal::Malformed),
    }
}

fn main() -> io::Result<()> {
    let cells = std::env::args().nth(1).and_then(|word| word.parse().ok()).unwrap_or(1024);
    let mut heap = Heap::new(cells);
    let mut input = io::stdin().lock();
    let mut output = io::stdout().lock();
    let mut line = String::new();
    let mut reply = Vec::new();
    loop {
        line.clear();
        if input.read_line(&mut line)? == 0 {
            return Ok(());
        }
        let command = line.trim_end_matches('\n');
        reply.clear();
        match answer(&mut heap, command) {
            Ok(answer) => writeln!(reply, "{answer}")?,
            Err(refusal) => writeln!(reply, "! {}", refusal as u8)?,
        }
        output.write_all(&reply)?;
        output.flush()?;
        heap.settle();
        if command == "bye" {
            return Ok(());
        }
    }
}
