//! A plain one-thread restart in Rust over OpenSSL's SHA-256: what a user would write by hand.
//! It is the peer that the product's speed is measured against, and the fast oracle for large logs.
//!
//! usage: peer restart LOG | peer hash LOG | peer chain LOG | peer gen OUT SHAPE SEED MIB
//! SHAPE: small (45 to 70 byte frames), kib (1 KiB payloads), big (60 KiB payloads), hot (one queue),
//!        names (many registrants); with error queues: wide (4,096 queues), errors (many moves); in version 2: deep (errors,
//!        with error queues up to eight deep), kills (deep, and a KILL in place of every tenth operation);
//!        even (256 queues of equal work), skew (256 queues, the first with half of all, the next largest eight apart),
//!        lone (skew, with CHECKPOINT records in place of what the others do), own (skew, without them), tree (256 queues
//!        as skew, each with an error queue), path (tree, with CHECKPOINT records in place of what the others do)
//! Build: rustc --edition 2024 -O -C target-cpu=native peer.rs -l crypto
use std::collections::{BTreeMap, BTreeSet, HashMap};
use std::fmt::Write as _;
use std::io::{BufWriter, Write};

unsafe extern "C" {
    fn SHA256(data: *const u8, len: usize, out: *mut u8) -> *mut u8;
}

fn sha256(data: &[u8]) -> [u8; 32] {
    let mut out = [0u8; 32];
    unsafe { SHA256(data.as_ptr(), data.len(), out.as_mut_ptr()) };
    out
}

fn u16_at(b: &[u8], at: usize) -> u16 { u16::from_be_bytes(b[at..at + 2].try_into().unwrap()) }
fn u32_at(b: &[u8], at: usize) -> u32 { u32::from_be_bytes(b[at..at + 4].try_into().unwrap()) }
fn u64_at(b: &[u8], at: usize) -> u64 { u64::from_be_bytes(b[at..at + 8].try_into().unwrap()) }

fn is_name(n: &[u8]) -> bool {
    (1..=64).contains(&n.len()) && n.iter().all(|c| matches!(c, b'a'..=b'z' | b'0'..=b'9' | b'-' | b'.' | b'_'))
}

#[derive(Clone, Copy)]
struct By<'a> { name: &'a [u8], tag: u64 }

enum Rec<'a> {
    Define { limit: u16, error: u32, name: &'a [u8] },
    Register(u32, &'a [u8]),
    Deregister(u32, &'a [u8]),
    Begin(u64),
    Enqueue { unit: u64, queue: u32, priority: u8, by: Option<By<'a>>, payload: &'a [u8] },
    Dequeue { unit: u64, queue: u32, by: Option<By<'a>> },
    Commit(u64),
    Abort(u64),
    Checkpoint,
    Kill(u32, u64),
}

fn decode(version: u8, b: &[u8]) -> Option<Rec<'_>> {
    let name_from = |at: usize| b.get(at..).filter(|n| is_name(n));
    Some(match *b.first()? {
        1 => Rec::Define { name: name_from(7)?, limit: u16_at(b, 1), error: u32_at(b, 3) },
        2 => Rec::Register(u32_at(b.get(..5)?, 1), name_from(5)?),
        3 => Rec::Deregister(u32_at(b.get(..5)?, 1), name_from(5)?),
        k @ (4 | 7 | 8) if b.len() == 9 => {
            let u = u64_at(b, 1);
            match k { 4 => Rec::Begin(u), 7 => Rec::Commit(u), _ => Rec::Abort(u) }
        }
        k @ (5 | 6) => {
            let at = if k == 5 { 14 } else { 13 };
            let size = *b.get(at)? as usize;
            let name = b.get(at + 1..at + 1 + size)?;
            let rest = &b[at + 1 + size..];
            if size > 64 || rest.len() < 8 || (size > 0 && !is_name(name)) { return None; }
            let (tag, payload) = (u64_at(rest, 0), &rest[8..]);
            if size == 0 && tag != 0 { return None; }
            let by = (size > 0).then_some(By { name, tag });
            let (unit, queue) = (u64_at(b, 1), u32_at(b, 9));
            if k == 5 {
                if payload.len() > 65_535 { return None; }
                Rec::Enqueue { unit, queue, priority: b[13], by, payload }
            } else {
                if !payload.is_empty() { return None; }
                Rec::Dequeue { unit, queue, by }
            }
        }
        9 => Rec::Checkpoint,
        10 if version == 2 && b.len() == 13 => Rec::Kill(u32_at(b, 1), u64_at(b, 5)),
        _ => return None,
    })
}

struct Element<'a> { origin: u32, attempts: u64, priority: u8, payload: &'a [u8] }
type Key = (u8, u64); // 255 - priority, id

#[derive(Clone, Copy)]
struct Last { place: u64, enqueue: bool, tag: u64, element: Option<u64> }

#[derive(Default)]
struct Unit<'a> {
    fresh: Vec<(u32, u64)>,
    held: Vec<(u32, Key)>,
    notes: Vec<(u32, &'a [u8], Last, u64)>, // the registration's number last
}

struct Queue<'a> { limit: u16, error: u32, name: &'a [u8], free: BTreeSet<Key> }

struct Machine<'a> {
    version: u8,
    next: u64, greatest: u64, committed: u64, aborted: u64,
    units: BTreeMap<u64, Unit<'a>>,
    queues: Vec<Queue<'a>>,
    names: HashMap<&'a [u8], u32>,
    registrants: BTreeMap<(u32, &'a [u8]), (u64, Option<Last>)>,
    elements: HashMap<u64, Element<'a>>,
}

impl<'a> Machine<'a> {
    fn lawful(&self, r: &Rec<'a>) -> bool {
        let count = self.queues.len() as u32;
        let named = |q: u32, by: &Option<By<'a>>| by.is_none_or(|b| self.registrants.contains_key(&(q, b.name)));
        match r {
            Rec::Define { limit, error, name } => {
                count < 4096 && !self.names.contains_key(name)
                    && if *limit == 0 { *error == u32::MAX } else { *limit <= 1000 && *error < count && (self.version == 2 || self.queues[*error as usize].error == u32::MAX) }
            }
            Rec::Register(q, _) => *q < count,
            Rec::Deregister(q, n) => self.registrants.contains_key(&(*q, *n)),
            Rec::Begin(u) => *u > self.greatest,
            Rec::Enqueue { unit, queue, by, .. } | Rec::Dequeue { unit, queue, by } => {
                self.units.contains_key(unit) && *queue < count && named(*queue, by)
            }
            Rec::Commit(u) | Rec::Abort(u) => self.units.contains_key(u),
            Rec::Checkpoint => true,
            Rec::Kill(q, _) => *q < count,
        }
    }

    fn step(&mut self, r: Rec<'a>) {
        let place = self.next;
        match r {
            Rec::Define { limit, error, name } => {
                self.names.insert(name, self.queues.len() as u32);
                self.queues.push(Queue { limit, error, name, free: BTreeSet::new() });
            }
            Rec::Register(q, n) => { self.registrants.entry((q, n)).or_insert((place, None)); }
            Rec::Deregister(q, n) => { self.registrants.remove(&(q, n)); }
            Rec::Begin(u) => { self.units.insert(u, Unit::default()); self.greatest = u; }
            Rec::Enqueue { unit, queue, priority, by, payload } => {
                self.elements.insert(place, Element { origin: queue, attempts: 0, priority, payload });
                let u = self.units.get_mut(&unit).unwrap();
                u.fresh.push((queue, place));
                if let Some(b) = by {
                    let since = self.registrants[&(queue, b.name)].0;
                    u.notes.push((queue, b.name, Last { place, enqueue: true, tag: b.tag, element: Some(place) }, since));
                }
            }
            Rec::Dequeue { unit, queue, by } => {
                let taken = self.queues[queue as usize].free.pop_first();
                let u = self.units.get_mut(&unit).unwrap();
                if let Some(key) = taken { u.held.push((queue, key)); }
                if let Some(b) = by {
                    let since = self.registrants[&(queue, b.name)].0;
                    u.notes.push((queue, b.name, Last { place, enqueue: false, tag: b.tag, element: taken.map(|k| k.1) }, since));
                }
            }
            Rec::Commit(u) => {
                let unit = self.units.remove(&u).unwrap();
                for (q, id) in unit.fresh { self.queues[q as usize].free.insert((255 - self.elements[&id].priority, id)); }
                for (_, key) in unit.held { self.elements.remove(&key.1); }
                for (q, n, last, since) in unit.notes {
                    if let Some(r) = self.registrants.get_mut(&(q, n)) && r.0 == since && r.1.is_none_or(|o| o.place < last.place) { r.1 = Some(last); }
                }
                self.committed += 1;
            }
            Rec::Abort(u) => {
                let unit = self.units.remove(&u).unwrap();
                for (_, id) in unit.fresh { self.elements.remove(&id); }
                for (q, key) in unit.held {
                    let e = self.elements.get_mut(&key.1).unwrap();
                    e.attempts += 1;
                    let queue = &self.queues[q as usize];
                    let home = if queue.limit > 0 && e.attempts == u64::from(queue.limit) { e.attempts = 0; queue.error } else { q };
                    self.queues[home as usize].free.insert(key);
                }
                self.aborted += 1;
            }
            Rec::Checkpoint => {}
            Rec::Kill(q, id) => {
                if let Some(e) = self.elements.get(&id) && self.queues[q as usize].free.remove(&(255 - e.priority, id)) { self.elements.remove(&id); }
            }
        }
        self.next += 1;
    }
}

fn header(version: u8) -> Vec<u8> {
    let mut h = b"RQLOG\0\0".to_vec();
    h.push(version);
    let d = sha256(&h);
    h.extend_from_slice(&d);
    h
}

fn restart(log: &[u8]) -> Option<String> {
    let version = (1..=2).find(|v| log.starts_with(&header(*v)))?;
    let mut m = Machine { version, next: 0, greatest: 0, committed: 0, aborted: 0, units: BTreeMap::new(), queues: Vec::new(),
        names: HashMap::new(), registrants: BTreeMap::new(), elements: HashMap::new() };
    let mut at = 40;
    let why = loop {
        let left = log.len() - at;
        if left == 0 { break "whole"; }
        if left < 4 { break "cut"; }
        let size = u32_at(log, at) as usize;
        if !(1..=268_435_456).contains(&size) { break "length"; }
        if left < 36 + size { break "cut"; }
        if sha256(&log[at - 32..at + 4 + size]) != log[at + 4 + size..at + 36 + size] { break "chain"; }
        let Some(r) = decode(version, &log[at + 4..at + 4 + size]) else { break "form" };
        if !m.lawful(&r) { break "law"; }
        m.step(r);
        at += 36 + size;
    };
    let mut out = String::new();
    writeln!(out, "front {} records, {} of {} bytes, {}", m.next, at, log.len(), why).unwrap();
    writeln!(out, "units {} committed, {} aborted, {} cut off", m.committed, m.aborted, m.units.len()).unwrap();
    for u in m.units.keys().copied().collect::<Vec<_>>() { m.step(Rec::Abort(u)); }
    const HEX: &[u8; 16] = b"0123456789abcdef";
    for (number, q) in m.queues.iter().enumerate() {
        write!(out, "queue {} {} limit {} error ", number, std::str::from_utf8(q.name).unwrap(), q.limit).unwrap();
        if q.error == u32::MAX { out.push_str("-\n") } else { writeln!(out, "{}", q.error).unwrap() }
        for key in &q.free {
            let e = &m.elements[&key.1];
            write!(out, "e {} from {} priority {} attempts {} ", key.1, e.origin, e.priority, e.attempts).unwrap();
            if e.payload.is_empty() { out.push('-') }
            for b in e.payload { out.push(HEX[(b >> 4) as usize] as char); out.push(HEX[(b & 15) as usize] as char); }
            out.push('\n');
        }
        for ((_, n), r) in m.registrants.range((number as u32, &b""[..])..(number as u32 + 1, &b""[..])) {
            let n = std::str::from_utf8(n).unwrap();
            match r.1 {
                None => writeln!(out, "r {n} none").unwrap(),
                Some(l) => {
                    write!(out, "r {n} {} tag {} element ", if l.enqueue { "enqueue" } else { "dequeue" }, l.tag).unwrap();
                    match l.element { Some(e) => writeln!(out, "{e}").unwrap(), None => out.push_str("-\n") }
                }
            }
        }
    }
    Some(out)
}

/// The last digest of a log that is whole, chained anew in version 2.
fn chained(log: &[u8]) -> [u8; 32] {
    let mut last: [u8; 32] = header(2)[8..].try_into().unwrap();
    let (mut message, mut at) = (Vec::new(), 40);
    while at < log.len() {
        let end = at + 4 + u32_at(log, at) as usize;
        message.clear();
        message.extend_from_slice(&last);
        message.extend_from_slice(&log[at..end]);
        last = sha256(&message);
        at = end + 32;
    }
    last
}

struct Gen<W: Write> { out: W, prev: [u8; 32], bytes: u64, rng: u64, count: u64 }

impl<W: Write> Gen<W> {
    fn below(&mut self, n: u64) -> u64 {
        self.rng ^= self.rng << 13; self.rng ^= self.rng >> 7; self.rng ^= self.rng << 17;
        self.rng % n
    }
    fn frame(&mut self, body: &[u8]) {
        let mut message = self.prev.to_vec();
        message.extend_from_slice(&(body.len() as u32).to_be_bytes());
        message.extend_from_slice(body);
        self.prev = sha256(&message);
        self.out.write_all(&message[32..]).unwrap();
        self.out.write_all(&self.prev).unwrap();
        self.bytes += 36 + body.len() as u64;
        self.count += 1;
    }
    fn define(&mut self, limit: u16, error: u32, name: &str) {
        let mut b = vec![1]; b.extend(limit.to_be_bytes()); b.extend(error.to_be_bytes()); b.extend(name.bytes());
        self.frame(&b);
    }
    fn register(&mut self, queue: u32, name: &str) {
        let mut b = vec![2]; b.extend(queue.to_be_bytes()); b.extend(name.bytes());
        self.frame(&b);
    }
    fn unit(&mut self, kind: u8, unit: u64) {
        let mut b = vec![kind]; b.extend(unit.to_be_bytes());
        self.frame(&b);
    }
    fn operation(&mut self, kind: u8, unit: u64, queue: u32, priority: u8, name: &str, tag: u64, payload: &[u8]) {
        let mut b = vec![kind]; b.extend(unit.to_be_bytes()); b.extend(queue.to_be_bytes());
        if kind == 5 { b.push(priority); }
        b.push(name.len() as u8); b.extend(name.bytes()); b.extend(tag.to_be_bytes()); b.extend(payload);
        self.frame(&b);
    }
    fn kill(&mut self, queue: u32, id: u64) {
        let mut b = vec![10]; b.extend(queue.to_be_bytes()); b.extend(id.to_be_bytes());
        self.frame(&b);
    }
    /// A record that touches no queue.
    fn checkpoint(&mut self, len: usize) {
        let mut b = vec![0; len]; b[0] = 9;
        self.frame(&b);
    }
}

/// Half of all on queue 0, a quarter on seven others that are dealt to the same seat of two, four or eight.
fn skewed<W: Write>(g: &mut Gen<W>, queues: u32) -> u32 {
    match g.below(4) { 0 | 1 => 0, 2 => 8 * (1 + g.below(7) as u32), _ => g.below(queues as u64) as u32 }
}

/// A long-run mix: each unit enqueues and dequeues a few times on its queues, then commits (most) or aborts.
fn generate(path: &str, shape: &str, seed: u64, mib: u64) {
    let mut g = Gen { out: BufWriter::with_capacity(1 << 20, std::fs::File::create(path).unwrap()), prev: [0; 32], bytes: 40, rng: seed * 2 + 88172645463325252, count: 0 };
    let h = header(if matches!(shape, "deep" | "kills") { 2 } else { 1 });
    g.out.write_all(&h).unwrap();
    g.prev.copy_from_slice(&h[8..]);
    let (queues, payload, names, abort) = match shape {
        "small" => (64, 0, 0, 10), "kib" => (64, 1024, 4, 10), "big" => (64, 60_000, 0, 10), "wide" => (4096, 64, 1, 10),
        "hot" => (1, 64, 0, 10), "errors" | "deep" | "kills" => (256, 64, 0, 60), "names" => (64, 16, 500, 10),
        "even" | "skew" | "lone" | "own" => (256, 64, 0, 10), "tree" | "path" => (512, 64, 0, 60), other => panic!("shape {other}"),
    };
    let dead = match shape { "wide" | "errors" | "deep" | "kills" => queues / 16, "tree" | "path" => queues / 2, _ => 0 };
    // In version 2 the error queues stand in two chains, of eight each.
    for d in 0..dead { if d < 2 || matches!(shape, "wide" | "errors" | "tree" | "path") { g.define(0, u32::MAX, &format!("dead{d}")) } else { g.define(3, d - 2, &format!("dead{d}")) } }
    for q in dead..queues { if dead == 0 { g.define(0, u32::MAX, &format!("work{q}")) } else { g.define(3, q % dead, &format!("work{q}")) } }
    for q in 0..queues { for n in 0..names { g.register(q, &format!("client-{n}")); } }
    let body = vec![0xa5u8; payload];
    let mut open: Vec<u64> = Vec::new();
    let mut unit = 0;
    let mut put: Vec<(u32, u64)> = Vec::new();
    while g.bytes < mib << 20 {
        if open.len() < 16 { unit += 1; g.unit(4, unit); open.push(unit); }
        let at = g.below(open.len() as u64) as usize;
        let u = open[at];
        for _ in 0..3 {
            let uneven = matches!(shape, "skew" | "lone" | "own" | "tree" | "path");
            let q = if uneven { dead + skewed(&mut g, queues - dead) } else { g.below(queues as u64) as u32 };
            let name = if names > 0 && g.below(2) == 0 { format!("client-{}", g.below(names as u64)) } else { String::new() };
            let tag = if name.is_empty() { 0 } else { g.count };
            let priority = g.below(8) as u8;
            if shape == "kills" && !put.is_empty() && g.below(10) == 0 {
                let (queue, id) = put.swap_remove(g.below(put.len() as u64) as usize);
                g.kill(queue, id);
                continue;
            }
            let enqueues = g.below(100) < 52;
            if shape == "kills" && enqueues { put.push((q, g.count)); }
            // In place of each operation on another queue, a record as long, or none.
            let len = if enqueues { 23 + payload } else { 22 };
            if matches!(shape, "lone" | "path") && q != dead { g.checkpoint(len); continue; }
            if shape == "own" && q != dead { g.bytes += 36 + len as u64; continue; }
            if enqueues { g.operation(5, u, q, priority, &name, tag, &body) } else { g.operation(6, u, q, 0, &name, tag, &[]) }
        }
        if g.below(2) == 0 {
            let kind = if g.below(100) < abort { 8 } else { 7 };
            g.unit(kind, u);
            open.swap_remove(at);
        }
    }
    g.out.flush().unwrap();
    eprintln!("{} records, {} bytes", g.count, g.bytes);
}

fn main() {
    let words: Vec<String> = std::env::args().skip(1).collect();
    match words.iter().map(String::as_str).collect::<Vec<_>>()[..] {
        ["restart", log] => {
            let log = std::fs::read(log).unwrap();
            match restart(&log) {
                Some(text) => std::io::stdout().write_all(text.as_bytes()).unwrap(),
                None => { eprintln!("rq: not a log"); std::process::exit(1) }
            }
        }
        ["hash", log] => { let log = std::fs::read(log).unwrap(); println!("{:02x?}", &sha256(&log)[..4]) }
        ["chain", log] => println!("{:02x?}", &chained(&std::fs::read(log).unwrap())[..4]),
        ["gen", out, shape, seed, mib] => generate(out, shape, seed.parse().unwrap(), mib.parse().unwrap()),
        _ => { eprintln!("usage: peer restart LOG | hash LOG | chain LOG | gen OUT SHAPE SEED MIB"); std::process::exit(2) }
    }
}
