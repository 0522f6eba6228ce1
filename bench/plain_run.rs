//! A plain cluster on threads, with no proof of anything, which `scripts.py` compares with `cops run`. It does the
//! same work: a lock for each data centre's node, a thread for each client, sender and receiver, bounded queues of
//! frames between data centres, an entry for each step in the node's book and with whose step it is. In the end all
//! entries are followed by their tickets through nodes of its own, and compared with what the callers were answered.
//!
//! usage: plain_run FILE DATA_CENTRES     a line of FILE is `CLIENT DATA_CENTRE KEY VALUE` for a put and `CLIENT
//! DATA_CENTRE KEY` for a get
//!
//! It prints how many operations and steps there were, and the seconds of the threads and of the whole without the
//! reading of FILE.
use std::collections::{HashMap, HashSet};
use std::sync::atomic::{AtomicBool, AtomicU64, Ordering::SeqCst};
use std::sync::mpsc::{sync_channel, Receiver, SyncSender};
use std::sync::Mutex;
use std::thread::ScopedJoinHandle;
use std::time::{Duration, Instant};
use std::{env, fs, thread};

/// How many frames a queue holds, and how long an idle loop rests: as `cops run` has them.
const LINK: usize = 16;
const REST: Duration = Duration::from_micros(50);

type Bytes = Vec<u8>;
type Pair = (Bytes, u64);
/// A put where there is a value, and else a get.
type Operation = (Bytes, Option<Bytes>);

#[derive(Clone, PartialEq)]
struct Put {
    key: Bytes,
    value: Bytes,
    version: u64,
    deps: Vec<Pair>,
}

#[derive(Clone, PartialEq)]
enum Event {
    Put { client: usize, key: Bytes, value: Bytes, deps: Vec<Pair> },
    Get { client: usize, key: Bytes },
    Deliver(Put),
    Ask { key: Bytes, version: u64 },
    Mark { version: u64, dep: usize },
    Settle { version: u64 },
}

#[derive(Clone, PartialEq)]
enum Outcome {
    Done(u64),
    Got(Bytes, u64),
    Missed,
    Held,
    Yes,
    Wait,
    Marked,
    Settled,
}

#[derive(Clone, PartialEq)]
struct Entry {
    ticket: u64,
    dc: usize,
    event: Event,
    outcome: Outcome,
}

/// What a client saw.
#[derive(Clone, PartialEq)]
enum Op {
    Put(Bytes, Bytes, u64),
    Got(Bytes, Bytes, u64),
    Missed(Bytes),
}

impl Entry {
    /// The put that was issued, if one was.
    fn put(&self) -> Option<Put> {
        match (&self.event, &self.outcome) {
            (Event::Put { key, value, deps, .. }, Outcome::Done(version)) => {
                Some(Put { key: key.clone(), value: value.clone(), version: *version, deps: deps.clone() })
            }
            _ => None,
        }
    }

    /// What a client saw, if it is a client's.
    fn seen(&self) -> Option<(usize, Op)> {
        match (&self.event, &self.outcome) {
            (Event::Put { client, key, value, .. }, Outcome::Done(version)) => {
                Some((*client, Op::Put(key.clone(), value.clone(), *version)))
            }
            (Event::Get { client, key }, Outcome::Got(value, version)) => {
                Some((*client, Op::Got(key.clone(), value.clone(), *version)))
            }
            (Event::Get { client, key }, Outcome::Missed) => Some((*client, Op::Missed(key.clone()))),
            _ => None,
        }
    }
}

/// A client's context after an operation: a put's pair alone, or a get's beside the others (COPS, section 4.2).
fn note(context: &mut Vec<Pair>, op: &Op) {
    match op {
        Op::Put(key, _, version) => *context = vec![(key.clone(), *version)],
        Op::Got(key, _, version) if !context.iter().any(|(k, v)| k == key && v == version) => {
            context.push((key.clone(), *version));
        }
        _ => {}
    }
}

/// What a node has of a key: the newest value, and all versions that are settled.
#[derive(Default)]
struct Slot {
    value: Bytes,
    version: u64,
    settled: HashSet<u64>,
}

struct Node {
    dc: u64,
    clock: u64,
    store: HashMap<Bytes, Slot>,
    held: HashMap<u64, (Put, Vec<bool>)>,
}

impl Node {
    fn new(dc: usize) -> Self {
        Node { dc: dc as u64, clock: 0, store: HashMap::new(), held: HashMap::new() }
    }

    fn has(&self, key: &[u8], version: u64) -> bool {
        self.store.get(key).is_some_and(|slot| slot.settled.contains(&version))
    }

    fn settle(&mut self, key: &[u8], value: &[u8], version: u64) {
        self.clock = self.clock.max(version >> 16);
        if !self.store.contains_key(key) {
            self.store.insert(key.to_vec(), Slot::default());
        }
        let slot = self.store.get_mut(key).unwrap();
        slot.settled.insert(version);
        if version > slot.version {
            (slot.version, slot.value) = (version, value.to_vec());
        }
    }

    fn step(&mut self, event: &Event) -> Outcome {
        match event {
            Event::Put { key, value, .. } => {
                let version = (self.clock + 1) << 16 | self.dc << 6;
                self.settle(key, value, version);
                Outcome::Done(version)
            }
            Event::Get { key, .. } => match self.store.get(key) {
                Some(slot) => Outcome::Got(slot.value.clone(), slot.version),
                None => Outcome::Missed,
            },
            Event::Deliver(put) => {
                let marks = vec![false; put.deps.len()];
                self.held.insert(put.version, (put.clone(), marks));
                Outcome::Held
            }
            Event::Ask { key, version } if self.has(key, *version) => Outcome::Yes,
            Event::Ask { .. } => Outcome::Wait,
            Event::Mark { version, dep } => {
                self.held.get_mut(version).unwrap().1[*dep] = true;
                Outcome::Marked
            }
            Event::Settle { version } => {
                let (put, marks) = self.held.remove(version).unwrap();
                assert!(marks.iter().all(|it| *it));
                self.settle(&put.key, &put.value, *version);
                Outcome::Settled
            }
        }
    }
}

fn append(out: &mut Bytes, bytes: &[u8]) {
    out.extend_from_slice(&(bytes.len() as u32).to_be_bytes());
    out.extend_from_slice(bytes);
}

fn encoded(put: &Put) -> Bytes {
    let mut out = put.version.to_be_bytes().to_vec();
    append(&mut out, &put.key);
    append(&mut out, &put.value);
    for (key, version) in &put.deps {
        append(&mut out, key);
        out.extend_from_slice(&version.to_be_bytes());
    }
    out
}

fn taken<'a>(rest: &mut &'a [u8], count: usize) -> &'a [u8] {
    let (front, left) = rest.split_at(count);
    *rest = left;
    front
}

fn number(rest: &mut &[u8]) -> u64 {
    u64::from_be_bytes(taken(rest, 8).try_into().unwrap())
}

fn bytes(rest: &mut &[u8]) -> Bytes {
    let count = u32::from_be_bytes(taken(rest, 4).try_into().unwrap());
    taken(rest, count as usize).to_vec()
}

fn decoded(frame: &[u8]) -> Put {
    let rest = &mut &*frame;
    let (version, key, value, mut deps) = (number(rest), bytes(rest), bytes(rest), Vec::new());
    while !rest.is_empty() {
        deps.push((bytes(rest), number(rest)));
    }
    Put { key, value, version, deps }
}

/// Puts that wait, with their dependencies and how many of those are not marked; what is to be asked; and what is asked
/// again once a pair is settled.
#[derive(Default)]
struct Backlog {
    waiting: HashMap<u64, (Bytes, Vec<Pair>, usize)>,
    questions: Vec<(u64, usize)>,
    parked: HashMap<Pair, Vec<(u64, usize)>>,
}

impl Backlog {
    fn add(&mut self, put: &Put) {
        self.waiting.insert(put.version, (put.key.clone(), put.deps.clone(), put.deps.len()));
        self.questions.extend((0..put.deps.len().max(1)).rev().map(|dep| (put.version, dep)));
    }
}

/// Whose steps these are: the cluster, a data centre, and the entries of the steps that were made.
struct Caller<'a> {
    cluster: &'a Cluster,
    dc: usize,
    share: Vec<Entry>,
}

struct Cluster {
    nodes: Vec<Mutex<(Node, Vec<Entry>)>>,
    tickets: AtomicU64,
    records: Mutex<Vec<(usize, Op)>>,
    are_clients_joined: AtomicBool,
    are_senders_joined: AtomicBool,
}

impl Caller<'_> {
    /// A step under the node's lock: its entry stands in the node's book and in the caller's share.
    fn step(&mut self, event: Event) -> &Entry {
        let mut locked = self.cluster.nodes[self.dc].lock().unwrap();
        let ticket = self.cluster.tickets.fetch_add(1, SeqCst);
        let outcome = locked.0.step(&event);
        let entry = Entry { ticket, dc: self.dc, event, outcome };
        locked.1.push(entry.clone());
        drop(locked);
        self.share.push(entry);
        self.share.last().unwrap()
    }

    fn work(mut self, client: usize, script: &[Operation]) -> Vec<Entry> {
        let mut context = Vec::new();
        for (key, value) in script {
            let key = key.clone();
            let entry = match value {
                Some(value) => self.step(Event::Put { client, key, value: value.clone(), deps: context.clone() }),
                None => self.step(Event::Get { client, key }),
            };
            let seen = entry.seen().unwrap();
            note(&mut context, &seen.1);
            self.cluster.records.lock().unwrap().push(seen);
        }
        self.share
    }

    fn receive(mut self, links: Vec<Receiver<Bytes>>) -> Vec<Entry> {
        let mut backlog = Backlog::default();
        loop {
            let is_last = self.cluster.are_senders_joined.load(SeqCst);
            let frames: Vec<Bytes> = links.iter().filter_map(|it| it.try_recv().ok()).collect();
            for frame in &frames {
                let put = decoded(frame);
                backlog.add(&put);
                self.step(Event::Deliver(put));
            }
            self.settle(&mut backlog);
            if is_last && frames.is_empty() && backlog.waiting.is_empty() {
                return self.share;
            }
            if frames.is_empty() {
                thread::sleep(REST);
            }
        }
    }

    /// Asks, marks and settles until there is nothing to be asked (COPS, section 4.3).
    fn settle(&mut self, backlog: &mut Backlog) {
        while let Some((version, dep)) = backlog.questions.pop() {
            if !self.is_marked(backlog, version, dep) || backlog.waiting[&version].2 > 0 {
                continue;
            }
            self.step(Event::Settle { version });
            let (key, ..) = backlog.waiting.remove(&version).unwrap();
            backlog.questions.extend(backlog.parked.remove(&(key, version)).unwrap_or_default());
        }
    }

    /// Asks for a dependency, and marks it at a yes; at a no it is asked again later.
    fn is_marked(&mut self, backlog: &mut Backlog, version: u64, dep: usize) -> bool {
        let Some((key, asked)) = backlog.waiting[&version].1.get(dep).cloned() else {
            return true;
        };
        if self.step(Event::Ask { key: key.clone(), version: asked }).outcome == Outcome::Wait {
            backlog.parked.entry((key, asked)).or_default().push((version, dep));
            return false;
        }
        self.step(Event::Mark { version, dep });
        backlog.waiting.get_mut(&version).unwrap().2 -= 1;
        true
    }
}

impl Cluster {
    fn new(dcs: usize) -> Self {
        Cluster {
            nodes: (0..dcs).map(|dc| Mutex::new((Node::new(dc), Vec::new()))).collect(),
            tickets: AtomicU64::new(0),
            records: Mutex::new(Vec::new()),
            are_clients_joined: AtomicBool::new(false),
            are_senders_joined: AtomicBool::new(false),
        }
    }

    fn caller(&self, dc: usize) -> Caller<'_> {
        Caller { cluster: self, dc, share: Vec::new() }
    }

    fn send(&self, dc: usize, links: Vec<SyncSender<Bytes>>) {
        let (mut read, mut puts, mut next) = (0, Vec::<Put>::new(), vec![0; links.len()]);
        loop {
            let is_last = self.are_clients_joined.load(SeqCst);
            let locked = self.nodes[dc].lock().unwrap();
            puts.extend(locked.1[read..].iter().filter_map(Entry::put));
            read = locked.1.len();
            drop(locked);
            let before = next.clone();
            for (link, at) in links.iter().zip(&mut next) {
                while *at < puts.len() && link.try_send(encoded(&puts[*at])).is_ok() {
                    *at += 1;
                }
            }
            if is_last && next.iter().all(|it| *it == puts.len()) {
                return;
            }
            if next == before {
                thread::sleep(REST);
            }
        }
    }

    /// Runs all on threads of their own, and joins them. It gives the entries of each caller.
    fn run(&self, homes: &[usize], scripts: &[Vec<Operation>]) -> Vec<Vec<Entry>> {
        let (outs, ins) = wired(self.nodes.len());
        thread::scope(|scope| {
            let receivers: Vec<_> =
                ins.into_iter().enumerate().map(|(dc, it)| scope.spawn(move || self.caller(dc).receive(it))).collect();
            let senders: Vec<_> =
                outs.into_iter().enumerate().map(|(dc, it)| scope.spawn(move || self.send(dc, it))).collect();
            let clients: Vec<_> = (scripts.iter().enumerate())
                .map(|(client, it)| scope.spawn(move || self.caller(homes[client]).work(client, it)))
                .collect();
            let mut shares = joined(clients);
            self.are_clients_joined.store(true, SeqCst);
            joined(senders);
            self.are_senders_joined.store(true, SeqCst);
            shares.extend(joined(receivers));
            shares
        })
    }
}

fn joined<T>(handles: Vec<ScopedJoinHandle<'_, T>>) -> Vec<T> {
    handles.into_iter().map(|it| it.join().unwrap()).collect()
}

/// For each data centre the ends that send to each other one, and those that take from each.
fn wired(dcs: usize) -> (Vec<Vec<SyncSender<Bytes>>>, Vec<Vec<Receiver<Bytes>>>) {
    let mut outs: Vec<Vec<_>> = (0..dcs).map(|_| Vec::new()).collect();
    let mut ins: Vec<Vec<_>> = (0..dcs).map(|_| Vec::new()).collect();
    for from in 0..dcs {
        for to in (0..dcs).filter(|to| *to != from) {
            let (sends, takes) = sync_channel(LINK);
            outs[from].push(sends);
            ins[to].push(takes);
        }
    }
    (outs, ins)
}

fn by_tickets(lists: &[Vec<Entry>]) -> Vec<&Entry> {
    let mut order: Vec<&Entry> = lists.iter().flatten().collect();
    order.sort_by_key(|entry| entry.ticket);
    order
}

/// Follows all entries: each has to have the outcome that nodes of its own answer, a put its client's context, a
/// delivery the issued put; and in the end each put is settled everywhere. It gives what the clients saw.
fn followed(books: &[Vec<Entry>], clients: usize) -> Vec<Vec<Op>> {
    let mut nodes: Vec<Node> = (0..books.len()).map(Node::new).collect();
    let (mut contexts, mut sessions) = (vec![Vec::new(); clients], vec![Vec::new(); clients]);
    let mut issued = HashMap::<u64, Put>::new();
    for entry in by_tickets(books) {
        match &entry.event {
            Event::Put { client, deps, .. } => assert!(*deps == contexts[*client]),
            Event::Deliver(put) => assert!(issued.get(&put.version) == Some(put)),
            _ => {}
        }
        assert!(nodes[entry.dc].step(&entry.event) == entry.outcome);
        if let Some(put) = entry.put() {
            issued.insert(put.version, put);
        }
        if let Some((client, op)) = entry.seen() {
            note(&mut contexts[client], &op);
            sessions[client].push(op);
        }
    }
    assert!(issued.values().all(|put| nodes.iter().all(|node| node.has(&put.key, put.version))));
    sessions
}

/// The entries are compared on one thread while they are followed on another. It gives how many operations there were.
fn checked(books: &[Vec<Entry>], shares: &[Vec<Entry>], records: Vec<(usize, Op)>, clients: usize) -> usize {
    let (operations, mut sessions) = (records.len(), vec![Vec::new(); clients]);
    for (client, op) in records {
        sessions[client].push(op);
    }
    thread::scope(|scope| {
        scope.spawn(|| assert!(by_tickets(books) == by_tickets(shares)));
        assert!(followed(books, clients) == sessions);
    });
    operations
}

/// A run, of which nothing is kept: how many operations and steps there were, and the seconds of the threads.
fn ran(dcs: usize, homes: &[usize], scripts: &[Vec<Operation>]) -> (usize, usize, f64) {
    let begun = Instant::now();
    let cluster = Cluster::new(dcs);
    let shares = cluster.run(homes, scripts);
    let seconds = begun.elapsed().as_secs_f64();
    let books: Vec<Vec<Entry>> = cluster.nodes.into_iter().map(|it| it.into_inner().unwrap().1).collect();
    let operations = checked(&books, &shares, cluster.records.into_inner().unwrap(), scripts.len());
    (operations, books.iter().map(Vec::len).sum(), seconds)
}

/// Each client's data centre, and its script.
fn read(text: &str) -> (Vec<usize>, Vec<Vec<Operation>>) {
    let (mut homes, mut scripts) = (Vec::new(), Vec::<Vec<_>>::new());
    for line in text.lines() {
        let words: Vec<&str> = line.split(' ').collect();
        let (client, dc): (usize, usize) = (words[0].parse().unwrap(), words[1].parse().unwrap());
        if client == scripts.len() {
            homes.push(dc);
            scripts.push(Vec::new());
        }
        scripts[client].push((words[2].into(), words.get(3).map(|it| it.as_bytes().to_vec())));
    }
    (homes, scripts)
}

fn main() {
    let words: Vec<String> = env::args().collect();
    let (homes, scripts) = read(&fs::read_to_string(&words[1]).unwrap());
    let begun = Instant::now();
    let (operations, steps, threads) = ran(words[2].parse().unwrap(), &homes, &scripts);
    println!("{operations} {steps} {threads:.6} {:.6}", begun.elapsed().as_secs_f64());
}
