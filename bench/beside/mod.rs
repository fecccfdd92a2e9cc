//! The rows of `its_bench beside`, of machines in plain Rust: one whose parts threads share by turns, as its_bench's
//! machine is, and one of one caller under a lock.

mod locks;
mod parts;
mod ports;

use crate::{DEVICES, EVENTS, FIRST_LPI, LPIS};
use locks::{Locked, Spinlock, TicketLock};
use parts::{Command, Whole};
use ports::Ports;
use std::hint::black_box;
use std::sync::atomic::{AtomicU64, Ordering::SeqCst};
use std::sync::Mutex;
use std::thread;
use std::time::{Duration, Instant};

/// A machine that threads call.
trait Shared: Sync + Sized {
    fn new(whole: Whole) -> Self;
    fn signal(&self, me: u64, dev: u32, ev: u32) -> u64;
    fn step(&self, me: u64) -> u64;
    fn take(&self, me: u64, vcpu: u8) -> Option<u32>;
    fn save(&self, me: u64) -> u64;
}

// The other thread's device with 16 events and its collection, the one with many, and the first LPIs of both.
const OWN: u32 = 80;
const OWN_ICID: u16 = 4;
const OWN_LPI: u32 = 8448;
const WIDE: u32 = 96;
const WIDE_ICID: u16 = 5;
const WIDE_LPI: u32 = 9216;
const WIDE_EVENTS: u32 = 1024;
const WIDE_TABLE: usize = 0x10_0000;
const TABLES: usize = 0xc_0000;
const QUEUE_PLACES: u32 = 2048;
// How often a thread looks whether the others have begun.
const LOOKS: u32 = 100_000;

#[derive(Clone, Copy, PartialEq)]
enum Other {
    Nothing,
    Int,
    Inv,
    Mapti,
    MaptiNew,
    Invall,
    InvallMany(u8),
    Take,
    Save,
    SaveMany,
}

const ROWS: [(&str, Other); 11] = [
    ("beside-nothing", Other::Nothing),
    ("beside-int", Other::Int),
    ("beside-inv", Other::Inv),
    ("beside-mapti", Other::Mapti),
    ("beside-mapti-new", Other::MaptiNew),
    ("beside-invall", Other::Invall),
    ("beside-invall-1024-of-4", Other::InvallMany(4)),
    ("beside-invall-1024-of-16", Other::InvallMany(16)),
    ("beside-take", Other::Take),
    ("beside-save", Other::Save),
    ("beside-save-1024", Other::SaveMany),
];

const SIGNALLING: [(usize, &str); 3] = [(1, ""), (2, "-2"), (4, "-4")];

fn wide(ev: u32) -> Command {
    Command::Mapti { dev: WIDE, ev, intid: WIDE_LPI + ev, icid: WIDE_ICID }
}

impl Other {
    fn vcpus(self) -> u8 {
        if let Other::InvallMany(vcpus) = self { vcpus } else { 5 }
    }

    fn commands(self) -> Vec<Command> {
        let (dev, ev) = (OWN, 0);
        match self {
            Other::Int => vec![Command::Int { dev, ev }],
            Other::Inv => vec![Command::Inv { dev, ev }],
            Other::Mapti => vec![Command::Mapti { dev, ev, intid: OWN_LPI, icid: OWN_ICID }],
            Other::MaptiNew => {
                let mapd = Command::Mapd { dev: WIDE, bits: QUEUE_PLACES.ilog2(), table: WIDE_TABLE };
                std::iter::once(mapd).chain((1..QUEUE_PLACES).map(wide)).collect()
            }
            Other::Invall => vec![Command::Invall { icid: OWN_ICID }],
            Other::InvallMany(_) => vec![Command::Invall { icid: WIDE_ICID }],
            _ => Vec::new(),
        }
    }

    // The machine with all that is mapped.
    fn prepared(self) -> Whole {
        let mut whole = Whole::new(self.vcpus(), &self.commands());
        for icid in 0..6 {
            let vcpu = if icid < OWN_ICID { icid as u8 } else { self.vcpus() - 1 };
            whole.maps.map_collection(icid, vcpu);
        }
        for (number, dev) in DEVICES.iter().chain(&[OWN]).enumerate() {
            whole.run(Command::Mapd { dev: *dev, bits: EVENTS.ilog2(), table: TABLES + 0x1000 * number });
            for ev in 0..EVENTS {
                let intid = 8192 + 64 * number as u32 + ev;
                whole.run(Command::Mapti { dev: *dev, ev, intid, icid: number as u16 });
            }
        }
        if matches!(self, Other::InvallMany(_) | Other::SaveMany) {
            whole.run(Command::Mapd { dev: WIDE, bits: WIDE_EVENTS.ilog2(), table: WIDE_TABLE });
            (0..WIDE_EVENTS).for_each(|ev| whole.run(wide(ev)));
        }
        whole
    }

    fn call(self, machine: &impl Shared, me: u64) {
        match self {
            Other::Take => drop(black_box(machine.take(me, self.vcpus() - 1))),
            Other::Save | Other::SaveMany => drop(black_box(machine.save(me))),
            _ => drop(black_box(machine.step(me))),
        }
    }
}

// How many commands stand in the queue at once.
const BATCH: u32 = 1024;

// A machine of four processors with one device of so many events, none of which is mapped.
fn of_one_device(events: u32) -> Whole {
    let mut whole = Whole::new(4, &[]);
    whole.maps.map_collection(1, 1);
    whole.run(Command::Mapd { dev: WIDE, bits: events.max(2).ilog2(), table: WIDE_TABLE });
    whole
}

fn map(ev: u32) -> Command {
    Command::Mapti { dev: WIDE, ev, intid: FIRST_LPI + ev % LPIS as u32, icid: 1 }
}

/// How long so many acknowledgements take, each of up to so many LPIs that are pending.
pub fn takes(events: u32, count: u32) -> (u64, Duration) {
    let mut whole = of_one_device(events);
    (0..events).for_each(|ev| whole.run(map(ev)));
    let machine = Ports::new(whole);
    let (mut done, mut spent) = (0, Duration::ZERO);
    while done < u64::from(count) {
        (0..events).for_each(|ev| {
            black_box(machine.signal(1, WIDE, ev));
        });
        let since = Instant::now();
        for _ in 0..events {
            assert!(black_box(machine.take(1, 1)).is_some());
        }
        spent += since.elapsed();
        done += u64::from(events);
    }
    (done, spent)
}

/// How long steps take that map so many events of one device.
pub fn steps(events: u32) -> (u64, Duration) {
    let machine = Ports::new(of_one_device(events));
    let mut spent = Duration::ZERO;
    for first in (0..events).step_by(BATCH as usize) {
        let batch = first..events.min(first + BATCH);
        machine.queue(1, batch.clone().map(|ev| (ev as usize, map(ev))));
        let since = Instant::now();
        for _ in batch {
            black_box(machine.step(1));
        }
        spent += since.elapsed();
    }
    (u64::from(events), spent)
}

// What the threads share.
struct Course {
    since: Instant,
    threads: u64,
    arrived: AtomicU64,
    left: AtomicU64,
}

impl Course {
    fn meet(&self) {
        self.arrived.fetch_add(1, SeqCst);
        for _ in 0..LOOKS {
            if self.arrived.load(SeqCst) >= self.threads {
                return;
            }
            thread::yield_now();
        }
    }
}

struct Found {
    latencies: Vec<u64>,
    signals: u64,
    others: u64,
    spent: Duration,
}

// What a thread signalled: how long each took, where that is wanted, and when it began and ended.
fn send<S: Shared>(machine: &S, number: usize, course: &Course, count: u32, timed: bool) -> (Vec<u64>, Duration, Duration) {
    let (me, dev) = (number as u64 + 1, DEVICES[number]);
    let mut latencies = Vec::with_capacity(if timed { count as usize } else { 0 });
    course.meet();
    let begun = course.since.elapsed();
    if timed {
        for n in 0..count {
            let since = Instant::now();
            black_box(machine.signal(me, dev, n % EVENTS));
            latencies.push(since.elapsed().as_nanos() as u64);
        }
    } else {
        for n in 0..count {
            black_box(machine.signal(me, dev, n % EVENTS));
        }
    }
    let ended = course.since.elapsed();
    course.left.fetch_sub(1, SeqCst);
    (latencies, begun, ended)
}

fn repeat<S: Shared>(machine: &S, other: Other, course: &Course) -> u64 {
    let mut made = 0;
    course.meet();
    while course.left.load(SeqCst) != 0 {
        other.call(machine, course.threads);
        made += 1;
    }
    made
}

fn run<S: Shared>(other: Other, threads: usize, count: u32, timed: bool) -> Found {
    let machine = S::new(other.prepared());
    let course = Course {
        since: Instant::now(),
        threads: threads as u64 + u64::from(other != Other::Nothing),
        arrived: AtomicU64::new(0),
        left: AtomicU64::new(threads as u64),
    };
    let (machine, course) = (&machine, &course);
    thread::scope(|scope| {
        let lanes: Vec<_> =
            (0..threads).map(|number| scope.spawn(move || send(machine, number, course, count, timed))).collect();
        let others = if other != Other::Nothing { repeat(machine, other, course) } else { 0 };
        let lanes: Vec<_> = lanes.into_iter().map(|lane| lane.join().unwrap()).collect();
        let begun = lanes.iter().map(|lane| lane.1).min().unwrap_or_default();
        let ended = lanes.iter().map(|lane| lane.2).max().unwrap_or_default();
        let signals = threads as u64 * u64::from(count);
        Found { latencies: lanes.into_iter().flat_map(|lane| lane.0).collect(), signals, others, spent: ended - begun }
    })
}

fn print<S: Shared>(name: &str, other: Other, threads: usize, count: u32) {
    let mut latencies = run::<S>(other, threads, count, true).latencies;
    latencies.sort_unstable();
    let at = |of_thousand: usize| latencies.get(latencies.len() * of_thousand / 1000).copied().unwrap_or(0);
    let most = latencies.last().copied().unwrap_or(0);
    let Found { signals, others, spent, .. } = run::<S>(other, threads, count, false);
    let rate = |calls: u64| (calls as f64 / spent.as_secs_f64()) as u64;
    println!(
        "{name} p50 {} p99 {} p99.9 {} most {most} ns rate {} others {} a second",
        at(500), at(990), at(999), rate(signals), rate(others),
    );
}

/// Prints what its_bench prints of `beside COUNT [NAME]`, of the machine with this name, or of all.
pub fn print_rows(words: &[String]) {
    let count: u32 = words.first().and_then(|word| word.parse().ok()).expect("beside COUNT [NAME [MACHINE]]");
    let (only, machine) = (words.get(1), words.get(2).map_or("ports", |word| word.as_str()));
    for (name, other) in ROWS {
        for (threads, end) in SIGNALLING {
            let name = format!("{name}{end}");
            if threads >= other.vcpus() as usize || only.is_some_and(|only| *only != name) {
                continue;
            }
            match machine {
                "ports" => print::<Ports>(&name, other, threads, count),
                "mutex" => print::<Locked<Mutex<Whole>>>(&name, other, threads, count),
                "spinlock" => print::<Locked<Spinlock>>(&name, other, threads, count),
                "ticket" => print::<Locked<TicketLock>>(&name, other, threads, count),
                _ => panic!("no such machine"),
            }
        }
    }
}
