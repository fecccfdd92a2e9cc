//! The monitor of threads.c in Rust, over the C interface alone: two device threads signal and write
//! data beside, a thread for each of four virtual processors acknowledges, one puts commands into the
//! queue, copies in what each needs and steps, and the tables are saved while they run. It prints a
//! script of the calls and what they were told, by their places: what `its check` reads.
//!
//! Build: rustc -O --edition 2021 -L FOLDER threads.rs, where FOLDER has libits_shared.a
//! usage: threads [SIGNALS]   how many signals each device makes at least; 500 without it
#[path = "callers.rs"]
mod callers;
#[allow(dead_code)]
#[path = "rust/src/raw.rs"]
mod raw;

use callers::{its_share, its_split, Call, Caller, Device, Pass, DONE};
use raw::{Description, Fill, MakeFault, Stretch, Translator, Window};
use std::ptr::{null, null_mut};
use std::sync::atomic::{AtomicUsize, Ordering::SeqCst};
use std::time::Duration;
use std::{env, thread};

const VCPUS: u32 = 4;
const DEVICES: u32 = 2;
// Those of devices and of processors, one that steps, and one that saves.
const THREADS: u32 = DEVICES + VCPUS + 2;
const EVENTS: u32 = 16;
const LPIS: usize = (DEVICES * EVENTS) as usize;
const RAM: u64 = 0x8000_0000;
const RAM_BYTES: u64 = 0x20_0000;
const QUEUE: u64 = 0x8002_0000;
const QUEUE_BYTES: u64 = 0x1000;
const CONFIG: u64 = 0x8003_0000;
const TABLES: [u64; VCPUS as usize] = [0x8004_0000, 0x8005_0000, 0x8006_0000, 0x8007_0000];
const ITTS: u64 = 0x800c_0000;
const DATA: u64 = 0x8010_0000;
const VALID: u64 = 1 << 63;
// A script's thread has at most 65,536 calls.
const MOST_CALLS: usize = 60_000;

/// What the guest has in its memory, of which the machine has a copy, and how far its queue is
/// written.
struct Guest {
    ram: Vec<u8>,
    at: u64,
}

impl Guest {
    fn new() -> Guest {
        let mut guest = Guest { ram: vec![0; RAM_BYTES as usize], at: 0 };
        guest.bytes(CONFIG, LPIS as u64).fill(0xa1);
        guest
    }

    fn bytes(&mut self, address: u64, length: u64) -> &mut [u8] {
        let from = address - RAM;
        &mut self.ram[from as usize..(from + length) as usize]
    }

    /// Puts a command into its queue, of which the monitor then copies in what it needs, and takes it.
    fn command(&mut self, caller: &mut Caller, words: [u64; 3]) {
        let queue = self.bytes(QUEUE + self.at, 32);
        for (to, word) in queue.chunks_exact_mut(8).zip(words.into_iter().chain([0])) {
            to.copy_from_slice(&word.to_le_bytes());
        }
        self.at = (self.at + 32) % QUEUE_BYTES;
        caller.write_register(0x88, 8, self.at);
        // What it reads besides is known once its bytes are there.
        let command = caller.needs()[0];
        self.copy_in(caller, command);
        for besides in caller.needs().into_iter().skip(1) {
            self.copy_in(caller, besides);
        }
        caller.step();
    }

    fn copy_in(&mut self, caller: &mut Caller, stretch: Stretch) {
        caller.write_memory(stretch.address, self.bytes(stretch.address, stretch.length));
    }

    /// The guest's driver: devices 16 and 17, whose events lead to four collections.
    fn drive(&mut self, caller: &mut Caller) {
        caller.write_register(0x100, 8, 0x8107_0000_8000_0200);
        caller.write_register(0x108, 8, 0x8407_0000_8001_0200);
        caller.write_register(0x80, 8, VALID | QUEUE);
        caller.write_register(0x0, 4, 1);
        for vcpu in 0..u64::from(VCPUS) {
            self.command(caller, [9, 0, VALID | vcpu << 16 | vcpu]);
        }
        for device in 0..u64::from(DEVICES) {
            self.command(caller, [(16 + device) << 32 | 8, 3, VALID | (ITTS + 256 * device)]);
            for event in 0..u64::from(EVENTS) {
                let intid = 8192 + u64::from(EVENTS) * device + event;
                let words = [(16 + device) << 32 | 10, intid << 32 | event, event % u64::from(VCPUS)];
                self.command(caller, words);
            }
        }
    }
}

/// What the threads tell each other.
struct Told {
    devices_left: AtomicUsize,
    saves_made: AtomicUsize,
    saves_told: AtomicUsize,
}

impl Told {
    fn devices_signal(&self) -> bool {
        self.devices_left.load(SeqCst) != 0
    }
}

/// A device: so many signals, and more until the tables were saved beside them. Every eighth comes
/// after a write of data.
fn signals(caller: &mut Caller, device: u32, count: u32, told: &Told) {
    for i in 0.. {
        if i >= count && (told.saves_made.load(SeqCst) != 0 || caller.calls.len() + 2 > MOST_CALLS) {
            break;
        }
        if i % 8 == 0 {
            let data = std::array::from_fn::<u8, 8, _>(|j| i as u8 ^ j as u8);
            caller.write_memory(DATA + 4096 * u64::from(device) + u64::from(i % 512), &data);
        }
        caller.signal(16 + device, i % EVENTS);
    }
    told.devices_left.fetch_sub(1, SeqCst);
}

/// A virtual processor: until nothing is pending after the last signal.
fn acknowledges(caller: &mut Caller, vcpu: u32, told: &Told) {
    let mut last = false;
    while caller.calls.len() < MOST_CALLS {
        let ended = !told.devices_signal();
        if !caller.take(vcpu) {
            if ended && last {
                return;
            }
            if caller.pending(vcpu) == 0 {
                thread::sleep(Duration::from_millis(1));
            }
        }
        last = ended;
    }
}

/// Events move from collection to collection, and configurations are read again.
fn steps(caller: &mut Caller, guest: &mut Guest, told: &Told) {
    for i in 0.. {
        if !told.devices_signal() || caller.calls.len() + 4 > MOST_CALLS {
            return;
        }
        let (device, event) = (16 + i % u64::from(DEVICES), i / u64::from(DEVICES) % u64::from(EVENTS));
        if i % 3 == 0 {
            guest.command(caller, [device << 32 | 12, event, 0]);
        } else {
            let target = (event + i) % u64::from(VCPUS);
            guest.command(caller, [device << 32 | 1, event, target]);
            assert_eq!(u64::from(caller.lead(device as u32, event as u32)), target, "its_pass_event");
        }
        thread::yield_now();
    }
}

fn saves(caller: &mut Caller, told: &Told) {
    loop {
        let saved = caller.save();
        if caller.written(saved).is_some() {
            told.saves_told.fetch_add(1, SeqCst);
        }
        told.saves_made.fetch_add(1, SeqCst);
        thread::sleep(Duration::from_millis(2));
        if !told.devices_signal() {
            return;
        }
    }
}

/// All is at rest: what is mapped, and the tables of a save, of which the beginnings are read.
fn look_around(root: &mut Caller) {
    let mut from = 0;
    for i in 0..DEVICES {
        let device = Device { device: 16 + i, event_bits: 4, itt: ITTS + 256 * u64::from(i) };
        assert_eq!(root.next_device(from), Some(device), "its_pass_list_devices");
        from = device.device + 1;
    }
    assert_eq!(root.next_device(from), None, "its_pass_list_devices");
    let saved = root.save();
    for table in root.written(saved).expect("no other pass calls") {
        root.read_memory(table.address, table.length.min(64) as usize);
    }
}

/// The root of a machine of four processors, whose LPIs are all enabled.
fn share() -> Pass {
    let numbers = Description {
        vcpus: VCPUS,
        device_bits: 16,
        lpi_bits: 16,
        profile: 1,
        config: CONFIG,
        event_limit: u64::MAX,
        device_limit: u64::MAX,
        memory_limit: u64::MAX,
        ..Description::default()
    };
    let window = Window { base: RAM, length: RAM_BYTES };
    let fill = Fill { address: CONFIG, length: LPIS as u64 };
    let (bytes, mut fault, mut root) = ([0xa1; LPIS], MakeFault::default(), Pass { at: null_mut() });
    #[rustfmt::skip]
    let code = unsafe {
        its_share(&mut root, &numbers, &Translator::default(), 1, &window, 1, TABLES.as_ptr(), TABLES.len(), null(), 0,
                  null(), 0, &fill, 1, bytes.as_ptr(), bytes.len(), &mut fault)
    };
    assert_eq!(code, DONE, "what its_share answers: {fault:?}");
    root
}

fn split(root: &mut Caller) -> Caller {
    let mut pass = Pass { at: null_mut() };
    assert_eq!(unsafe { its_split(&mut root.pass, &mut pass) }, DONE, "what its_split answers");
    Caller::new(pass)
}

/// The eight threads, each with its pass, until the devices have signalled and all is acknowledged.
fn run(callers: &mut [Caller], count: u32, guest: &mut Guest) -> Told {
    let told = Told {
        devices_left: AtomicUsize::new(DEVICES as usize),
        saves_made: AtomicUsize::new(0),
        saves_told: AtomicUsize::new(0),
    };
    thread::scope(|scope| {
        let told = &told;
        let (others, [stepper, saver]) = callers.split_last_chunk_mut().expect("eight threads");
        for (i, caller) in (0..).zip(others) {
            scope.spawn(move || match i {
                0..DEVICES => signals(caller, i, count, told),
                _ => acknowledges(caller, i - DEVICES, told),
            });
        }
        scope.spawn(move || steps(stepper, guest, told));
        scope.spawn(move || saves(saver, told));
    });
    told
}

/// The description, as its_share was given it.
fn print_description() {
    println!("vcpus {VCPUS}\nshards 64\nwindow 0x80000000 0x200000\nconfig {CONFIG:#x}");
    for (vcpu, table) in TABLES.iter().enumerate() {
        println!("pending {vcpu} {table:#x}");
    }
    println!("bytes {CONFIG:#x} {}", "a1".repeat(LPIS));
}

/// The script, and all that was told: phases of threads of calls.
fn print_all(phases: &[Vec<&[Call]>]) {
    let mut told = Vec::new();
    print_description();
    for (phase, threads) in (1..).zip(phases) {
        println!("phase");
        for (number, calls) in (1..).zip(threads) {
            println!("thread");
            calls.iter().for_each(|call| println!("{}", call.asked));
            told.extend(calls.iter().map(|call| (call.place, phase, number, call)));
        }
    }
    println!("end\ntrace\nleg 1");
    told.sort_by_key(|(place, ..)| *place);
    for (place, phase, number, call) in told {
        println!("{place} {phase}.{number} {} -> {}", call.asked, call.replied);
    }
    for vcpu in 0..VCPUS {
        println!("vcpu {vcpu} pending none");
    }
    println!("done");
}

fn main() {
    let count = env::args().nth(1).map_or(500, |word| word.parse().expect("a number of signals"));
    let mut root = Caller::new(share());
    root.bound(LPIS as u64, u64::from(DEVICES));
    let mut guest = Guest::new();
    guest.drive(&mut root);
    let driven = root.calls.len();
    let mut callers: Vec<Caller> = (0..THREADS).map(|_| split(&mut root)).collect();
    let told = run(&mut callers, count, &mut guest);
    for vcpu in 0..VCPUS {
        while root.take(vcpu) {}
    }
    look_around(&mut root);
    let (first, last) = root.calls.split_at(driven);
    print_all(&[vec![first], callers.iter().map(|caller| &caller.calls[..]).collect(), vec![last]]);
    let (made, of_them) = (told.saves_made.load(SeqCst), told.saves_told.load(SeqCst));
    let busy: u64 = callers.iter().map(|caller| caller.busy).sum();
    eprintln!("busy tries: {busy}, saves whose tables were told: {of_them} of {made}");
}
