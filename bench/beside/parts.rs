//! The parts of a machine, and what commands and saves do to them. Machines that differ only in how threads share
//! their parts are made of these.

use crate::{EventPages, Page, Pages, Redist, Target};
use crate::{COLLECTION_TABLE, DEVICE_TABLE, FIRST_LPI, HELD_PAGE, LPIS, MEMORY_BYTES, PENDING_TABLE, QUEUE, QUEUE_BYTES};
use crate::TABLE_BYTES;

const CONFIG: usize = 0x3_0000;
const COLLECTIONS: usize = 16;

#[derive(Clone, Copy)]
pub enum Command {
    Mapd { dev: u32, bits: u32, table: usize },
    Mapti { dev: u32, ev: u32, intid: u32, icid: u16 },
    Int { dev: u32, ev: u32 },
    Inv { dev: u32, ev: u32 },
    Invall { icid: u16 },
}

impl Command {
    fn words(self) -> [u64; 4] {
        let both = |low: u32, high: u32| u64::from(low) | u64::from(high) << 32;
        match self {
            Command::Mapd { dev, bits, table } => [both(8, dev), u64::from(bits), table as u64, 0],
            Command::Mapti { dev, ev, intid, icid } => [both(10, dev), both(ev, intid), u64::from(icid), 0],
            Command::Int { dev, ev } => [both(3, dev), u64::from(ev), 0, 0],
            Command::Inv { dev, ev } => [both(12, dev), u64::from(ev), 0, 0],
            Command::Invall { icid } => [both(13, 0), 0, u64::from(icid), 0],
        }
    }

    fn of_words(words: [u64; 4]) -> Command {
        let (dev, ev, intid, icid) = ((words[0] >> 32) as u32, words[1] as u32, (words[1] >> 32) as u32, words[2] as u16);
        match words[0] as u8 {
            8 => Command::Mapd { dev, bits: ev, table: words[2] as usize },
            10 => Command::Mapti { dev, ev, intid, icid },
            3 => Command::Int { dev, ev },
            12 => Command::Inv { dev, ev },
            _ => Command::Invall { icid },
        }
    }
}

impl EventPages {
    fn get(&self, ev: u32) -> Option<(u32, u16)> {
        let at = self.directory.binary_search_by_key(&(ev / 64), |page| page.0).ok()?;
        self.directory[at].1[ev as usize % 64]
    }

    // A page for the event, so that mapping it takes no memory.
    fn make_room(&mut self, ev: u32) {
        if let Err(at) = self.directory.binary_search_by_key(&(ev / 64), |page| page.0) {
            self.directory.insert(at, (ev / 64, Box::new([None; 64])));
        }
    }

    fn insert(&mut self, ev: u32, intid: u32, icid: u16) {
        self.make_room(ev);
        if let Ok(at) = self.directory.binary_search_by_key(&(ev / 64), |page| page.0) {
            self.directory[at].1[ev as usize % 64] = Some((intid, icid));
        }
    }
}

struct Device {
    dev: u32,
    bits: u32,
    table: usize,
    events: EventPages,
}

/// Devices in rising order with their events, collections, and where the next command stands.
pub struct Maps {
    devices: Vec<Device>,
    collections: [Option<u8>; COLLECTIONS],
    next: usize,
}

impl Maps {
    pub fn new() -> Maps {
        Maps { devices: Vec::new(), collections: [None; COLLECTIONS], next: 0 }
    }

    pub fn map_collection(&mut self, icid: u16, vcpu: u8) {
        self.collections[icid as usize] = Some(vcpu);
    }

    fn event(&self, dev: u32, ev: u32) -> Option<(u32, u16)> {
        let at = self.devices.binary_search_by_key(&dev, |device| device.dev).ok()?;
        self.devices[at].events.get(ev)
    }

    pub fn target(&self, dev: u32, ev: u32) -> Option<Target> {
        let (intid, icid) = self.event(dev, ev)?;
        Some(Target { vcpu: self.collections[icid as usize]?, intid })
    }

    /// The next command of the queue, which has one in each place.
    pub fn next_command(&self, memory: &Pages) -> Command {
        let word = |at: usize| u64::from_le_bytes(bytes(memory, QUEUE + self.next + 8 * at, 8).try_into().unwrap());
        Command::of_words([word(0), word(1), word(2), word(3)])
    }

    pub fn go_on(&mut self) {
        self.next = (self.next + 32) % QUEUE_BYTES;
    }

    /// Room for what a command maps, which its call needs before it is made.
    pub fn make_room(&mut self, command: Command) {
        if let Command::Mapti { dev, ev, .. } = command {
            if let Ok(at) = self.devices.binary_search_by_key(&dev, |device| device.dev) {
                self.devices[at].events.make_room(ev);
            }
        }
    }

    /// What a command maps.
    pub fn map(&mut self, command: Command) {
        match command {
            Command::Mapd { dev, bits, table } => {
                let device = Device { dev, bits, table, events: EventPages { directory: Vec::new() } };
                match self.devices.binary_search_by_key(&dev, |device| device.dev) {
                    Ok(at) => self.devices[at] = device,
                    Err(at) => self.devices.insert(at, device),
                }
            }
            Command::Mapti { dev, ev, intid, icid } => {
                if let Ok(at) = self.devices.binary_search_by_key(&dev, |device| device.dev) {
                    self.devices[at].events.insert(ev, intid, icid);
                }
            }
            _ => {}
        }
    }

    /// Has a processor read again the bytes that a command is about.
    pub fn reread(&self, command: Command, memory: &Pages, config: &mut Config) {
        match command {
            Command::Mapti { intid, .. } => config.read(memory, intid),
            Command::Inv { dev, ev } => {
                if let Some((intid, _)) = self.event(dev, ev) {
                    config.read(memory, intid);
                }
            }
            Command::Invall { icid } => {
                for page in self.devices.iter().flat_map(|device| &device.events.directory) {
                    for (intid, _) in page.1.iter().flatten().filter(|event| event.1 == icid) {
                        config.read(memory, *intid);
                    }
                }
            }
            _ => {}
        }
    }
}

fn bytes(memory: &Pages, at: usize, count: usize) -> &[u8] {
    &memory.held[at / HELD_PAGE].as_ref().expect("held")[at % HELD_PAGE..][..count]
}

/// The bytes that a processor has read: what is enabled, and the priorities.
pub struct Config {
    enabled: Vec<u64>,
    priorities: Vec<u8>,
}

impl Config {
    fn new() -> Config {
        Config { enabled: vec![0; LPIS / 64], priorities: vec![0; LPIS] }
    }

    fn read(&mut self, memory: &Pages, intid: u32) {
        let at = (intid - FIRST_LPI) as usize;
        let byte = bytes(memory, CONFIG + at, 1)[0];
        let (word, bit) = (&mut self.enabled[at / 64], 1u64 << (at % 64));
        *word = if byte & 1 != 0 { *word | bit } else { *word & !bit };
        self.priorities[at] = byte & 0xfc;
    }

    /// The lowest LPI that is pending and enabled.
    pub fn lowest(&self, pending: &Redist) -> Option<u32> {
        for (group, summary) in pending.summary.iter().enumerate() {
            let mut left = *summary;
            while left != 0 {
                let word = 64 * group + left.trailing_zeros() as usize;
                let ready = pending.pending[word] & self.enabled[word];
                if ready != 0 {
                    return Some(FIRST_LPI + 64 * word as u32 + ready.trailing_zeros());
                }
                left &= left - 1;
            }
        }
        None
    }
}

/// Guest memory with the configuration of each LPI and a queue of these commands in all places, by turns.
pub fn memory(commands: &[Command]) -> Pages {
    let mut memory = Pages { held: (0..MEMORY_BYTES / HELD_PAGE).map(|_| None).collect() };
    memory.held[CONFIG / HELD_PAGE] = Some(vec![0xa1; HELD_PAGE].into_boxed_slice());
    let places = commands.iter().cycle().take(QUEUE_BYTES / 32);
    let queue: Vec<u8> = places.flat_map(|command| command.words()).flat_map(|word| word.to_le_bytes()).collect();
    memory.held[QUEUE / HELD_PAGE] = Some(match queue.is_empty() {
        true => vec![0; HELD_PAGE].into_boxed_slice(),
        false => queue.into_boxed_slice(),
    });
    memory
}

/// Writes a command in a place of the queue.
pub fn write_command(memory: &mut Pages, place: usize, command: Command) {
    let at = QUEUE + 32 * place % QUEUE_BYTES;
    let page = memory.held[at / HELD_PAGE].as_mut().expect("held");
    for (number, word) in command.words().into_iter().enumerate() {
        page[at % HELD_PAGE + 8 * number..][..8].copy_from_slice(&word.to_le_bytes());
    }
}

/// The pages that a save writes, with every place of every table.
pub fn drafts<'a>(memory: &Pages, maps: &Maps, pending: impl Iterator<Item = &'a Redist>) -> Vec<Option<Page>> {
    let mut drafts: Vec<Option<Page>> = memory.held.iter().map(|_| None).collect();
    memory.draft_table(&mut drafts, DEVICE_TABLE, TABLE_BYTES / 8, |first, words| {
        let place = |end: usize| maps.devices.partition_point(|device| (device.dev as usize) < end);
        for device in &maps.devices[place(first)..place(first + words.len())] {
            let table = (0x8000_0000 + device.table) as u64 >> 8;
            words[device.dev as usize - first] = 1 << 63 | table << 5 | u64::from(device.bits - 1);
        }
    });
    memory.draft_table(&mut drafts, COLLECTION_TABLE, TABLE_BYTES / 8, |first, words| {
        for (icid, vcpu) in maps.collections.iter().enumerate().skip(first).take(words.len()) {
            words[icid - first] = vcpu.map_or(0, |vcpu| 1 << 63 | u64::from(vcpu) << 16 | icid as u64);
        }
    });
    for device in &maps.devices {
        let fill = |first: usize, words: &mut [u64]| device.events.words(first as u32, words);
        memory.draft_table(&mut drafts, device.table, 1 << device.bits, fill);
    }
    for (vcpu, pending) in pending.enumerate() {
        let table = PENDING_TABLE + TABLE_BYTES * vcpu + 1024;
        memory.draft_table(&mut drafts, table, pending.pending.len(), |first, words| {
            words.copy_from_slice(&pending.pending[first..][..words.len()]);
        });
    }
    drafts
}

pub fn lay(memory: &mut Pages, drafts: Vec<Option<Page>>) {
    for (held, draft) in memory.held.iter_mut().zip(drafts) {
        if draft.is_some() {
            *held = draft;
        }
    }
}

/// All parts of a machine.
pub struct Whole {
    pub maps: Maps,
    pub memory: Pages,
    pub configs: Vec<Config>,
    pub pending: Vec<Redist>,
    pub place: u64,
}

impl Whole {
    pub fn new(vcpus: u8, commands: &[Command]) -> Whole {
        Whole {
            maps: Maps::new(),
            memory: memory(commands),
            configs: (0..vcpus).map(|_| Config::new()).collect(),
            pending: (0..vcpus).map(|_| Redist::new()).collect(),
            place: 0,
        }
    }

    pub fn run(&mut self, command: Command) {
        self.maps.map(command);
        for config in &mut self.configs {
            self.maps.reread(command, &self.memory, config);
        }
        if let Command::Int { dev, ev } = command {
            self.deliver(dev, ev);
        }
    }

    fn deliver(&mut self, dev: u32, ev: u32) -> Option<Target> {
        let target = self.maps.target(dev, ev)?;
        self.pending[target.vcpu as usize].put(target.intid, true);
        Some(target)
    }

    #[inline(never)]
    pub fn signal(&mut self, dev: u32, ev: u32) -> (u64, Target) {
        self.place += 1;
        (self.place, self.deliver(dev, ev).expect("mapped"))
    }

    #[inline(never)]
    pub fn step(&mut self) -> u64 {
        let command = self.maps.next_command(&self.memory);
        self.maps.go_on();
        self.run(command);
        self.place += 1;
        self.place
    }

    #[inline(never)]
    pub fn take(&mut self, vcpu: u8) -> Option<u32> {
        self.place += 1;
        let pending = &mut self.pending[vcpu as usize];
        let lowest = self.configs[vcpu as usize].lowest(pending);
        if let Some(intid) = lowest {
            pending.put(intid, false);
        }
        lowest
    }

    #[inline(never)]
    pub fn save(&mut self) -> u64 {
        let drafts = drafts(&self.memory, &self.maps, self.pending.iter());
        lay(&mut self.memory, drafts);
        self.place += 1;
        self.place
    }
}
