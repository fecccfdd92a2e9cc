//! A small monitor: a device that is mapped, signals and acknowledgements, a save while an LPI is
//! pending, and the saved machine brought up again on another thread.
mod its;
mod raw;

use its::{
    text, Description, Error, Fill, Its, Made, Redistributor, Requesters, Stretch, Tables, Translator, Window,
};
use std::{slice, thread};

const RAM: u64 = 0x8000_0000;
const SIZE: usize = 0x20_0000;
const QUEUE: u64 = RAM + 0x2_0000;
const CONFIG: u64 = RAM + 0x3_0000;
const TABLES: [u64; 2] = [RAM + 0x4_0000, RAM + 0x5_0000];
const FRAMES: u64 = 0x90_0000_0000;

/// MAPD of device 7 with 4 EventID bits, MAPC of collection 0 to processor 1, and MAPTI of its event
/// 2 to LPI 8192.
const COMMANDS: [[u64; 4]; 3] = [
    [0x7_0000_0008, 3, 0x8000_0000_800c_0000, 0],
    [9, 0, 0x8000_0000_0001_0000, 0],
    [0x7_0000_000a, 0x2000_0000_0002, 0, 0],
];

const WINDOWS: [Window; 1] = [Window { base: RAM, length: 1 << 36 }];

const REQUESTERS: [Requesters; 1] = [Requesters { first: 0x10, last: 0x1f, device: 7 }];

fn numbers() -> Description {
    Description {
        vcpus: 2,
        device_bits: 16,
        lpi_bits: 16,
        profile: 1,
        config: CONFIG,
        event_limit: u64::MAX,
        device_limit: u64::MAX,
        memory_limit: u64::MAX,
        ..Description::default()
    }
}

fn translator() -> Translator {
    Translator { has_frames: 1, frames: FRAMES, ..Translator::default() }
}

fn made<'a>(
    numbers: &'a Description,
    translator: &'a Translator,
    fills: &'a [Fill],
    bytes: &'a [u8],
) -> Made<'a> {
    let (translators, tables) = (slice::from_ref(translator), Tables::Described(&TABLES));
    Made { numbers, translators, windows: &WINDOWS, tables, requesters: &REQUESTERS, fills, bytes }
}

/// Guest memory, of which the library has a copy.
struct Ram(Vec<u8>);

impl Ram {
    fn part(&mut self, stretch: Stretch) -> Option<&mut [u8]> {
        let at = usize::try_from(stretch.address.checked_sub(RAM)?).ok()?;
        self.0.get_mut(at..at.checked_add(stretch.length as usize)?)
    }

    /// What the guest has no memory for is passed over.
    fn copy_in(&mut self, its: &mut Its, stretches: &[Stretch]) -> Result<(), Error<()>> {
        for stretch in stretches {
            if let Some(bytes) = self.part(*stretch) {
                its.write(stretch.address, bytes)?;
            }
        }
        Ok(())
    }

    fn copy_out(&mut self, its: &mut Its) -> Result<(), Error<()>> {
        for table in its.written()? {
            if let Some(bytes) = self.part(table) {
                its.read(table.address, bytes)?;
            }
        }
        Ok(())
    }
}

fn drive(its: &mut Its, ram: &mut Ram) -> Result<(), Error<()>> {
    its.store(0, 0x100, 8, 0x8107_0000_0000_0200 | RAM)?;
    its.store(0, 0x108, 8, 0x8407_0000_0000_0200 | (RAM + 0x1_0000))?;
    its.store(0, 0x80, 8, 0x8000_0000_0000_0000 | QUEUE)?;
    its.store(0, 0x0, 4, 1)?;
    let bytes: Vec<u8> = COMMANDS.iter().flatten().flat_map(|word| word.to_le_bytes()).collect();
    ram.0[0x2_0000..0x2_0000 + bytes.len()].copy_from_slice(&bytes);
    its.store(0, 0x88, 8, bytes.len() as u64)?;
    its.limit(0)?;
    while let Some(command) = its.needs(0)?.first().copied() {
        ram.copy_in(its, &[command])?;
        let needs = its.needs(0)?;
        ram.copy_in(its, &needs[1..])?;
        match its.step(0) {
            Ok(step) => println!("{} {step:?}", needs.len()),
            Err(Error::Full) => its.limit(1)?,
            Err(error) => return Err(error),
        }
    }
    Ok(())
}

/// What a save and the registers have of a machine.
struct Saved {
    translator: Translator,
    fills: Vec<Fill>,
    bytes: Vec<u8>,
}

fn saved(its: &mut Its, ram: &mut Ram) -> Result<Saved, Error<()>> {
    ram.copy_out(its)?;
    let (mut fills, mut bytes) = (Vec::new(), Vec::new());
    for page in its.pages()? {
        fills.push(Fill { address: page.address, length: page.length });
        bytes.extend_from_slice(ram.part(page).expect("pages of the guest's memory"));
    }
    let translator = Translator {
        ctlr: its.load(0, 0x0, 4)?,
        cbaser: its.load(0, 0x80, 8)?,
        cwriter: its.load(0, 0x88, 8)?,
        creadr: its.load(0, 0x90, 8)?,
        baser0: its.load(0, 0x100, 8)?,
        baser1: its.load(0, 0x108, 8)?,
        ..translator()
    };
    Ok(Saved { translator, fills, bytes })
}

/// A machine whose guest programs the LPI registers.
fn programmed() -> Result<(u64, Redistributor), Error<()>> {
    let numbers = Description { programmed: 1, ..numbers() };
    let registers = [Redistributor::default(); 2];
    let tables = Tables::Programmed(&registers);
    let translator = translator();
    let from = Made { tables, ..made(&numbers, &translator, &[], &[]) };
    let mut its = Its::new(&from).expect("a machine");
    its.store_lpi(0, 0x70, 8, CONFIG | 15)?;
    its.store_lpi(0, 0x78, 8, 0x4000_0000_0000_0000 | TABLES[0])?;
    its.store_lpi(0, 0x0, 4, 1)?;
    Ok((its.load_lpi(0, 0x0, 4)?, its.stored_lpi(0)?))
}

fn main() {
    let mut ram = Ram(vec![0; SIZE]);
    ram.0[0x3_0000] = 0xa1;
    let enabled = [Fill { address: CONFIG, length: 1 }];
    let mut its = Its::new(&made(&numbers(), &translator(), &enabled, &[0xa1])).expect("a machine");
    drive(&mut its, &mut ram).expect("three commands");
    println!("{:?}", its.event(0, 7, 2));
    println!("{:?}", its.signal(0, 7, 2));
    println!("{:?} {:?}", its.take(1), its.take(1));
    println!("{:?}", its.dma(0x10, FRAMES + 0x1_0040, &[2, 0, 0, 0]));
    println!("{:?} {:?} {:?}", its.show(1), its.best(1, 0xa0), its.claim(1, 8193));
    println!("{:?}", its.pending(1));
    its.save().expect("a state that can be saved");
    let saved = saved(&mut its, &mut ram).expect("memory and registers");
    println!("{} pages", saved.fills.len());
    let restored = Description { restored: 1, ..numbers() };
    let whole = made(&restored, &saved.translator, &saved.fills, &saved.bytes);
    let mut next = Its::new(&whole).expect("the saved machine");
    drop(its);
    let taken = thread::spawn(move || {
        let taken = (next.take(1), next.signal(0, 7, 2), next.take(2));
        next.migrate().expect("a state that can be saved");
        next.forget(RAM, SIZE as u64).expect("memory");
        (taken, next.pages().expect("none").len())
    });
    println!("{:?}", taken.join().expect("a thread that ends"));
    println!("{:?}", programmed());
    let wrong = Description { config: 0, ..numbers() };
    match Its::new(&made(&wrong, &translator(), &[], &[])) {
        Err(Error::Fault(fault)) => println!("{:?}", text(2, fault.kind)),
        _ => println!("a machine, and none is expected"),
    }
}
