//! Calls through a pass, each tried until it isn't busy, and written down with its place and what it
//! was told: what threads.rs makes, over the C interface alone.
use crate::raw::{
    Ack, Description, Event, Fill, MakeFault, Redistributor, Requesters, SaveFault, Signal, Step, Stretch,
    Translator, Window,
};
use std::ffi::c_void;
use std::ptr::null_mut;
use std::time::Duration;
use std::{fmt, hint, thread};

pub const DONE: u32 = 0;
const OUTSIDE: u32 = 2;
const BUSY: u32 = 7;
const RAN: u32 = 1;

const CAUSES: [&str; 6] = ["", "disabled", "no-device", "no-event", "no-collection", "lpis-off"];
const OPS: [&str; 16] = [
    "0x0", "movi", "0x2", "int", "clear", "sync", "0x6", "0x7", "mapd", "mapc", "mapti", "mapi", "inv",
    "invall", "movall", "discard",
];

/// A mapped device.
#[repr(C)]
#[derive(Clone, Copy, Debug, Default, PartialEq, Eq)]
pub struct Device {
    pub device: u32,
    pub event_bits: u32,
    pub itt: u64,
}

#[link(name = "its_shared", kind = "static")]
extern "C" {
    pub fn its_share(
        root: *mut Pass,
        numbers: *const Description,
        translators: *const Translator,
        translators_len: usize,
        windows: *const Window,
        windows_len: usize,
        pending: *const u64,
        pending_len: usize,
        redistributors: *const Redistributor,
        redistributors_len: usize,
        requesters: *const Requesters,
        requesters_len: usize,
        fills: *const Fill,
        fills_len: usize,
        bytes: *const u8,
        bytes_len: usize,
        fault: *mut MakeFault,
    ) -> u32;
    pub fn its_split(root: *mut Pass, pass: *mut Pass) -> u32;
    fn its_pass_limits(pass: *mut Pass, events: u64, devices: u64, memory: u64) -> u32;
    fn its_pass_free(pass: *mut Pass) -> u32;
    fn its_pass_signal(
        pass: *mut Pass,
        translator: u32,
        device: u32,
        event: u32,
        place: *mut u64,
        out: *mut Signal,
    ) -> u32;
    fn its_pass_take(pass: *mut Pass, vcpu: u32, place: *mut u64, out: *mut Ack) -> u32;
    fn its_pass_write_register(
        pass: *mut Pass,
        translator: u32,
        offset: u32,
        size: u32,
        value: u64,
        place: *mut u64,
    ) -> u32;
    fn its_pass_step(pass: *mut Pass, translator: u32, place: *mut u64, out: *mut Step) -> u32;
    fn its_pass_write_memory(
        pass: *mut Pass,
        address: u64,
        bytes: *const u8,
        len: usize,
        place: *mut u64,
    ) -> u32;
    fn its_pass_read_memory(
        pass: *mut Pass,
        address: u64,
        buffer: *mut u8,
        len: usize,
        place: *mut u64,
    ) -> u32;
    fn its_pass_save(pass: *mut Pass, place: *mut u64, fault: *mut SaveFault) -> u32;
    fn its_pass_event(
        pass: *mut Pass,
        translator: u32,
        device: u32,
        event: u32,
        place: *mut u64,
        out: *mut Event,
    ) -> u32;
    fn its_pass_pending(
        pass: *mut Pass,
        vcpu: u32,
        place: *mut u64,
        list: *mut u32,
        len: usize,
        count: *mut u64,
    ) -> u32;
    fn its_pass_needs(
        pass: *mut Pass,
        translator: u32,
        place: *mut u64,
        list: *mut Stretch,
        len: usize,
        count: *mut u64,
    ) -> u32;
    fn its_pass_written(
        pass: *mut Pass,
        place: *mut u64,
        list: *mut Stretch,
        len: usize,
        count: *mut u64,
    ) -> u32;
    fn its_pass_list_devices(
        pass: *mut Pass,
        translator: u32,
        from: u32,
        place: *mut u64,
        list: *mut Device,
        len: usize,
        count: *mut u64,
    ) -> u32;
}

/// A pass, whose end frees it.
#[repr(C)]
pub struct Pass {
    pub at: *mut c_void,
}

// A pass may go to another thread between two calls; `&mut` sees to one call at a time.
unsafe impl Send for Pass {}

impl Drop for Pass {
    fn drop(&mut self) {
        if !self.at.is_null() {
            unsafe { its_pass_free(self) };
        }
    }
}

/// A call that was made.
pub struct Call {
    pub place: u64,
    pub asked: String,
    pub replied: String,
}

/// A thread's pass, with its calls in their order and how often one was busy.
pub struct Caller {
    pub pass: Pass,
    pub calls: Vec<Call>,
    pub busy: u64,
}

// After so many tries it is waited anew.
const ROUNDS: u32 = 65;

/// Waits after a try, as its_wait of include/its_wait.h does.
fn wait(round: u32) {
    match round % ROUNDS {
        0..=15 => (0..=round % ROUNDS).for_each(|_| hint::spin_loop()),
        16..=63 => thread::yield_now(),
        _ => thread::sleep(Duration::from_millis(1)),
    }
}

impl Caller {
    pub fn new(pass: Pass) -> Caller {
        Caller { pass, calls: Vec::new(), busy: 0 }
    }

    /// By this pass, and by those that are split off it, the guest maps no more than this.
    pub fn bound(&mut self, events: u64, devices: u64) {
        let code = unsafe { its_pass_limits(&mut self.pass, events, devices, u64::MAX) };
        assert_eq!(code, DONE, "what its_pass_limits answers");
    }

    /// Tries a call until it isn't busy: what it answers, at which place.
    fn tried(&mut self, mut call: impl FnMut(&mut Pass, &mut u64) -> u32) -> (u32, u64) {
        let mut place = 0;
        for round in 0..10_000 * ROUNDS {
            match call(&mut self.pass, &mut place) {
                BUSY => wait(round),
                code => return (code, place),
            }
            self.busy += 1;
        }
        panic!("a call was busy for ten seconds");
    }

    /// The same of a call that has to be made.
    fn made(&mut self, call: impl FnMut(&mut Pass, &mut u64) -> u32) -> u64 {
        let (code, place) = self.tried(call);
        assert_eq!(code, DONE, "what a call answers");
        place
    }

    fn note(&mut self, place: u64, asked: String, replied: impl fmt::Display) {
        self.calls.push(Call { place, asked, replied: replied.to_string() });
    }

    pub fn write_memory(&mut self, address: u64, bytes: &[u8]) {
        let (code, place) = self.tried(|pass, place| unsafe {
            its_pass_write_memory(pass, address, bytes.as_ptr(), bytes.len(), place)
        });
        assert!(code == DONE || code == OUTSIDE, "its_pass_write_memory answers {code}");
        let replied = if code == DONE { "ok" } else { "outside" };
        self.note(place, format!("poke {address:#x} {}", hex(bytes)), replied);
    }

    /// Reads at most 64 bytes.
    pub fn read_memory(&mut self, address: u64, length: usize) {
        let mut bytes = [0; 64];
        let place = self.made(|pass, place| unsafe {
            its_pass_read_memory(pass, address, bytes.as_mut_ptr(), length, place)
        });
        let replied = format!("bytes {}", hex(&bytes[..length]));
        self.note(place, format!("peek {address:#x} {length}"), replied);
    }

    pub fn write_register(&mut self, offset: u32, size: u32, value: u64) {
        let place =
            self.made(|pass, place| unsafe { its_pass_write_register(pass, 0, offset, size, value, place) });
        self.note(place, format!("write {offset:#x} {size} {value:#x}"), "ok");
    }

    pub fn signal(&mut self, device: u32, event: u32) {
        let mut out = Signal::default();
        let place =
            self.made(|pass, place| unsafe { its_pass_signal(pass, 0, device, event, place, &mut out) });
        let replied = match out.cause {
            0 => format!("delivered {} {}", out.vcpu, out.intid),
            cause => format!("dropped {}", CAUSES[cause as usize]),
        };
        self.note(place, format!("signal {device} {event}"), replied);
    }

    /// Acknowledges, and says whether there was an LPI.
    pub fn take(&mut self, vcpu: u32) -> bool {
        let mut out = Ack::default();
        let place = self.made(|pass, place| unsafe { its_pass_take(pass, vcpu, place, &mut out) });
        let replied = match out.intid {
            0 => "none".to_string(),
            intid => format!("lpi {intid} {:#x}", out.priority),
        };
        self.note(place, format!("take {vcpu}"), replied);
        out.intid != 0
    }

    pub fn step(&mut self) {
        let mut out = Step::default();
        let place = self.made(|pass, place| unsafe { its_pass_step(pass, 0, place, &mut out) });
        assert_eq!(out.outcome, RAN, "the outcome of a step");
        self.note(place, "step".to_string(), format_args!("ran {}", OPS[out.op as usize]));
    }

    /// At which place.
    pub fn save(&mut self) -> u64 {
        let mut fault = SaveFault::default();
        let place = self.made(|pass, place| unsafe { its_pass_save(pass, place, &mut fault) });
        self.note(place, "save".to_string(), "saved");
        place
    }

    // ---- looks, which aren't of the history

    /// The stretches that the next step reads: its command first, and what that reads besides.
    pub fn needs(&mut self) -> Vec<Stretch> {
        let (mut list, mut count) = ([Stretch::default(); 2], 0);
        self.made(|pass, place| unsafe {
            its_pass_needs(pass, 0, place, list.as_mut_ptr(), list.len(), &mut count)
        });
        list[..count as usize].to_vec()
    }

    /// The virtual processor that an event leads to.
    pub fn lead(&mut self, device: u32, event: u32) -> u32 {
        let mut out = Event::default();
        self.made(|pass, place| unsafe { its_pass_event(pass, 0, device, event, place, &mut out) });
        assert_eq!(out.cause, 0, "where device {device} and event {event} lead");
        out.vcpu
    }

    /// How many LPIs are pending at a virtual processor.
    pub fn pending(&mut self, vcpu: u32) -> u64 {
        let mut count = 0;
        self.made(|pass, place| unsafe { its_pass_pending(pass, vcpu, place, null_mut(), 0, &mut count) });
        count
    }

    /// The tables that the save at a place wrote, where no other call came before they were asked
    /// for.
    pub fn written(&mut self, saved: u64) -> Option<Vec<Stretch>> {
        let (mut list, mut count) = ([Stretch::default(); 16], 0);
        let place = self.made(|pass, place| unsafe {
            its_pass_written(pass, place, list.as_mut_ptr(), list.len(), &mut count)
        });
        (place == saved + 1).then(|| list[..count as usize].to_vec())
    }

    /// The first mapped device from a DeviceID on.
    pub fn next_device(&mut self, from: u32) -> Option<Device> {
        let (mut device, mut count) = (Device::default(), 0);
        self.made(|pass, place| unsafe {
            its_pass_list_devices(pass, 0, from, place, &mut device, 1, &mut count)
        });
        (count == 1).then_some(device)
    }
}

fn hex(bytes: &[u8]) -> String {
    bytes.iter().map(|byte| format!("{byte:02x}")).collect()
}
