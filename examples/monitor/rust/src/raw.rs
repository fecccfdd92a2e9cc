//! The declarations of include/its.h, and the heap that the library calls.
use std::ffi::c_void;
use std::os::raw::c_char;

#[repr(C)]
pub struct Handle {
    pub at: *mut c_void,
}

#[repr(C)]
#[derive(Clone, Copy, Default)]
pub struct Description {
    pub vcpus: u32,
    pub device_bits: u32,
    pub lpi_bits: u32,
    pub profile: u32,
    pub programmed: u32,
    pub restored: u32,
    pub linux_guest: u32,
    pub config: u64,
    pub event_limit: u64,
    pub device_limit: u64,
    pub memory_limit: u64,
}

#[repr(C)]
#[derive(Clone, Copy, Default)]
pub struct Translator {
    pub has_frames: u32,
    pub frames: u64,
    pub ctlr: u64,
    pub cbaser: u64,
    pub creadr: u64,
    pub cwriter: u64,
    pub baser0: u64,
    pub baser1: u64,
}

#[repr(C)]
#[derive(Clone, Copy)]
pub struct Window {
    pub base: u64,
    pub length: u64,
}

#[repr(C)]
#[derive(Clone, Copy)]
pub struct Fill {
    pub address: u64,
    pub length: u64,
}

#[repr(C)]
#[derive(Clone, Copy)]
pub struct Requesters {
    pub first: u32,
    pub last: u32,
    pub device: u32,
}

#[repr(C)]
#[derive(Clone, Copy, Debug, Default, PartialEq, Eq)]
pub struct Redistributor {
    pub ctlr: u64,
    pub propbaser: u64,
    pub pendbaser: u64,
}

#[repr(C)]
#[derive(Clone, Copy, Debug, Default, PartialEq, Eq)]
pub struct MakeFault {
    pub kind: u32,
    pub translator: u32,
    pub vcpu: u32,
    pub device: u32,
    pub event: u32,
    pub intid: u32,
    pub collection: u32,
    pub table: u32,
    pub entry: u32,
    pub distance: u32,
    pub register_offset: u32,
    pub number: u64,
    pub address: u64,
}

#[repr(C)]
#[derive(Clone, Copy, Debug, Default, PartialEq, Eq)]
pub struct SaveFault {
    pub kind: u32,
    pub translator: u32,
    pub device: u32,
    pub region: u32,
    pub number: u32,
    pub other_region: u32,
    pub other_number: u32,
    pub other_translator: u32,
}

#[repr(C)]
#[derive(Clone, Copy, Debug, Default, PartialEq, Eq)]
pub struct Signal {
    pub cause: u32,
    pub vcpu: u32,
    pub intid: u32,
}

#[repr(C)]
#[derive(Clone, Copy, Debug, Default, PartialEq, Eq)]
pub struct Dma {
    pub outcome: u32,
    pub signal: Signal,
}

#[repr(C)]
#[derive(Clone, Copy, Debug, Default, PartialEq, Eq)]
pub struct Event {
    pub cause: u32,
    pub intid: u32,
    pub collection: u32,
    pub vcpu: u32,
}

#[repr(C)]
#[derive(Clone, Copy, Debug, Default, PartialEq, Eq)]
pub struct Stretch {
    pub address: u64,
    pub length: u64,
}

#[repr(C)]
#[derive(Clone, Copy, Debug, Default, PartialEq, Eq)]
pub struct Ack {
    pub intid: u32,
    pub priority: u32,
}

#[repr(C)]
#[derive(Clone, Copy, Debug, Default, PartialEq, Eq)]
pub struct Step {
    pub outcome: u32,
    pub op: u32,
    pub reason: u32,
    pub address: u64,
    pub concerned: [u64; 8],
}

extern "C" {
    pub fn its_text(list: u32, number: u32, buffer: *mut u8, len: usize, count: *mut u64) -> u32;
    pub fn its_new(
        handle: *mut Handle,
        numbers: *const Description,
        translators: *const Translator,
        translators_len: usize,
        windows: *const Window,
        windows_len: usize,
        pending: *const u64,
        pending_len: usize,
        redistributors: *const Redistributor,
        redistributors_len: usize,
        requesters: *const Requesters,
        requesters_len: usize,
        fills: *const Fill,
        fills_len: usize,
        bytes: *const u8,
        bytes_len: usize,
        fault: *mut MakeFault,
    ) -> u32;
    pub fn its_free(handle: *mut Handle) -> u32;
    pub fn its_read_register(
        handle: *mut Handle,
        translator: u32,
        offset: u32,
        size: u32,
        out: *mut u64,
    ) -> u32;
    pub fn its_write_register(
        handle: *mut Handle,
        translator: u32,
        offset: u32,
        size: u32,
        value: u64,
    ) -> u32;
    pub fn its_read_lpi_register(
        handle: *mut Handle,
        vcpu: u32,
        offset: u32,
        size: u32,
        out: *mut u64,
    ) -> u32;
    pub fn its_write_lpi_register(
        handle: *mut Handle,
        vcpu: u32,
        offset: u32,
        size: u32,
        value: u64,
    ) -> u32;
    pub fn its_stored_lpi_registers(
        handle: *mut Handle,
        vcpu: u32,
        out: *mut Redistributor,
    ) -> u32;
    pub fn its_read_memory(handle: *mut Handle, address: u64, buffer: *mut u8, len: usize) -> u32;
    pub fn its_write_memory(handle: *mut Handle, address: u64, bytes: *const u8, len: usize)
        -> u32;
    pub fn its_forget(handle: *mut Handle, address: u64, length: u64) -> u32;
    pub fn its_next_page(handle: *mut Handle, from: u64, out: *mut Stretch) -> u32;
    pub fn its_signal(
        handle: *mut Handle,
        translator: u32,
        device: u32,
        event: u32,
        out: *mut Signal,
    ) -> u32;
    pub fn its_dma(
        handle: *mut Handle,
        requester: u32,
        address: u64,
        bytes: *const u8,
        len: usize,
        out: *mut Dma,
    ) -> u32;
    pub fn its_event(
        handle: *mut Handle,
        translator: u32,
        device: u32,
        event: u32,
        out: *mut Event,
    ) -> u32;
    pub fn its_take(handle: *mut Handle, vcpu: u32, out: *mut Ack) -> u32;
    pub fn its_show(handle: *mut Handle, vcpu: u32, out: *mut Ack) -> u32;
    pub fn its_best(handle: *mut Handle, vcpu: u32, mask: u32, out: *mut Ack) -> u32;
    pub fn its_claim(handle: *mut Handle, vcpu: u32, intid: u32, out: *mut Ack) -> u32;
    pub fn its_pending(
        handle: *mut Handle,
        vcpu: u32,
        list: *mut u32,
        len: usize,
        count: *mut u64,
    ) -> u32;
    pub fn its_needs(
        handle: *mut Handle,
        translator: u32,
        list: *mut Stretch,
        len: usize,
        count: *mut u64,
    ) -> u32;
    pub fn its_step(handle: *mut Handle, translator: u32, out: *mut Step) -> u32;
    pub fn its_limit(handle: *mut Handle, events: u64) -> u32;
    pub fn its_save(handle: *mut Handle, fault: *mut SaveFault) -> u32;
    pub fn its_written(
        handle: *mut Handle,
        list: *mut Stretch,
        len: usize,
        count: *mut u64,
    ) -> u32;
    pub fn its_migrate(handle: *mut Handle, fault: *mut SaveFault) -> u32;

    fn malloc(size: usize) -> *mut c_void;
    fn realloc(at: *mut c_void, size: usize) -> *mut c_void;
    fn free(at: *mut c_void);
}

/// A block, or a refusal: `ok` is false, and `at` anything that isn't null.
#[repr(C)]
pub struct Block {
    ok: bool,
    at: *mut c_void,
}

static REFUSED: c_char = 0;

fn block(at: *mut c_void) -> Block {
    match at.is_null() {
        false => Block { ok: true, at },
        true => Block { ok: false, at: &REFUSED as *const c_char as *mut c_void },
    }
}

#[no_mangle]
extern "C" fn rattle_alloc(size: usize, align: usize) -> Block {
    block(unsafe { malloc(if size != 0 { size } else { align }) })
}

/// # Safety
/// `at` is a block of this heap.
#[no_mangle]
unsafe extern "C" fn rattle_realloc(at: *mut c_void, _: usize, size: usize, align: usize) -> Block {
    block(realloc(at, if size != 0 { size } else { align }))
}

/// # Safety
/// `at` is a block of this heap.
#[no_mangle]
unsafe extern "C" fn rattle_dealloc(at: *mut c_void) {
    free(at)
}
