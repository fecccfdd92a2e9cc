//! A safe machine over the library. `&mut self` makes its calls one at a time, it goes to another
//! thread as a whole, and it is freed once.
use crate::raw;
pub use crate::raw::{
    Ack, Description, Dma, Event, Fill, MakeFault, Redistributor, Requesters, SaveFault, Signal, Step,
    Stretch, Translator, Window,
};
use std::ptr::null_mut;

/// Why a call was not made.
#[derive(Debug, PartialEq, Eq)]
pub enum Error<F> {
    NoMemory,
    Outside,
    Range,
    Fault(F),
    Full,
}

fn done<F>(code: u32, fault: F) -> Result<(), Error<F>> {
    match code {
        0 => Ok(()),
        1 => Err(Error::NoMemory),
        2 => Err(Error::Outside),
        3 => Err(Error::Range),
        4 => Err(Error::Fault(fault)),
        6 => Err(Error::Full),
        _ => unreachable!("an Its has its machine"),
    }
}

/// The word of a number in one of the eight lists of its.h.
pub fn text(list: u32, number: u32) -> Option<String> {
    let mut bytes = [0; 24];
    let mut count = 0;
    let code = unsafe { raw::its_text(list, number, bytes.as_mut_ptr(), bytes.len(), &mut count) };
    (code == 0).then(|| String::from_utf8_lossy(&bytes[..count as usize]).into_owned())
}

/// Where the LPI tables are.
pub enum Tables<'a> {
    /// The pending table of each virtual processor.
    Described(&'a [u64]),
    /// The guest programs them; these registers are restored.
    Programmed(&'a [Redistributor]),
}

/// All that a machine is made from.
pub struct Made<'a> {
    pub numbers: &'a Description,
    /// One or two. A call that asks one has its number first, 0 or 1.
    pub translators: &'a [Translator],
    pub windows: &'a [Window],
    pub tables: Tables<'a>,
    pub requesters: &'a [Requesters],
    pub fills: &'a [Fill],
    pub bytes: &'a [u8],
}

pub struct Its {
    handle: raw::Handle,
}

// The library has no state but the machine's own, and starts no thread.
unsafe impl Send for Its {}

impl Its {
    pub fn new(from: &Made) -> Result<Its, Error<MakeFault>> {
        let mut its = Its { handle: raw::Handle { at: null_mut() } };
        let mut fault = MakeFault::default();
        let (pending, redistributors): (&[u64], &[Redistributor]) = match from.tables {
            Tables::Described(pending) => (pending, &[]),
            Tables::Programmed(redistributors) => (&[], redistributors),
        };
        let code = unsafe {
            raw::its_new(
                &mut its.handle,
                from.numbers,
                from.translators.as_ptr(),
                from.translators.len(),
                from.windows.as_ptr(),
                from.windows.len(),
                pending.as_ptr(),
                pending.len(),
                redistributors.as_ptr(),
                redistributors.len(),
                from.requesters.as_ptr(),
                from.requesters.len(),
                from.fills.as_ptr(),
                from.fills.len(),
                from.bytes.as_ptr(),
                from.bytes.len(),
                &mut fault,
            )
        };
        done(code, fault).map(|()| its)
    }

    /// Makes a call that tells something in one place.
    fn told<T: Default>(
        &mut self,
        call: impl FnOnce(*mut raw::Handle, *mut T) -> u32,
    ) -> Result<T, Error<()>> {
        let mut out = T::default();
        done(call(&mut self.handle, &mut out), ()).map(|()| out)
    }

    /// Makes a call that tells a list, as often as its whole length wants.
    fn listed<T: Default + Clone>(
        &mut self,
        call: impl Fn(*mut raw::Handle, *mut T, usize, *mut u64) -> u32,
    ) -> Result<Vec<T>, Error<()>> {
        let mut list = vec![T::default(); 18];
        loop {
            let mut count = 0;
            done(call(&mut self.handle, list.as_mut_ptr(), list.len(), &mut count), ())?;
            let fits = count as usize <= list.len();
            list.resize(count as usize, T::default());
            if fits {
                return Ok(list);
            }
        }
    }

    pub fn load(&mut self, translator: u32, offset: u32, size: u32) -> Result<u64, Error<()>> {
        self.told(|its, out| unsafe { raw::its_read_register(its, translator, offset, size, out) })
    }

    pub fn store(&mut self, translator: u32, offset: u32, size: u32, value: u64) -> Result<(), Error<()>> {
        let its = &mut self.handle;
        done(unsafe { raw::its_write_register(its, translator, offset, size, value) }, ())
    }

    pub fn load_lpi(&mut self, vcpu: u32, offset: u32, size: u32) -> Result<u64, Error<()>> {
        self.told(|its, out| unsafe { raw::its_read_lpi_register(its, vcpu, offset, size, out) })
    }

    pub fn store_lpi(&mut self, vcpu: u32, offset: u32, size: u32, value: u64) -> Result<(), Error<()>> {
        let its = &mut self.handle;
        done(unsafe { raw::its_write_lpi_register(its, vcpu, offset, size, value) }, ())
    }

    pub fn stored_lpi(&mut self, vcpu: u32) -> Result<Redistributor, Error<()>> {
        self.told(|its, out| unsafe { raw::its_stored_lpi_registers(its, vcpu, out) })
    }

    pub fn read(&mut self, address: u64, buffer: &mut [u8]) -> Result<(), Error<()>> {
        let (at, len) = (buffer.as_mut_ptr(), buffer.len());
        done(unsafe { raw::its_read_memory(&mut self.handle, address, at, len) }, ())
    }

    pub fn write(&mut self, address: u64, bytes: &[u8]) -> Result<(), Error<()>> {
        let (at, len) = (bytes.as_ptr(), bytes.len());
        done(unsafe { raw::its_write_memory(&mut self.handle, address, at, len) }, ())
    }

    pub fn forget(&mut self, address: u64, length: u64) -> Result<(), Error<()>> {
        done(unsafe { raw::its_forget(&mut self.handle, address, length) }, ())
    }

    /// The pages that are held. All other bytes are zero.
    pub fn pages(&mut self) -> Result<Vec<Stretch>, Error<()>> {
        let mut pages: Vec<Stretch> = Vec::new();
        loop {
            let from = pages.last().map_or(0, |page| page.address + page.length);
            let page: Stretch = self.told(|its, out| unsafe { raw::its_next_page(its, from, out) })?;
            if page.length == 0 {
                return Ok(pages);
            }
            pages.push(page);
        }
    }

    pub fn signal(&mut self, translator: u32, device: u32, event: u32) -> Result<Signal, Error<()>> {
        self.told(|its, out| unsafe { raw::its_signal(its, translator, device, event, out) })
    }

    pub fn dma(&mut self, requester: u32, address: u64, bytes: &[u8]) -> Result<Dma, Error<()>> {
        let (at, len) = (bytes.as_ptr(), bytes.len());
        self.told(|its, out| unsafe { raw::its_dma(its, requester, address, at, len, out) })
    }

    pub fn event(&mut self, translator: u32, device: u32, event: u32) -> Result<Event, Error<()>> {
        self.told(|its, out| unsafe { raw::its_event(its, translator, device, event, out) })
    }

    pub fn take(&mut self, vcpu: u32) -> Result<Ack, Error<()>> {
        self.told(|its, out| unsafe { raw::its_take(its, vcpu, out) })
    }

    pub fn show(&mut self, vcpu: u32) -> Result<Ack, Error<()>> {
        self.told(|its, out| unsafe { raw::its_show(its, vcpu, out) })
    }

    pub fn best(&mut self, vcpu: u32, mask: u32) -> Result<Ack, Error<()>> {
        self.told(|its, out| unsafe { raw::its_best(its, vcpu, mask, out) })
    }

    pub fn claim(&mut self, vcpu: u32, intid: u32) -> Result<Ack, Error<()>> {
        self.told(|its, out| unsafe { raw::its_claim(its, vcpu, intid, out) })
    }

    pub fn pending(&mut self, vcpu: u32) -> Result<Vec<u32>, Error<()>> {
        self.listed(|its, list, len, count| unsafe { raw::its_pending(its, vcpu, list, len, count) })
    }

    pub fn needs(&mut self, translator: u32) -> Result<Vec<Stretch>, Error<()>> {
        self.listed(|its, list, len, count| unsafe { raw::its_needs(its, translator, list, len, count) })
    }

    pub fn step(&mut self, translator: u32) -> Result<Step, Error<()>> {
        self.told(|its, out| unsafe { raw::its_step(its, translator, out) })
    }

    pub fn limit(&mut self, events: u64) -> Result<(), Error<()>> {
        done(unsafe { raw::its_limit(&mut self.handle, events) }, ())
    }

    pub fn save(&mut self) -> Result<(), Error<SaveFault>> {
        let mut fault = SaveFault::default();
        done(unsafe { raw::its_save(&mut self.handle, &mut fault) }, fault)
    }

    pub fn written(&mut self) -> Result<Vec<Stretch>, Error<()>> {
        self.listed(|its, list, len, count| unsafe { raw::its_written(its, list, len, count) })
    }

    pub fn migrate(&mut self) -> Result<(), Error<SaveFault>> {
        let mut fault = SaveFault::default();
        done(unsafe { raw::its_migrate(&mut self.handle, &mut fault) }, fault)
    }
}

impl Drop for Its {
    fn drop(&mut self) {
        // A handle that has no machine is answered so, and nothing happens.
        unsafe { raw::its_free(&mut self.handle) };
    }
}
