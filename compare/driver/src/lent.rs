//! Buffers as they are lent for one call: copies between guards, all of which are looked at when the call is over.
use std::cell::Cell;
use std::marker::PhantomData;
use std::panic::{AssertUnwindSafe, catch_unwind, set_hook, take_hook};
use std::slice;

/// What a guard holds, and a buffer that is only written.
pub const BEFORE: u8 = 0xA5;

/// Bytes on each side of a buffer.
pub const GUARD: usize = 64;

/// What a call does that none may do, in words.
pub type Fault = String;

pub enum Buffer<'a> {
    Read(&'static str, &'a [u8]),
    Written(&'static str, &'a mut [u8]),
}

use Buffer::{Read, Written};

impl Buffer<'_> {
    fn bytes(&self) -> &[u8] {
        match self {
            Read(_, bytes) => bytes,
            Written(_, bytes) => bytes,
        }
    }

    /// Takes over what was written, unless something was that must not be.
    fn back(self, lent: &Lent) -> Result<(), Fault> {
        match self {
            Read(name, before) => unwritten(name, before, lent.inside(name)?),
            Written(name, bytes) => lent.inside(name).map(|after| bytes.copy_from_slice(after)),
        }
    }
}

fn unwritten(name: &str, before: &[u8], after: &[u8]) -> Result<(), Fault> {
    if before == after {
        return Ok(());
    }
    let at = before.iter().zip(after).take_while(|(a, b)| a == b).count();
    Err(format!("byte {at} of {name}, which is only read, is written: {:02x} for {:02x}", after[at], before[at]))
}

/// A buffer as a function takes it.
pub struct Part<'a> {
    pub at: *mut u8,
    pub length: usize,
    copy: PhantomData<&'a mut Lent>,
}

impl Part<'_> {
    pub fn bytes(&self) -> &[u8] {
        // So many bytes of the copy stand there, and it is lent for as long as the part is.
        unsafe { slice::from_raw_parts(self.at, self.length) }
    }

    pub fn bytes_mut(&mut self) -> &mut [u8] {
        unsafe { slice::from_raw_parts_mut(self.at, self.length) }
    }
}

/// The copy.
pub struct Lent {
    guarded: Vec<u8>,
}

impl Lent {
    pub fn new(bytes: &[u8]) -> Self {
        Lent { guarded: [&[BEFORE; GUARD], bytes, &[BEFORE; GUARD]].concat() }
    }

    pub fn part(&mut self) -> Part<'_> {
        let length = self.guarded.len() - 2 * GUARD;
        Part { at: self.guarded.as_mut_ptr().wrapping_add(GUARD), length, copy: PhantomData }
    }

    /// What it holds, if its guards are as they were.
    pub fn inside(&self, name: &str) -> Result<&[u8], Fault> {
        let end = self.guarded.len() - GUARD;
        if self.guarded[..GUARD] != [BEFORE; GUARD] {
            return Err(format!("bytes before {name} are written"));
        }
        if self.guarded[end..] != [BEFORE; GUARD] {
            return Err(format!("bytes behind {name} are written"));
        }
        Ok(&self.guarded[GUARD..end])
    }
}

thread_local! {
    static LENDING: Cell<bool> = const { Cell::new(false) };
}

/// A call with such copies. A panic is a fault: the binding has no case for what it was given.
pub fn lend<const N: usize, A>(buffers: [Buffer<'_>; N], call: impl FnOnce([Part<'_>; N]) -> A) -> Result<A, Fault> {
    let mut lent = buffers.each_ref().map(|b| Lent::new(b.bytes()));
    let parts = lent.each_mut().map(Lent::part);
    LENDING.set(true);
    let answer = catch_unwind(AssertUnwindSafe(|| call(parts)));
    LENDING.set(false);
    let answer = answer.map_err(|p| said(&*p))?;
    for (buffer, lent) in buffers.into_iter().zip(&lent) {
        buffer.back(lent)?;
    }
    Ok(answer)
}

/// Those of `lend` are told as faults, and need no lines of their own.
pub fn keep_panics_quiet() {
    let others = take_hook();
    set_hook(Box::new(move |panic| {
        if !LENDING.get() {
            others(panic);
        }
    }));
}

/// What a panic says.
fn said(panic: &(dyn std::any::Any + Send)) -> Fault {
    let text = panic.downcast_ref::<String>().map(String::as_str).or_else(|| panic.downcast_ref::<&str>().copied());
    format!("an impossible answer: {}", text.unwrap_or("a panic without words"))
}
