//! The loader's messages, built through its library.

use crate::ffi::{self, Asked, Building};
use crate::limits::BYTES;
use crate::refusal::Refusal;
use std::marker::PhantomData;

/// What all commands of a message are. A message of one kind takes no command of another, so
/// each kind is a type of its own.
pub trait Kind {
    /// Document 01's number.
    const NUMBER: u32;
}

#[derive(Clone, Copy, Debug, PartialEq, Eq)]
pub struct Nop;

#[derive(Clone, Copy, Debug, PartialEq, Eq)]
pub struct Write;

#[derive(Clone, Copy, Debug, PartialEq, Eq)]
pub struct Read;

impl Kind for Nop {
    const NUMBER: u32 = 0;
}

impl Kind for Write {
    const NUMBER: u32 = 1;
}

impl Kind for Read {
    const NUMBER: u32 = 2;
}

/// What else all headers of a message share.
#[derive(Clone, Copy, Debug, PartialEq, Eq)]
pub struct Head {
    /// 0 to 15.
    pub tag: u32,
    /// Addresses of 64 bits; else of 32.
    pub wide: bool,
    pub discovery: bool,
}

/// Which bytes of a write's first and last word are written; bit i covers byte i. With three
/// words or more, and with two at an address that is no multiple of 8, there is no gap inside:
/// the first field is F, E, C or 8 and the last F, 7, 3 or 1.
#[derive(Clone, Copy, Debug, PartialEq, Eq)]
pub struct Enables {
    /// 0 to 15, and not 0 with two words or more.
    pub first: u32,
    /// 0 with one word, else 1 to 15.
    pub last: u32,
}

impl Enables {
    /// All bytes of so many words.
    pub fn whole(words: usize) -> Enables {
        Enables { first: 15, last: if words == 1 { 0 } else { 15 } }
    }
}

/// A message of one kind that is being built, in its own bytes. A refused call changes nothing.
#[derive(Clone, Debug, PartialEq, Eq)]
pub struct Builder<K> {
    output: [u8; BYTES],
    building: Building,
    kind: PhantomData<K>,
}

impl<K: Kind> Builder<K> {
    /// Begins a message: 21 where the tag is over 15.
    pub fn begin(head: Head) -> Result<Builder<K>, Refusal> {
        let Head { tag, wide, discovery } = head;
        let (output, mut building) = ([0; BYTES], Building::NONE);
        ffi::begin(&output, &mut building, K::NUMBER, tag, wide, discovery).result()?;
        Ok(Builder { output, building, kind: PhantomData })
    }

    /// Closes the message and gives its bytes: 22 where it is closed or nothing was added.
    pub fn close(&mut self) -> Result<&[u8], Refusal> {
        ffi::close(&mut self.output, &mut self.building).result()?;
        Ok(&self.output[..4 * self.building.words])
    }

    /// The closed message's bytes; none while it is open.
    pub fn message(&self) -> Option<&[u8]> {
        self.building.closed.then(|| &self.output[..4 * self.building.words])
    }

    fn add(&mut self, asked: Asked, data: &[u32]) -> Result<(), Refusal> {
        ffi::add(&mut self.output, &mut self.building, asked, data).result()
    }
}

impl Builder<Write> {
    /// Adds a write of these words: 22 to 26.
    pub fn write(&mut self, address: u64, enables: Enables, data: &[u32]) -> Result<(), Refusal> {
        let Enables { first, last } = enables;
        self.add(Asked { address, first, last, count: 0 }, data)
    }
}

impl Builder<Read> {
    /// Adds a read of so many words: 22, 23, 25, 26.
    pub fn read(&mut self, address: u64, count: usize) -> Result<(), Refusal> {
        self.add(Asked { address, first: 0, last: 0, count }, &[])
    }
}

impl Builder<Nop> {
    /// Adds a NOP of these words, two at most: 22, 23, 26.
    pub fn nop(&mut self, data: &[u32]) -> Result<(), Refusal> {
        self.add(Asked { address: 0, first: 0, last: 0, count: 0 }, data)
    }
}
