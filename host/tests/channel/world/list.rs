//! A life's list: messages but for their tags, drawn as they are first offered. The next life may
//! begin the same list anew.

use super::super::pair::TwoEnds;
use super::World;
use charkhavo_host::plain::message::Kind;
use charkhavo_host::plain::Addition;
use charkhavo_host::random::requests::{address, enables, Wish};
use charkhavo_host::random::Random;

pub type List = Vec<Untagged>;

#[derive(Clone)]
pub struct Untagged {
    kind: u32,
    wide: bool,
    commands: Vec<Command>,
}

#[derive(Clone)]
struct Command {
    address: u64,
    first: u32,
    last: u32,
    count: usize,
    data: Vec<u32>,
}

impl Untagged {
    /// A message of any kind and mode, its commands in or out of memory as it happens.
    fn random(random: &mut Random, memory: usize) -> Untagged {
        let (kind, wide) = (random.pick(&[0, 1, 1, 1, 2, 2]), random.one_in(3));
        let aims = Wish { kind: Kind::Write, tag: 0, wide, discovery: false, memory };
        let commands = random.pick(&[1, 1, 1, 2, 3, 7, 30]);
        let data = random.words(12 * commands);
        let mut command = |own: &[u32]| {
            let count = random.pick(&[1, 1, 1, 2, 2, 3, 12]);
            let address = address(random, aims, count);
            let byte1 = enables(random, count, address);
            let words = if kind == 0 { count.min(2) } else { count };
            let (first, last) = (byte1 & 0xF, byte1 >> 4);
            Command { address, first, last, count, data: own[..words].to_vec() }
        };
        Untagged { kind, wide, commands: data.chunks(12).map(&mut command).collect() }
    }
}

impl World {
    /// The next message of the list, with the tag of the one to offer.
    pub fn next_of_list(&mut self) -> Vec<u8> {
        let number = self.offered();
        if number == self.list.len() {
            self.list.push(Untagged::random(&mut self.random, self.model.len()));
        }
        let Untagged { kind, wide, commands } = &self.list[number];
        let added = commands.iter().map(|command| {
            let Command { address, first, last, count, ref data } = *command;
            Addition { address, first, last, count, data }
        });
        self.pair.build(*kind, *wide, &added.collect::<Vec<_>>())
    }
}
