//! Sendings by "Well-formed sending", and their blocks damaged.

use super::random::Random;
use super::second::block::{Header, LENGTH};
use super::second::receiver::CHANNELS;

const LONGEST_FILE: usize = 3_000;

pub struct Block {
    pub header: Header,
    pub payload: Vec<u8>,
}

/// What one channel sends.
pub struct Lane {
    pub channel: u64,
    pub blocks: Vec<Block>,
}

pub struct Sending {
    pub len: usize,
    pub pairs: usize,
    pub lanes: Vec<Lane>,
}

impl Block {
    fn data(place: u64, payload: Vec<u8>) -> Block {
        Block {
            header: Header {
                descriptor: 0,
                length: payload.len() as u64,
                place,
            },
            payload,
        }
    }

    fn empty(random: &Random) -> Block {
        Block::data(random.wild(), Vec::new())
    }

    fn eodc(count: u64, random: &Random) -> Block {
        Block {
            header: Header {
                descriptor: 64,
                length: random.wild(),
                place: count,
            },
            payload: Vec::new(),
        }
    }

    /// Gives it one of the descriptors that its place in the channel allows. One data block in `doubt` gets bit 32.
    fn describe(&mut self, last: bool, doubt: usize, random: &Random) {
        let suspected = if random.one_in(doubt) { 32 } else { 0 };
        self.header.descriptor = match (self.header.is_eodc(), last) {
            (false, false) => suspected,
            (false, true) => random.pick(&[8, 12]) | suspected,
            (true, false) => 64,
            (true, true) => *random.pick(&[72, 76]),
        };
    }
}

/// A header on the wire, whatever is in the unused field of an EODC block.
pub fn wire(header: Header) -> [u8; LENGTH] {
    let mut bytes = [header.descriptor; LENGTH];
    bytes[1..9].copy_from_slice(&header.length.to_be_bytes());
    bytes[9..].copy_from_slice(&header.place.to_be_bytes());
    bytes
}

/// A block's header and what comes after it.
pub fn block(descriptor: u8, length: u64, place: u64, payload: &[u8]) -> Vec<u8> {
    let header = Header {
        descriptor,
        length,
        place,
    };
    [&wire(header), payload].concat()
}

impl Lane {
    pub fn bytes(&self) -> Vec<u8> {
        let mut bytes = Vec::new();
        for block in &self.blocks {
            bytes.extend(wire(block.header));
            bytes.extend(&block.payload);
        }
        bytes
    }
}

impl Sending {
    pub fn well_formed(random: &Random) -> Sending {
        Sending::into_file(random.size(LONGEST_FILE), random)
    }

    /// Well-formed, into a file of that length.
    pub fn into_file(len: usize, random: &Random) -> Sending {
        let mut lanes = empty_lanes(random);
        let left_out = *random.pick(&[2, 5, usize::MAX]);
        let mut payloads = payloads(len, random.size(300), left_out, random);
        let pairs = payloads.len() + random.size(40);
        random.shuffle(&mut payloads);
        let empties = random.size(12);
        payloads.extend((0..empties).map(|_| Block::empty(random)));
        for block in payloads {
            insert(&mut lanes, block, random);
        }
        let eodc = Block::eodc(lanes.len() as u64, random);
        insert(&mut lanes, eodc, random);
        describe(&mut lanes, random);
        Sending { len, pairs, lanes }
    }

    /// One channel that goes through the file once, and few pairs: claimed ranges mostly become one, doubtful ones do not.
    pub fn in_order(random: &Random) -> Sending {
        let len = random.size(LONGEST_FILE);
        let left_out = *random.pick(&[40, usize::MAX]);
        let mut blocks = payloads(len, random.between(2, 40), left_out, random);
        blocks.push(Block::eodc(1, random));
        let channel = random.below(CHANNELS) as u64;
        let mut lanes = vec![Lane { channel, blocks }];
        describe(&mut lanes, random);
        Sending {
            len,
            pairs: random.size(6),
            lanes,
        }
    }

    /// Does one thing that a sender must not do, or that only chance makes harmless.
    pub fn damage(&mut self, random: &Random) {
        let count = self.lanes.len() as u64;
        match random.below(6) {
            0 => self.pairs = random.size(self.pairs),
            1 => {
                let second = Block::eodc(random.near(count), random);
                insert(&mut self.lanes, second, random);
            }
            2 => {
                let other = self.any_block(random).header.place;
                self.any_block(random).header.place = other;
            }
            3 => {
                self.eodc().header.place =
                    *random.pick(&[0, 65, 64, count - 1, count + 1, random.wild()])
            }
            _ => {
                let len = self.len as u64;
                damage_header(&mut self.any_block(random).header, len, random);
            }
        }
    }

    pub fn blocks(&self) -> impl Iterator<Item = &Block> {
        self.lanes.iter().flat_map(|lane| &lane.blocks)
    }

    fn any_block(&mut self, random: &Random) -> &mut Block {
        let lane = random.below(self.lanes.len());
        let at = random.below(self.lanes[lane].blocks.len());
        &mut self.lanes[lane].blocks[at]
    }

    fn eodc(&mut self) -> &mut Block {
        let mut blocks = self.lanes.iter_mut().flat_map(|lane| &mut lane.blocks);
        blocks.find(|block| block.header.is_eodc()).unwrap()
    }
}

/// Gives all blocks their descriptors. The sender suspects all of them, many, few or none.
fn describe(lanes: &mut [Lane], random: &Random) {
    let doubt = *random.pick(&[1, 2, 30, usize::MAX]);
    for lane in lanes {
        if lane.blocks.is_empty() {
            lane.blocks.push(Block::empty(random));
        }
        let last = lane.blocks.len() - 1;
        for (at, block) in lane.blocks.iter_mut().enumerate() {
            block.describe(at == last, doubt, random);
        }
    }
}

fn damage_header(header: &mut Header, len: u64, random: &Random) {
    let Header {
        descriptor,
        length,
        place,
    } = header;
    match random.below(4) {
        0 => *descriptor = random.byte(),
        1 => *descriptor ^= 1 << random.below(8),
        2 => *length = *random.pick(&[random.near(*length), random.near(len), random.wild()]),
        _ => *place = *random.pick(&[random.near(*place), random.near(len), random.wild()]),
    }
}

fn empty_lanes(random: &Random) -> Vec<Lane> {
    let mut channels: Vec<u64> = (0..CHANNELS as u64).collect();
    random.shuffle(&mut channels);
    if !random.one_in(8) {
        channels.truncate(random.size(CHANNELS).max(1));
    }
    channels
        .into_iter()
        .map(|channel| Lane {
            channel,
            blocks: Vec::new(),
        })
        .collect()
}

/// Payloads side by side from so many cuts, one in `left_out` left out.
fn payloads(len: usize, cuts: usize, left_out: usize, random: &Random) -> Vec<Block> {
    let mut cuts: Vec<usize> = (0..cuts).map(|_| random.between(0, len)).collect();
    cuts.extend([0, len]);
    cuts.sort();
    cuts.dedup();
    let mut payloads = Vec::new();
    for cut in cuts.windows(2) {
        if !random.one_in(left_out) {
            payloads.push(Block::data(cut[0] as u64, random.bytes(cut[1] - cut[0])));
        }
    }
    payloads
}

fn insert(lanes: &mut [Lane], block: Block, random: &Random) {
    let lane = random.below(lanes.len());
    let blocks = &mut lanes[lane].blocks;
    blocks.insert(random.between(0, blocks.len()), block);
}
