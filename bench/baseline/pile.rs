//! Records of a 12-byte key and a 60-byte body, pushed into one arena and ordered through an index.

use std::env;

#[derive(Clone, Copy)]
struct Slot {
    at: u64,
    key: u32,
    body: u32,
    seq: u64,
}

fn main() {
    let words: Vec<String> = env::args().collect();
    let count: u32 = words[1].parse().unwrap();
    let bytes: usize = words[2].parse().unwrap();
    let slots = count as usize * 24;
    let mut arena: Vec<u8> = Vec::with_capacity(bytes - slots);
    let mut index: Vec<Slot> = Vec::with_capacity(count as usize);
    let mut state = 7u64;
    let mut body = [0x5au8; 60];
    for number in 0..count {
        let mut key = [0u8; 12];
        for place in key.iter_mut() {
            state = state
                .wrapping_mul(6364136223846793005)
                .wrapping_add(1442695040888963407);
            *place = (state >> 56) as u8;
        }
        body[(number % 60) as usize] = key[0];
        let slot = Slot {
            at: arena.len() as u64,
            key: key.len() as u32,
            body: body.len() as u32,
            seq: u64::from(number),
        };
        arena.extend_from_slice(&key);
        arena.extend_from_slice(&body);
        index.push(slot);
    }
    let key_of = |slot: &Slot| &arena[slot.at as usize..slot.at as usize + slot.key as usize];
    index.sort_unstable_by(|a, b| key_of(a).cmp(key_of(b)).then(a.seq.cmp(&b.seq)));
    let mut sum = 0u64;
    for slot in &index {
        let end = slot.at as usize + (slot.key + slot.body) as usize;
        let last = u64::from(arena[end - 1]);
        sum = sum.wrapping_mul(31).wrapping_add(slot.seq ^ last);
    }
    println!("{sum}");
}
