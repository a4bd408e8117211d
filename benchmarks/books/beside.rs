//! What `main.rt.txt` does, by the map of Rust's standard library with its default hasher.
use std::collections::HashMap;
use std::time::Instant;

const TEXT_LEN: usize = 20;
const LOOK_UPS: u64 = 5_000_000;

fn made(count: u64) -> Vec<u8> {
    let mut out = Vec::with_capacity(count as usize * TEXT_LEN);
    for number in 0..count {
        let mut mixed = number.wrapping_mul(0x9e37_79b9_7f4a_7c15);
        out.extend_from_slice(b"blk_");
        for _ in 0..16 {
            let digit = (mixed & 15) as u8;
            out.push(if digit < 10 { digit + b'0' } else { digit - 10 + b'a' });
            mixed >>= 4;
        }
    }
    out
}

fn name_all(map: &mut HashMap<Vec<u8>, u32>, texts: &[u8]) -> u64 {
    let mut sum = 0u64;
    for text in texts.chunks(TEXT_LEN) {
        let number = match map.get(text) {
            Some(number) => *number,
            None => {
                let number = map.len() as u32;
                map.insert(text.to_vec(), number);
                number
            }
        };
        sum = sum.wrapping_add(u64::from(number));
    }
    sum
}

fn look_up(map: &HashMap<Vec<u8>, u32>, texts: &[u8], count: u64) -> u64 {
    let mut sum = 0u64;
    let mut state = 1u64;
    for _ in 0..LOOK_UPS {
        state = state.wrapping_mul(6_364_136_223_846_793_005).wrapping_add(1_442_695_040_888_963_407);
        let place = (state >> 33).checked_rem(count).unwrap_or(0);
        let start = place as usize * TEXT_LEN;
        let text = texts.get(start..start + TEXT_LEN).unwrap_or(b"");
        if let Some(number) = map.get(text) {
            sum = sum.wrapping_add(u64::from(*number));
        }
    }
    sum
}

fn main() {
    let digits = std::fs::read_to_string("count").unwrap();
    let count: u64 = digits.trim().parse().unwrap();
    let texts = made(count);
    let mut map = HashMap::new();
    let start = Instant::now();
    let named = name_all(&mut map, &texts);
    let naming = start.elapsed().as_nanos();
    let start = Instant::now();
    let found = look_up(&map, &texts, count);
    let looking = start.elapsed().as_nanos();
    println!("{naming} {looking} {named} {found}");
}
