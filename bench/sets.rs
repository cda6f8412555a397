//! The work of crates/pb_planes_bench in plain Rust, over slices of u64.
use std::hint::black_box;

const WIDTH: u32 = 1_048_576;

fn multiples(of: u32) -> Vec<u64> {
    let mut words = vec![0u64; WIDTH as usize / 64];
    for number in (0..WIDTH).filter(|number| number % of == 0) {
        insert(&mut words, number);
    }
    words
}

fn insert(words: &mut [u64], number: u32) {
    words[number as usize / 64] |= 1 << (number % 64);
}

fn count(words: &[u64]) -> u64 {
    words.iter().map(|word| word.count_ones() as u64).sum()
}

fn next_at(words: &[u64], from: u32) -> Option<u32> {
    let mut index = from as usize / 64;
    let mut word = words.get(index)? & (u64::MAX << (from % 64));
    loop {
        if word != 0 {
            return Some(index as u32 * 64 + word.trailing_zeros());
        }
        index += 1;
        word = *words.get(index)?;
    }
}

fn walked(words: &[u64]) -> u64 {
    let mut found = 0;
    let mut from = 0;
    while let Some(host) = next_at(words, from) {
        found += 1;
        from = host + 1;
    }
    found
}

#[inline(never)]
fn round(operation: &str, mine: &mut [u64], its: &[u64]) -> u64 {
    match operation {
        "union" => mine.iter_mut().zip(its).for_each(|(a, b)| *a |= b),
        "intersection" => mine.iter_mut().zip(its).for_each(|(a, b)| *a &= b),
        "exclusion" => mine.iter_mut().zip(its).for_each(|(a, b)| *a &= !b),
        "count" => return count(mine),
        "walk" => return walked(mine),
        _ => std::process::exit(1),
    }
    0
}

fn main() {
    let words: Vec<String> = std::env::args().collect();
    let rounds: u32 = words[2].parse().unwrap();
    let (mut mine, its) = (multiples(2), multiples(3));
    let mut total = 0u64;
    for at in 0..rounds {
        insert(&mut mine, at % WIDTH);
        total += round(black_box(&words[1]), &mut mine, black_box(&its));
    }
    println!("{}", total + count(&mine));
}
