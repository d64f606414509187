//! The same over std's BTreeMap: `std` or `none`, `4` or `6`, the number of hosts, a number that says nothing here, and a
//! number of claims. A claim is a plain scan from an address on to the first host that is not there.
use std::collections::BTreeMap;
use std::time::Instant;

fn next(state: u64) -> (u64, u64) {
    let state = state.wrapping_add(0x9e3779b97f4a7c15);
    let a = (state ^ (state >> 30)).wrapping_mul(0xbf58476d1ce4e5b9);
    let b = (a ^ (a >> 27)).wrapping_mul(0x94d049bb133111eb);
    (state, b ^ (b >> 31))
}

type Kept = BTreeMap<(u128, u8), u32>;

fn made(v4: bool, count: usize, seed: u64) -> Vec<(u128, u8)> {
    let mut state = seed;
    let mut hosts = Vec::with_capacity(count);
    for _ in 0..count {
        let (middle, high) = next(state);
        let (after, low) = next(middle);
        state = after;
        hosts.push(if v4 {
            (0x0a000000 | (high as u128 & 0xffffff), 32)
        } else {
            (0x20010db8000000000000000000000000 | ((high as u128 & 0xffffffff) << 64) | low as u128, 128)
        });
    }
    hosts
}

fn fit(kept: &Kept, from: u128, last: u128) -> Option<u128> {
    let mut at = from;
    for (host, _) in kept.range((from, 0)..=(last, 255)) {
        if host.0 != at {
            break;
        }
        at += 1;
    }
    (at <= last).then_some(at)
}

fn fit_all(kept: &Kept, last: u128, from: &[(u128, u8)]) -> u64 {
    let found = from.iter().filter_map(|host| fit(kept, host.0, last));
    found.fold(0u64, |sum, at| sum.wrapping_add((at & 0xffffffff) as u64))
}

fn claim_all(kept: &mut Kept, last: u128, from: &[(u128, u8)]) -> Vec<(u128, u8)> {
    let mut out = Vec::with_capacity(from.len());
    for host in from {
        if let Some(at) = fit(kept, host.0, last) {
            *kept.entry((at, host.1)).or_insert(0) += 1;
            out.push((at, host.1));
        }
    }
    out
}

fn take_all(kept: &mut Kept, hosts: &[(u128, u8)]) -> u64 {
    let mut sum = 0;
    for host in hosts {
        if let Some(copies) = kept.get_mut(host) {
            *copies -= 1;
            if *copies == 0 {
                kept.remove(host);
            }
            sum += 1;
        }
    }
    sum
}

fn measure_claims(kept: &mut Kept, last: u128, from: &[(u128, u8)], firsts: &[(u128, u8)]) {
    let start = Instant::now();
    let sum = fit_all(kept, last, from);
    let fit = start.elapsed().as_nanos();
    let start = Instant::now();
    let claimed = claim_all(kept, last, from);
    let claim = start.elapsed().as_nanos();
    let more = fit_all(kept, last, from);
    let start = Instant::now();
    let given = take_all(kept, &claimed);
    let back = start.elapsed().as_nanos();
    let start = Instant::now();
    claim_all(kept, last, firsts);
    let first = start.elapsed().as_nanos();
    let sum = sum.wrapping_add(more).wrapping_add(given).wrapping_add(fit_all(kept, last, &firsts[..1]));
    println!("{fit} {claim} {back} {first} {sum} 0");
}

fn main() {
    let words: Vec<String> = std::env::args().collect();
    let v4 = words[2] == "4";
    let count: usize = words[3].parse().unwrap();
    let claims: usize = words[5].parse().unwrap();
    let hosts = made(v4, count, 1);
    let mut mixed = Vec::with_capacity(count);
    let mut at = 0usize;
    for _ in 0..count {
        at = (at + 314159) % count;
        mixed.push(hosts[at]);
    }
    let bits = if v4 { 8 } else { 80 };
    let around: Vec<u128> = mixed.iter().map(|host| (host.0 >> bits) << bits).collect();
    if words[1] == "none" {
        println!("{}", around.len());
        return;
    }
    let mut kept = Kept::new();
    let start = Instant::now();
    for host in &hosts {
        *kept.entry(*host).or_insert(0) += 1;
    }
    let put = start.elapsed().as_nanos();
    if claims > 0 {
        let (first, last) = if v4 { (10 << 24, (11 << 24) - 1) } else { (0x20010db8 << 96, (0x20010db9 << 96) - 1) };
        let firsts = vec![(first, hosts[0].1); claims];
        measure_claims(&mut kept, last, &made(v4, claims, 7), &firsts);
        return;
    }
    let start = Instant::now();
    let mut sum = 0u64;
    for host in &mixed {
        sum += *kept.get(host).unwrap_or(&0) as u64;
    }
    let asked = start.elapsed().as_nanos();
    let start = Instant::now();
    for first in &around {
        sum += kept.range((*first, 0)..=(*first | ((1u128 << bits) - 1), 255)).count() as u64;
    }
    let counted = start.elapsed().as_nanos();
    let start = Instant::now();
    sum += take_all(&mut kept, &mixed);
    println!("{put} {asked} {counted} {} {sum} 0", start.elapsed().as_nanos());
}
