//! What calls cost: time ROUNDS FILE
use std::time::Instant;

fn main() -> Result<(), Box<dyn std::error::Error>> {
    let words: Vec<String> = std::env::args().collect();
    let (rounds, bytes) = (words[1].parse::<u32>()?, std::fs::read(&words[2])?);
    let mut replica = hekaton::Replica::open(7, 1)?;
    replica.absorb(&bytes)?;
    let mark = [0, 0, 0, 0x1c, 1, 2, 0, 0, 0, 0, 0, 0, 0, 7, 0, 1, 0, 0, 0, 0, 0, 0, 0, 1, 0, 0, 0, 0, 0, 0, 0, 1];
    let (start, mut sum) = (Instant::now(), 0);
    for _ in 0..rounds {
        sum += replica.get(1, 1, 5)?.map_or(0, |row| row.tag as usize);
    }
    println!("get {:.0} ns", start.elapsed().as_nanos() as f64 / rounds as f64);
    let start = Instant::now();
    for _ in 0..rounds {
        replica.absorb(&mark)?;
    }
    println!("absorb {:.0} ns", start.elapsed().as_nanos() as f64 / rounds as f64);
    let start = Instant::now();
    for _ in 0..rounds {
        sum += replica.call(&[0, 0, 0, 2, 1, 0x11]).1.len();
    }
    println!("call {:.0} ns ({})", start.elapsed().as_nanos() as f64 / rounds as f64, sum % 10);
    Ok(())
}
