//! Feeds a file of item frames, and asks for the row of table 1 at key 5 at time 1: first FILE
fn main() -> Result<(), Box<dyn std::error::Error>> {
    let path = std::env::args().nth(1).ok_or("first FILE")?;
    let mut replica = hekaton::Replica::open(7, 1)?;
    replica.absorb(&std::fs::read(path)?)?;
    replica.finish()?;
    let time = replica.front()?.readable;
    match replica.get(time, 1, 5)? {
        Some(row) => println!("tag {} body {}", row.tag, row.body.iter().map(|b| format!("{b:02x}")).collect::<String>()),
        None => println!("no row"),
    }
    println!("{} rows, {} with the tag", replica.range(time, 1, 0, u64::MAX)?.len(), replica.by_tag(time, 1, 9, 0)?.len());
    println!("{}", replica.get(time + 1, 1, 5).unwrap_err());
    println!("version {}", hekaton::version());
    Ok(())
}
