//! Lines `open LOG STREAMS` and `call HEX` from standard input, each answered by `NUMBER HEX`.
use hekaton::Replica;
use std::io::BufRead;

fn number(ended: Result<(), hekaton::Refused>) -> u8 {
    ended.map_or_else(|why| why.number, |()| 0)
}

fn main() {
    let mut replica: Option<Replica> = None;
    for line in std::io::stdin().lock().lines() {
        let line = line.unwrap();
        let words: Vec<&str> = line.split(' ').collect();
        if words[0] == "open" {
            let opened = Replica::open(words[1].parse().unwrap(), words[2].parse().unwrap());
            println!("{} ", number(opened.map(|it| replica = Some(it))));
            continue;
        }
        let bytes: Vec<u8> = (0..words[1].len() / 2).map(|i| u8::from_str_radix(&words[1][2 * i..2 * i + 2], 16).unwrap()).collect();
        let (ended, replies) = replica.as_mut().unwrap().call(&bytes);
        let hex: String = replies.iter().map(|b| format!("{b:02x}")).collect();
        println!("{} {hex}", number(ended));
    }
}
