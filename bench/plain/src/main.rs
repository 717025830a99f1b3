//! The same work as `pace`, in plain Rust: what the proved program is measured against.

use std::collections::VecDeque;
use std::env;
use std::fs::File;
use std::io::{self, BufWriter, Read, Write};
use std::process::ExitCode;

const BUFFER: usize = 65536;
const EDGES: usize = 64;
const CAPACITY: usize = 256;
const WAITING: u32 = 100;

#[derive(Clone, Copy)]
struct Record {
    key: u32,
    time: u32,
    amount: u32,
}

#[derive(Clone, Copy)]
enum Item {
    Record(Record),
    Watermark(u32),
}

enum Reading {
    Item(Item, usize),
    NotYet,
    Unknown,
}

enum Stop {
    NotYet,
    Unknown,
    Failed(io::Error),
}

fn word(bytes: &[u8; 4]) -> u32 {
    u32::from_be_bytes(*bytes)
}

#[inline]
fn first(bytes: &[u8]) -> Reading {
    let Some((kind, rest)) = bytes.split_first() else {
        return Reading::NotYet;
    };
    match kind {
        1 => match rest.first_chunk::<12>() {
            Some([a, b, c, d, e, f, g, h, i, j, k, l]) => {
                let record = Record {
                    key: word(&[*a, *b, *c, *d]),
                    time: word(&[*e, *f, *g, *h]),
                    amount: word(&[*i, *j, *k, *l]),
                };
                Reading::Item(Item::Record(record), 13)
            }
            None => Reading::NotYet,
        },
        2 => match rest.first_chunk::<4>() {
            Some(time) => Reading::Item(Item::Watermark(word(time)), 5),
            None => Reading::NotYet,
        },
        _ => Reading::Unknown,
    }
}

struct Reader<R> {
    source: R,
    buffer: Vec<u8>,
    start: usize,
    end: usize,
    number: u64,
}

impl<R: Read> Reader<R> {
    fn new(source: R) -> Self {
        Reader {
            source,
            buffer: vec![0; BUFFER],
            start: 0,
            end: 0,
            number: 0,
        }
    }

    #[inline]
    fn take(&mut self) -> Result<Item, Stop> {
        match first(&self.buffer[self.start..self.end]) {
            Reading::Item(item, taken) => {
                self.start += taken;
                self.number += 1;
                Ok(item)
            }
            Reading::NotYet => Err(Stop::NotYet),
            Reading::Unknown => Err(Stop::Unknown),
        }
    }

    #[cold]
    fn read_on(&mut self) -> Result<Item, Stop> {
        loop {
            self.buffer.copy_within(self.start..self.end, 0);
            self.end -= self.start;
            self.start = 0;
            let came = self.source.read(&mut self.buffer[self.end..]).map_err(Stop::Failed)?;
            self.end += came;
            match self.take() {
                Err(Stop::NotYet) if came > 0 => {}
                answer => return answer,
            }
        }
    }

    #[inline]
    fn next(&mut self) -> Result<Item, Stop> {
        match self.take() {
            Err(Stop::NotYet) => self.read_on(),
            answer => answer,
        }
    }
}

fn weight(item: Item) -> u64 {
    match item {
        Item::Record(r) => u64::from(r.key)
            .wrapping_mul(3)
            .wrapping_add(u64::from(r.time).wrapping_mul(5))
            .wrapping_add(u64::from(r.amount)),
        Item::Watermark(time) => u64::from(time).wrapping_mul(7),
    }
}

fn end_of(stop: Stop) -> io::Result<&'static str> {
    match stop {
        Stop::NotYet => Ok("the end"),
        Stop::Unknown => Ok("an unknown kind"),
        Stop::Failed(error) => Err(error),
    }
}

fn stream(path: &str) -> io::Result<()> {
    let mut reader = Reader::new(File::open(path)?);
    let mut sum = 0u64;
    let end = loop {
        match reader.next() {
            Ok(item) => sum = sum.wrapping_add(weight(item)),
            Err(stop) => break end_of(stop)?,
        }
    };
    println!("items {} sum {sum} up to {end}", reader.number);
    Ok(())
}

fn skip(path: &str, to: u64) -> io::Result<()> {
    let mut reader = Reader::new(File::open(path)?);
    let mut end = "there";
    while reader.number < to {
        if let Err(stop) = reader.next() {
            end = end_of(stop)?;
            break;
        }
    }
    println!("items {} up to {end}", reader.number);
    Ok(())
}

fn queue(n: u32) -> Result<(), String> {
    let mut edges: Vec<VecDeque<Item>> = (0..EDGES).map(|_| VecDeque::with_capacity(CAPACITY)).collect();
    let mut sum = 0u64;
    for i in 0..n {
        let edge = &mut edges[i as usize % EDGES];
        if edge.len() >= CAPACITY {
            return Err("an edge is full".into());
        }
        edge.push_back(Item::Record(Record {
            key: i,
            time: i / 3,
            amount: 1,
        }));
        if i / 64 >= WAITING {
            let item = edge.pop_front().ok_or("an edge is empty")?;
            sum = sum.wrapping_add(weight(item));
        }
    }
    println!("items {n} sum {sum}");
    Ok(())
}

/// A journal of so many records, a watermark after every thousandth, from a fixed seed.
fn make(path: &str, records: u64) -> io::Result<()> {
    let mut out = BufWriter::with_capacity(BUFFER, File::create(path)?);
    let mut seed = 7u64;
    let mut random = |below: u64| {
        seed = seed.wrapping_mul(6364136223846793005).wrapping_add(1442695040888963407);
        ((seed >> 33) % below) as u32
    };
    let mut time = 0u32;
    for i in 1..=records {
        time = time.wrapping_add(random(3));
        out.write_all(&[1])?;
        for number in [random(900), time, random(100)] {
            out.write_all(&number.to_be_bytes())?;
        }
        if i % 1000 == 0 {
            out.write_all(&[2])?;
            out.write_all(&time.to_be_bytes())?;
        }
    }
    out.flush()
}

fn main() -> ExitCode {
    let args: Vec<String> = env::args().skip(1).collect();
    let args: Vec<&str> = args.iter().map(String::as_str).collect();
    let result = match args[..] {
        ["stream", path] => stream(path).map_err(|e| e.to_string()),
        ["skip", path, to] => match to.parse() {
            Ok(to) => skip(path, to).map_err(|e| e.to_string()),
            Err(_) => Err("no number".into()),
        },
        ["make", path, records] => match records.parse() {
            Ok(records) => make(path, records).map_err(|e| e.to_string()),
            Err(_) => Err("no number".into()),
        },
        ["queue", n] => match n.parse() {
            Ok(n) => queue(n),
            Err(_) => Err("no number".into()),
        },
        _ => Err("usage: plain stream JOURNAL | plain skip JOURNAL NUMBER | plain queue NUMBER | plain make JOURNAL RECORDS".into()),
    };
    match result {
        Ok(()) => ExitCode::SUCCESS,
        Err(message) => {
            eprintln!("plain: {message}");
            ExitCode::FAILURE
        }
    }
}
