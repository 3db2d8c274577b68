//! Keeps the pages of files packed: puts each, lets half of them go, and puts each again. After each step it reads all that are kept, and
//! compares them with the files. It prints how many are kept at the end, how many steps it took, how many pages weren't put and how many weren't
//! read for want of memory, and how many were read wrongly. scripts/try_packing.py compiles it, without proofs.
use page_packing::{PackedPages, Unpacker, dictionary};
use std::alloc::Global;
use std::{env, fs, io};
use text_region::Piece;

// A page that is kept, and the number of its file.
#[derive(Drop)]
struct Held {
    piece: Piece,
    number: usize,
}

#[derive(Clone, Copy, Default)]
struct Counts {
    steps: u64,
    unput: u64,
    unread: u64,
    wrong: u64,
}

fn compare(pages: &PackedPages, held: &[Held], texts: &[Vec<u8>], buffer: &mut Unpacker, counts: &mut Counts) {
    counts.steps += 1;
    for one in held {
        match pages.read(&one.piece, buffer) {
            Ok(()) => {
                if buffer.text() != texts[one.number].as_slice() {
                    counts.wrong += 1;
                }
            }
            Err(_) => counts.unread += 1,
        }
    }
}

fn put_each(pages: &mut PackedPages, texts: &[Vec<u8>], held: &mut Vec<Held>, buffer: &mut Unpacker, counts: &mut Counts) {
    for number in 0..texts.len() {
        match pages.put(&texts[number]) {
            Ok(piece) => {
                let _ = held.push(Held { piece, number });
            }
            Err(_) => counts.unput += 1,
        }
        compare(pages, held.as_slice(), texts, buffer, counts);
    }
}

fn keep_all(alloc: Global, texts: &[Vec<u8>], counts: &mut Counts) -> Option<usize> {
    let mut held: Vec<Held> = Vec::with_capacity(alloc, texts.len() * 2).ok()?;
    let mut pages = PackedPages::new(alloc, dictionary()).ok()?;
    let mut buffer = Unpacker::new(alloc);
    put_each(&mut pages, texts, &mut held, &mut buffer, counts);
    let mut left = held.len() / 2;
    while left > 0 {
        let Held { piece, .. } = held.swap_remove(0);
        pages.free(piece);
        compare(&pages, held.as_slice(), texts, &mut buffer, counts);
        left -= 1;
    }
    put_each(&mut pages, texts, &mut held, &mut buffer, counts);
    Some(held.len())
}

fn load(rt: &HostRuntime) -> io::Result<Vec<Vec<u8>>> {
    let mut texts = Vec::new(rt.alloc());
    for name in env::args(rt)?.skip(1) {
        texts.push(fs::read(rt, name.as_str())?)?;
    }
    Ok(texts)
}

fn main(rt: HostRuntime) -> io::Result<()> {
    let alloc = rt.alloc();
    let texts = load(&rt)?;
    let mut counts = Counts { steps: 0, unput: 0, unread: 0, wrong: 0 };
    let held = keep_all(alloc, texts.as_slice(), &mut counts).unwrap_or(0);
    let (steps, unput, unread, wrong) = (counts.steps, counts.unput, counts.unread, counts.wrong);
    println!(rt; "{held} kept, {steps} steps, {unput} not put, {unread} not read, {wrong} wrong")
}
