// A careful interpreter of images in Rust, with every test that the card machine makes: what `spl run` is measured against
// (speed.sh). It is one loop over one `match`, its registers are locals, and every cell goes through a store that tests it.
//
//     interpreter IMAGE STEPS
//
// runs the image on cells of 0 and prints the steps, the writes and the ending.
use std::{env, fs, process};

#[derive(Clone, Copy)]
struct Instr {
    number: u16,
    a: u16,
    b: u16,
}

struct Image {
    cells: u16,
    depth: u16,
    code: Vec<Instr>,
}

fn number(bytes: &[u8], at: &mut usize) -> u16 {
    let mut n = 0;
    loop {
        let byte = bytes[*at];
        *at += 1;
        n = n * 128 + u32::from(byte % 128);
        if byte < 128 {
            return n as u16;
        }
    }
}

fn operands(number: u16) -> usize {
    match number {
        1 | 2 | 3 | 6 | 8 | 20 | 21 | 29 | 30 => 1,
        4 | 5 | 26 | 27 | 28 | 31 | 32 | 33 => 2,
        _ => 0,
    }
}

fn image(bytes: &[u8]) -> Image {
    let at = &mut 0;
    let (cells, depth, count) = (number(bytes, at), number(bytes, at), number(bytes, at));
    let mut code = Vec::new();
    for _ in 0..count {
        let op = number(bytes, at);
        let mut words = [0, 0];
        for word in words.iter_mut().take(operands(op)) {
            *word = number(bytes, at);
        }
        code.push(Instr { number: op, a: words[0], b: words[1] });
    }
    Image { cells, depth, code }
}

trait Store {
    fn read(&self, cell: u16) -> Result<u16, u8>;
    fn write(&mut self, cell: u16, word: u16) -> Result<(), u8>;
}

struct Words<'a> {
    cells: &'a mut [u16],
}

impl Store for Words<'_> {
    fn read(&self, cell: u16) -> Result<u16, u8> {
        self.cells.get(usize::from(cell)).copied().ok_or(9)
    }

    fn write(&mut self, cell: u16, word: u16) -> Result<(), u8> {
        *self.cells.get_mut(usize::from(cell)).ok_or(9)? = word;
        Ok(())
    }
}

fn int(word: u16) -> i32 {
    i32::from(word as i16)
}

fn fit(v: i32) -> Result<u16, u8> {
    if (-32768..=32767).contains(&v) { Ok(v as u16) } else { Err(1) }
}

fn truth(t: bool) -> u16 {
    if t { 65535 } else { 0 }
}

fn related(by: u16, less: bool, same: bool) -> u16 {
    truth(match by {
        0 => same,
        1 => !same,
        2 => less,
        3 => less || same,
        4 => !(less || same),
        _ => !less,
    })
}

fn index(i: u16, n: u16, stop: u8) -> Result<u16, u8> {
    if i < 32768 && i < n { Ok(i) } else { Err(stop) }
}

fn cell(a: u16, i: u16) -> Result<u16, u8> {
    a.checked_add(i).ok_or(9)
}

struct Machine<'a, S> {
    code: &'a [Instr],
    depth: usize,
    stack: &'a mut [u16],
    store: S,
    place: u32,
    height: usize,
    steps: u64,
    writes: u64,
}

impl<S: Store> Machine<'_, S> {
    #[inline(always)]
    fn want(&self, fits: bool, words: usize) -> Result<(), u8> {
        if !fits {
            Err(8)
        } else if self.height < words {
            Err(6)
        } else {
            Ok(())
        }
    }

    #[inline(always)]
    fn x(&self) -> u16 {
        self.stack[self.height - 1]
    }

    #[inline(always)]
    fn y(&self) -> u16 {
        self.stack[self.height - 2]
    }

    #[inline(always)]
    fn push(&mut self, pops: usize, word: u16) -> Result<(), u8> {
        let at = self.height - pops;
        if at >= self.depth {
            return Err(7);
        }
        self.stack[at] = word;
        self.height = at + 1;
        self.place += 1;
        Ok(())
    }

    #[inline(always)]
    fn go(&mut self, pops: usize, place: u32) -> Result<(), u8> {
        self.height -= pops;
        self.place = place;
        Ok(())
    }

    #[inline(always)]
    fn write(&mut self, pops: usize, cell: u16, word: u16, place: u32) -> Result<(), u8> {
        self.store.write(cell, word)?;
        self.height -= pops;
        self.writes += 1;
        self.place = place;
        Ok(())
    }

    #[inline(always)]
    fn step(&mut self) -> Result<(), u8> {
        let Instr { number, a, b } = *self.code.get(self.place as usize).ok_or(9)?;
        let next = self.place + 1;
        let (plain, single) = (a == 0 && b == 0, b == 0);
        match number {
            0 => self.want(plain, 0).and(Err(0)),
            1 => { self.want(single, 0)?; self.push(0, a) }
            2 => { self.want(single, 0)?; let w = self.store.read(a)?; self.push(0, w) }
            3 => { self.want(single, 1)?; self.write(1, a, self.x(), next) }
            4 => { self.want(true, 1)?; let i = index(self.x(), b, 3)?; let w = self.store.read(cell(a, i)?)?; self.push(1, w) }
            5 => { self.want(true, 2)?; let i = index(self.y(), b, 3)?; self.write(2, cell(a, i)?, self.x(), next) }
            6 => { self.want(single, 1)?; index(self.x(), a, 3)?; self.go(0, next) }
            7 => { self.want(plain, 1)?; self.push(0, self.x()) }
            8 => { self.want(single, usize::from(a))?; self.go(usize::from(a), next) }
            9 => { self.want(plain, 2)?; let w = fit(int(self.y()) + int(self.x()))?; self.push(2, w) }
            10 => { self.want(plain, 2)?; let w = fit(int(self.y()) - int(self.x()))?; self.push(2, w) }
            11 => { self.want(plain, 2)?; let w = fit(int(self.y()) * int(self.x()))?; self.push(2, w) }
            12 => { self.want(plain, 2)?; if self.x() == 0 { return Err(2); } let w = fit(int(self.y()) / int(self.x()))?; self.push(2, w) }
            13 => { self.want(plain, 2)?; if self.x() == 0 { return Err(2); } let w = fit(int(self.y()) % int(self.x()))?; self.push(2, w) }
            14 => { self.want(plain, 1)?; let w = fit(-int(self.x()))?; self.push(1, w) }
            15 => { self.want(plain, 2)?; self.push(2, self.y().wrapping_add(self.x())) }
            16 => { self.want(plain, 2)?; self.push(2, self.y().wrapping_sub(self.x())) }
            17 => { self.want(plain, 2)?; self.push(2, self.y().wrapping_mul(self.x())) }
            18 => { self.want(plain, 2)?; let w = self.y().checked_div(self.x()).ok_or(2)?; self.push(2, w) }
            19 => { self.want(plain, 2)?; let w = self.y().checked_rem(self.x()).ok_or(2)?; self.push(2, w) }
            20 => { self.want(a <= 5 && single, 2)?; self.push(2, related(a, int(self.y()) < int(self.x()), self.y() == self.x())) }
            21 => { self.want(a <= 5 && single, 2)?; self.push(2, related(a, self.y() < self.x(), self.y() == self.x())) }
            22 => { self.want(plain, 2)?; self.push(2, self.y() & self.x()) }
            23 => { self.want(plain, 2)?; self.push(2, self.y() | self.x()) }
            24 => { self.want(plain, 2)?; self.push(2, self.y() ^ self.x()) }
            25 => { self.want(plain, 1)?; self.push(1, !self.x()) }
            26 => { self.want((1..=15).contains(&b) && a <= 16 - b, 1)?; self.push(1, (self.x() >> (16 - a - b)) & ((1 << b) - 1)) }
            27 => {
                self.want((1..=15).contains(&b) && a <= 16 - b, 2)?;
                let mask = ((1 << b) - 1) << (16 - a - b);
                self.push(2, (self.y() & !mask) | ((self.x() << (16 - a - b)) & mask))
            }
            28 => {
                self.want(a <= 4 && b <= 15, 1)?;
                let x = self.x();
                self.push(1, match a {
                    0 => x << b,
                    1 => x >> b,
                    2 => ((x as i16) >> b) as u16,
                    3 => x.rotate_left(u32::from(b)),
                    _ => x.rotate_right(u32::from(b)),
                })
            }
            29 => { self.want(single, 0)?; self.go(0, u32::from(a)) }
            30 => { self.want(single, 1)?; self.go(1, if self.x() % 2 == 1 { next } else { u32::from(a) }) }
            31 => { self.want(true, 1)?; let i = index(self.x(), b, 4)?; self.go(1, u32::from(a) + u32::from(i)) }
            32 => {
                self.want(true, 2)?;
                let (v, step, limit) = (int(self.store.read(a)?), int(self.y()), int(self.x()));
                self.go(0, if if step >= 0 { v <= limit } else { v >= limit } { next } else { u32::from(b) })
            }
            33 => { self.want(true, 2)?; let w = fit(int(self.store.read(a)?) + int(self.y()))?; self.write(0, a, w, u32::from(b)) }
            _ => Err(8),
        }
    }

    fn run(&mut self, steps: u64) -> Option<u8> {
        for _ in 0..steps {
            self.steps += 1;
            if let Err(ending) = self.step() {
                return Some(ending);
            }
        }
        None
    }
}

fn main() {
    let words: Vec<String> = env::args().collect();
    if words.len() != 3 {
        eprintln!("usage: interpreter IMAGE STEPS");
        process::exit(2);
    }
    let image = image(&fs::read(&words[1]).unwrap());
    let mut memory = vec![0; usize::from(image.cells)];
    let mut stack = vec![0; usize::from(image.depth)];
    let mut machine = Machine {
        code: &image.code,
        depth: usize::from(image.depth),
        stack: &mut stack,
        store: Words { cells: &mut memory },
        place: 0,
        height: 0,
        steps: 0,
        writes: 0,
    };
    let ending = machine.run(words[2].parse().unwrap());
    println!("steps {}, writes {}, ending {:?}, cells {:?}", machine.steps, machine.writes, ending, memory);
}
