// A plain interpreter of the same images, with a `match` on the bytes of code: what bench/machine_speed compares with.
use std::io::Write;

struct Function<'a> {
    params: usize,
    result: usize,
    slots: usize,
    code: &'a [u8],
}

struct Frame {
    number: usize,
    place: usize,
    base: usize,
}

fn number(code: &[u8], at: usize) -> usize {
    u32::from_be_bytes([code[at], code[at + 1], code[at + 2], code[at + 3]]) as usize
}

fn read(bytes: &[u8]) -> (usize, Vec<Function<'_>>) {
    let count = number(bytes, 10);
    let mut at = 14;
    let mut functions = Vec::new();
    for _ in 0..count {
        let len = usize::from(bytes[at + 3]) * 256 + usize::from(bytes[at + 4]);
        functions.push(Function {
            params: bytes[at] as usize,
            result: bytes[at + 1] as usize,
            slots: bytes[at + 2] as usize,
            code: &bytes[at + 5..at + 5 + len],
        });
        at += 5 + len;
    }
    (number(bytes, 6), functions)
}

/// The bytes of an instruction, and the words that it takes and pushes.
fn shape(functions: &[Function], here: &Function, code: &[u8], place: usize) -> (usize, u32, u32) {
    match code[place] {
        0x01 => (2, 0, 1),
        0x02 => (9, 0, 1),
        0x03 => (2, 0, 1),
        0x04 => (2, 1, 0),
        0x05 | 0x17 => (1, 1, 0),
        0x06..=0x0a | 0x0c..=0x11 => (1, 2, 1),
        0x0b | 0x12 => (1, 1, 1),
        0x13 => (5, 0, 0),
        0x14 => (5, 1, 0),
        0x15 => {
            let callee = &functions[number(code, place + 1)];
            (5, callee.params as u32, callee.result as u32)
        }
        0x16 => (1, here.result as u32, 0),
        0x19 => (1, 1, 2),
        0x18 | 0x1a => (1, 0, 0),
        byte => panic!("no instruction {byte}"),
    }
}

/// Looks over a function as a validator has to: its instructions, the height at each, and each jump's target.
fn look_over(functions: &[Function], here: &Function) -> bool {
    const NONE: u32 = u32::MAX;
    let code = here.code;
    let mut starts = vec![false; code.len()];
    let mut heights = vec![NONE; code.len()];
    let mut place = 0;
    while place < code.len() {
        starts[place] = true;
        place += shape(functions, here, code, place).0;
    }
    let (mut place, mut next, mut last) = (0, 0u32, 0u8);
    while place < code.len() {
        let (size, takes, pushes) = shape(functions, here, code, place);
        let height = if next != NONE { next } else if heights[place] != NONE { heights[place] } else { 0 };
        heights[place] = height;
        last = code[place];
        let in_frame = !matches!(last, 0x03 | 0x04) || usize::from(code[place + 1]) < here.slots;
        if takes > height || !in_frame || (last == 0x16 && height != takes) {
            return false;
        }
        let left = height - takes + pushes;
        if matches!(last, 0x13 | 0x14) {
            let target = number(code, place + 1);
            if target >= code.len() || !starts[target] {
                return false;
            }
            if heights[target] == NONE {
                heights[target] = left;
            } else if heights[target] != left {
                return false;
            }
        }
        next = if matches!(last, 0x13 | 0x16 | 0x18) { NONE } else { left };
        place += size;
    }
    matches!(last, 0x13 | 0x16 | 0x18)
}

fn run(entry: usize, functions: &[Function]) {
    let mut out = std::io::stdout().lock();
    let mut words = vec![0i64; 3_598_576];
    let mut frames: Vec<Frame> = Vec::with_capacity(10_000);
    let (mut here, mut place, mut base) = (entry, 0usize, 0usize);
    let mut top = functions[entry].slots;
    let mut code = functions[entry].code;
    macro_rules! two {
        ($a:ident, $b:ident, $value:expr) => {{
            let $b = words[top - 1];
            let $a = words[top - 2];
            top -= 1;
            words[top - 1] = $value;
            place += 1;
        }};
    }
    loop {
        match code[place] {
            0x01 => { words[top] = i64::from(code[place + 1] as i8); top += 1; place += 2; }
            0x02 => {
                let mut eight = [0u8; 8];
                eight.copy_from_slice(&code[place + 1..place + 9]);
                words[top] = i64::from_be_bytes(eight);
                top += 1;
                place += 9;
            }
            0x03 => { words[top] = words[base + code[place + 1] as usize]; top += 1; place += 2; }
            0x04 => { top -= 1; words[base + code[place + 1] as usize] = words[top]; place += 2; }
            0x05 => { top -= 1; place += 1; }
            0x06 => two!(a, b, a.wrapping_add(b)),
            0x07 => two!(a, b, a.wrapping_sub(b)),
            0x08 => two!(a, b, a.wrapping_mul(b)),
            0x09 => two!(a, b, a.wrapping_div(b)),
            0x0a => two!(a, b, a.wrapping_rem(b)),
            0x0b => { words[top - 1] = words[top - 1].wrapping_neg(); place += 1; }
            0x0c => two!(a, b, i64::from(a == b)),
            0x0d => two!(a, b, i64::from(a != b)),
            0x0e => two!(a, b, i64::from(a < b)),
            0x0f => two!(a, b, i64::from(a <= b)),
            0x10 => two!(a, b, i64::from(a > b)),
            0x11 => two!(a, b, i64::from(a >= b)),
            0x12 => { words[top - 1] = i64::from(words[top - 1] == 0); place += 1; }
            0x13 => place = number(code, place + 1),
            0x14 => { top -= 1; place = if words[top] == 0 { number(code, place + 1) } else { place + 5 }; }
            0x15 => {
                let callee = number(code, place + 1);
                frames.push(Frame { number: here, place: place + 5, base });
                let function = &functions[callee];
                base = top - function.params;
                let end = base + function.slots;
                words[top..end].fill(0);
                top = end;
                (here, place, code) = (callee, 0, function.code);
            }
            0x16 => {
                let result = functions[here].result;
                let Some(frame) = frames.pop() else { return };
                for k in 0..result { words[base + k] = words[top - result + k]; }
                top = base + result;
                (here, place, base) = (frame.number, frame.place, frame.base);
                code = functions[here].code;
            }
            0x17 => { top -= 1; writeln!(out, "{}", words[top]).unwrap(); place += 1; }
            0x18 => return,
            0x19 => { words[top] = words[top - 1]; top += 1; place += 1; }
            _ => place += 1,
        }
    }
}

fn main() {
    let bytes = std::fs::read(std::env::args().nth(1).unwrap()).unwrap();
    let (entry, functions) = read(&bytes);
    assert!(functions.iter().all(|function| look_over(&functions, function)));
    run(entry, &functions);
}
