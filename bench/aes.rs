// AES-128 in plain Rust, std only and no unsafe, by four tables of 32-bit entries:
// what crates/aes_bench is measured against. One loop per argument: `blocks N` or `keys N`.

const fn times_x(a: u8) -> u8 {
    (a << 1) ^ ((a >> 7) * 0x1b)
}

// Goes through all bytes but 0 by powers of 3 and of its inverse.
const fn sbox() -> [u8; 256] {
    let mut table = [0; 256];
    table[0] = 0x63;
    let mut p: u8 = 1;
    let mut q: u8 = 1;
    loop {
        p ^= times_x(p);
        q ^= q << 1;
        q ^= q << 2;
        q ^= q << 4;
        if q & 0x80 != 0 {
            q ^= 0x09;
        }
        table[p as usize] = q
            ^ q.rotate_left(1)
            ^ q.rotate_left(2)
            ^ q.rotate_left(3)
            ^ q.rotate_left(4)
            ^ 0x63;
        if p == 1 {
            return table;
        }
    }
}

const fn mixed() -> [[u32; 256]; 4] {
    let mut tables = [[0; 256]; 4];
    let mut i = 0;
    while i < 256 {
        let s = SBOX[i];
        let d = times_x(s);
        let word = u32::from_be_bytes([d, s, s, s ^ d]);
        tables[0][i] = word;
        tables[1][i] = word.rotate_right(8);
        tables[2][i] = word.rotate_right(16);
        tables[3][i] = word.rotate_right(24);
        i += 1;
    }
    tables
}

static SBOX: [u8; 256] = sbox();
static MIXED: [[u32; 256]; 4] = mixed();

fn word_at(bytes: &[u8; 16], column: usize) -> u32 {
    let at = 4 * column;
    u32::from_be_bytes([bytes[at], bytes[at + 1], bytes[at + 2], bytes[at + 3]])
}

fn byte(word: u32, row: usize) -> usize {
    (word >> (24 - 8 * row) & 0xff) as usize
}

struct Key {
    words: [u32; 44],
}

impl Key {
    fn new(bytes: &[u8; 16]) -> Key {
        let mut words = [0; 44];
        let mut power = 1;
        for i in 0..4 {
            words[i] = word_at(bytes, i);
        }
        for i in 4..44 {
            let mut term: u32 = words[i - 1];
            if i % 4 == 0 {
                let [a, b, c, d] = term.to_be_bytes().map(|b| SBOX[b as usize]);
                term = u32::from_be_bytes([b ^ power, c, d, a]);
                power = times_x(power);
            }
            words[i] = words[i - 4] ^ term;
        }
        Key { words }
    }

    fn encrypt(&self, block: &[u8; 16]) -> [u8; 16] {
        let mut state = [0; 4];
        for i in 0..4 {
            state[i] = word_at(block, i) ^ self.words[i];
        }
        for round in 1..10 {
            let mut next = [0; 4];
            for i in 0..4 {
                next[i] = MIXED[0][byte(state[i], 0)]
                    ^ MIXED[1][byte(state[(i + 1) % 4], 1)]
                    ^ MIXED[2][byte(state[(i + 2) % 4], 2)]
                    ^ MIXED[3][byte(state[(i + 3) % 4], 3)]
                    ^ self.words[4 * round + i];
            }
            state = next;
        }
        let mut out = [0; 16];
        for i in 0..4 {
            let column = u32::from_be_bytes([
                SBOX[byte(state[i], 0)],
                SBOX[byte(state[(i + 1) % 4], 1)],
                SBOX[byte(state[(i + 2) % 4], 2)],
                SBOX[byte(state[(i + 3) % 4], 3)],
            ]);
            out[4 * i..4 * i + 4].copy_from_slice(&(column ^ self.words[40 + i]).to_be_bytes());
        }
        out
    }
}

fn main() {
    let words: Vec<String> = std::env::args().collect();
    let count: u32 = words[2].parse().expect("a count");
    let mut bytes: [u8; 16] = std::array::from_fn(|i| i as u8);
    let mut block: [u8; 16] = std::array::from_fn(|i| 0x11 * i as u8);
    match words[1].as_str() {
        "blocks" => {
            let key = Key::new(&bytes);
            for _ in 0..count {
                block = key.encrypt(&block);
            }
        }
        "keys" => {
            for _ in 0..count {
                bytes[0] ^= block[0];
                block = Key::new(&bytes).encrypt(&block);
            }
        }
        _ => panic!("blocks N or keys N"),
    }
    for byte in block {
        print!("{byte:02x}");
    }
    println!();
}
