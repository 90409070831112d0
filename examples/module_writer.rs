// The module writer's way: every run is cold, since only a read from memory shows a line that was signed wrongly.
//
// Build it from the repository's root once `rt lib` has made the library in crates/board:
//     rustc -O -L crates/board/out -l static=board examples/module_writer.rs -o module_writer && ./module_writer

const LINE: usize = 64;
const MEMORY: usize = 1024;
const SLOTS: usize = 4;
const CODE: usize = 2; // the module's line
const DATA: usize = 5; // its sealed line
const DRK: (u64, u64) = (0x0123_4567_89ab_cdef, 0xfedc_ba98_7654_3210);

#[repr(C)]
#[derive(Clone, Copy)]
struct Special {
    pc: u64,
    epc: u64,
    cause: u64,
    drkhi: u64,
    drklo: u64,
    srh: [u64; 4],
    words: [u64; 4],
    hash: [u8; 16],
    address: u64,
    pid: u32,
    savedpid: u32,
    cid: u16,
    savedcid: u16,
    mode: u8,
    lock: bool,
}

#[repr(C)]
#[derive(Clone, Copy)]
struct Processor {
    r: [u64; 32],
    special: Special,
}

#[repr(C)]
struct Report {
    answer: u64,
    steps: u64,
    filled: u64,
    written: u64,
    checked: u64,
    made: u64,
}

extern "C" {
    fn hq_run(p: *mut Processor, mem: *mut u8, m: usize, macs: *mut u8, a: usize, cache: *mut u8, c: usize, dir: *mut u32, d: usize, n: u64) -> Report;
    fn hq_power_cut(p: *mut Processor, mem: *mut u8, m: usize, macs: *mut u8, a: usize, cache: *mut u8, c: usize, dir: *mut u32, d: usize) -> Report;
    fn hq_depot_sign(hi: u64, lo: u64, address: u64, line: *mut u8, length: usize) -> u32;
    fn hq_depot_seal(hi: u64, lo: u64, address: u64, line: *mut u8, length: usize, mac: *mut u8, mac_length: usize) -> u32;
}

// The board that the host owns, and calls on it that hand over each buffer with its own length.
struct Board {
    processor: Processor,
    memory: [u8; MEMORY],
    macs: [u8; MEMORY / 4],
    cache: [u8; SLOTS * LINE],
    directory: [u32; SLOTS],
}

impl Board {
    fn new() -> Board {
        let special = Special {
            pc: 0, epc: 0, cause: 0, drkhi: DRK.0, drklo: DRK.1, srh: [0; 4], words: [0; 4], hash: [0; 16],
            address: 0, pid: 0, savedpid: 0, cid: 0, savedcid: 0, mode: 0, lock: false,
        };
        Board { processor: Processor { r: [0; 32], special }, memory: [0; MEMORY], macs: [0; MEMORY / 4], cache: [0; SLOTS * LINE], directory: [0; SLOTS] }
    }

    // A cold run: a power cut, and then three instructions from begin_cem.a on, or fewer where one faults.
    fn cold_run(&mut self) -> Report {
        let (m, a, c, d) = (self.memory.as_mut_ptr(), self.macs.as_mut_ptr(), self.cache.as_mut_ptr(), self.directory.as_mut_ptr());
        unsafe {
            hq_power_cut(&mut self.processor, m, MEMORY, a, MEMORY / 4, c, SLOTS * LINE, d, SLOTS);
            self.processor.special.pc = (LINE + 44) as u64;
            self.processor.r[2] = (DATA * LINE) as u64;
            hq_run(&mut self.processor, m, MEMORY, a, MEMORY / 4, c, SLOTS * LINE, d, SLOTS, 3)
        }
    }

    fn put_word(&mut self, address: usize, word: u32) {
        self.memory[address..address + 4].copy_from_slice(&word.to_le_bytes());
    }

    // Signs the module and seals its data at the depot, as they would be delivered.
    fn deliver(&mut self, secret: u64) {
        self.put_word(LINE + 44, 39 << 26); // begin_cem.a, at the end of line 1: goes on at line 2
        self.put_word(CODE * LINE, 41 << 26 | 1 << 21 | 2 << 16); // secure_load R1 at R2
        self.put_word(CODE * LINE + 4, 40 << 26); // end_cem
        self.memory[DATA * LINE..DATA * LINE + 8].copy_from_slice(&secret.to_le_bytes());
        unsafe {
            assert_eq!(0, hq_depot_sign(DRK.0, DRK.1, (CODE * LINE) as u64, self.memory[CODE * LINE..].as_mut_ptr(), LINE));
            let (line, mac) = (self.memory[DATA * LINE..].as_mut_ptr(), self.macs[DATA * 16..].as_mut_ptr());
            assert_eq!(0, hq_depot_seal(DRK.0, DRK.1, (DATA * LINE) as u64, line, LINE, mac, 16));
        }
    }
}

// Runs the module cold and prints what came of it; behind a fault its registers are encrypted.
fn try_out(b: &mut Board, what: &str) {
    let x = b.cold_run();
    let r1 = if b.processor.special.mode == 2 { "hidden".to_string() } else { b.processor.r[1].to_string() };
    println!("{:<34} answer {}, {} steps, {} filled, {} checked, R1 {}", what, x.answer, x.steps, x.filled, x.checked, r1);
}

fn main() {
    let mut b = Board::new();
    b.deliver(42);
    try_out(&mut b, "delivered as it should be");
    try_out(&mut b, "again, cold: the same figures");
    b.memory[CODE * LINE + 4] ^= 1;
    try_out(&mut b, "one bit of the code changed");
    b.memory[CODE * LINE + 4] ^= 1;
    b.memory[DATA * LINE] ^= 1;
    try_out(&mut b, "one bit of the sealed line changed");
}
