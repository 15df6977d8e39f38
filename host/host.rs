// The same library from Rust: a slice is a pointer and a length. Two steps, the second of which writes the card, who wrote there, and two back; then a
// tick of a sound list, and the two steps as a run with a map of what it reads.
extern "C" {
    #[rustfmt::skip]
    fn argolythe_step(
        image: *mut u8, image_len: usize, pad: *mut u8, pad_len: usize,
        vdp: *mut u8, vdp_len: usize, reg: *mut u8, reg_len: usize,
        journal: *mut u32, journal_len: usize, pc: u16, used: usize,
        ring: u8, place: usize, writable: u8, source: u8, out: *mut u64,
    ) -> u8;
    #[rustfmt::skip]
    fn argolythe_run_mapped(
        image: *mut u8, image_len: usize, map: *mut u8, map_len: usize, pad: *mut u8, pad_len: usize,
        vdp: *mut u8, vdp_len: usize, reg: *mut u8, reg_len: usize,
        journal: *mut u32, journal_len: usize, pc: u16, used: usize,
        ring: u8, place: usize, writable: u8, source: u8, n: u32, out: *mut u64,
    ) -> u8;
    #[rustfmt::skip]
    fn argolythe_tick(
        image: *mut u8, image_len: usize, pad: *mut u8, pad_len: usize,
        vdp: *mut u8, vdp_len: usize, reg: *mut u8, reg_len: usize,
        journal: *mut u32, journal_len: usize, pc: u16, used: usize,
        ring: u8, place: usize, writable: u8, source: u8,
        output: *mut u8, output_len: usize, sent: *mut usize, out: *mut u64,
    ) -> u8;
    #[rustfmt::skip]
    fn argolythe_step_back(
        image: *mut u8, image_len: usize, pad: *mut u8, pad_len: usize,
        vdp: *mut u8, vdp_len: usize, reg: *mut u8, reg_len: usize,
        journal: *mut u32, journal_len: usize, pc: u16, used: usize,
        ring: u8, place: usize, writable: u8, source: u8, out: *mut u64,
    ) -> u8;
    #[rustfmt::skip]
    fn argolythe_who_wrote(
        image: *const u8, image_len: usize, pad: *const u8, pad_len: usize,
        vdp: *const u8, vdp_len: usize, reg: *const u8, reg_len: usize,
        journal: *const u32, journal_len: usize, used: usize, ring: u8, place: usize,
        writable: u8, memory: u8, at: u16, out: *mut u64,
    ) -> u8;
}

struct Machine {
    image: Vec<u8>,
    pad: [u8; 256],
    vdp: Vec<u8>,
    reg: [u8; 8],
    journal: Vec<u32>,
    pc: u16,
    used: usize,
    ring: u8,     // 0: a plain journal
    place: usize, // of a ring's oldest word
    writable: u8, // bit g for group g
    source: u8,   // of the sound list: 1 for VDP RAM
}

impl Machine {
    // What a call leaves is where the next one starts.
    fn keep(&mut self, out: [u64; 7]) {
        self.pc = out[0] as u16;
        self.used = out[1] as usize;
        self.place = out[5] as usize;
        self.source = out[6] as u8;
    }

    fn step(&mut self) -> u8 {
        let mut out = [0; 7];
        // Each pointer goes with its own length, and distinct fields do not overlap.
        #[rustfmt::skip]
        let answer = unsafe {
            argolythe_step(
                self.image.as_mut_ptr(), self.image.len(), self.pad.as_mut_ptr(), self.pad.len(),
                self.vdp.as_mut_ptr(), self.vdp.len(), self.reg.as_mut_ptr(), self.reg.len(),
                self.journal.as_mut_ptr(), self.journal.len(), self.pc, self.used,
                self.ring, self.place, self.writable, self.source, out.as_mut_ptr(),
            )
        };
        self.keep(out);
        answer
    }

    // Up to n steps; each byte of the image that they read gets 1 in the map.
    fn run_mapped(&mut self, map: &mut [u8], n: u32) -> u8 {
        let mut out = [0; 7];
        // As above; the map is borrowed apart from the machine.
        #[rustfmt::skip]
        let answer = unsafe {
            argolythe_run_mapped(
                self.image.as_mut_ptr(), self.image.len(), map.as_mut_ptr(), map.len(), self.pad.as_mut_ptr(), self.pad.len(),
                self.vdp.as_mut_ptr(), self.vdp.len(), self.reg.as_mut_ptr(), self.reg.len(),
                self.journal.as_mut_ptr(), self.journal.len(), self.pc, self.used,
                self.ring, self.place, self.writable, self.source, n, out.as_mut_ptr(),
            )
        };
        self.keep(out);
        answer
    }

    // The answer, and what was sent.
    fn tick<'a>(&mut self, output: &'a mut [u8]) -> (u8, &'a [u8]) {
        let mut out = [0; 7];
        let mut sent = 0;
        // As above; what it sends to is borrowed apart from the machine.
        #[rustfmt::skip]
        let answer = unsafe {
            argolythe_tick(
                self.image.as_mut_ptr(), self.image.len(), self.pad.as_mut_ptr(), self.pad.len(),
                self.vdp.as_mut_ptr(), self.vdp.len(), self.reg.as_mut_ptr(), self.reg.len(),
                self.journal.as_mut_ptr(), self.journal.len(), self.pc, self.used,
                self.ring, self.place, self.writable, self.source,
                output.as_mut_ptr(), output.len(), &mut sent, out.as_mut_ptr(),
            )
        };
        self.keep(out);
        (answer, &output[..sent])
    }

    fn step_back(&mut self) -> u8 {
        let mut out = [0; 7];
        // As above.
        #[rustfmt::skip]
        let answer = unsafe {
            argolythe_step_back(
                self.image.as_mut_ptr(), self.image.len(), self.pad.as_mut_ptr(), self.pad.len(),
                self.vdp.as_mut_ptr(), self.vdp.len(), self.reg.as_mut_ptr(), self.reg.len(),
                self.journal.as_mut_ptr(), self.journal.len(), self.pc, self.used,
                self.ring, self.place, self.writable, self.source, out.as_mut_ptr(),
            )
        };
        self.keep(out);
        answer
    }

    // The answer, then found, after, pc, before and left. A memory of 4 is GROM.
    fn who_wrote(&self, memory: u8, at: u16) -> (u8, [u64; 5]) {
        let mut out = [0; 5];
        // Each pointer goes with its own length; all but the last are only read.
        #[rustfmt::skip]
        let answer = unsafe {
            argolythe_who_wrote(
                self.image.as_ptr(), self.image.len(), self.pad.as_ptr(), self.pad.len(),
                self.vdp.as_ptr(), self.vdp.len(), self.reg.as_ptr(), self.reg.len(),
                self.journal.as_ptr(), self.journal.len(), self.used, self.ring, self.place,
                self.writable, memory, at, out.as_mut_ptr(),
            )
        };
        (answer, out)
    }
}

fn main() {
    let mut m = Machine {
        image: vec![0; 8192],
        pad: [0; 256],
        vdp: vec![0; 16384],
        reg: [0; 8],
        journal: vec![0; 64],
        pc: 0,
        used: 0,
        ring: 0,
        place: 0,
        writable: 1,
        source: 0,
    };
    m.image[..3].copy_from_slice(&[0xBE, 0x10, 0x2A]); // ST >2A to pad >10
    m.image[3..9].copy_from_slice(&[0x25, 0, 1, 0, 0x80, 0x10]); // MOVE 1 byte from pad >10 to GROM >0080
    m.pad[0x73] = 0x7E; // the empty subroutine stack, where a MOVE keeps pc
    let forth = m.step();
    println!("From Rust, a step answers {forth}: pc is {:04X}, pad >10 holds {:02X}.", m.pc, m.pad[0x10]);
    assert!(forth == 0 && m.pc == 3 && m.pad[0x10] == 0x2A && m.used == 2);
    let moved = m.step();
    println!("The next answers {moved}: pc is {:04X}, GROM >0080 holds {:02X}.", m.pc, m.image[0x80]);
    assert!(moved == 0 && m.pc == 9 && m.image[0x80] == 0x2A && m.used == 8);
    let (answer, [found, after, pc, before, left]) = m.who_wrote(4, 0x80);
    println!("Who wrote GROM >0080 answers {answer}: the step at {pc:04X}, with {after} after it; {before:02X} before, {left:02X} left.");
    assert!(answer == 0 && found == 1 && after == 0 && pc == 3 && before == 0 && left == 0x2A);
    let unmoved = m.step_back();
    println!("A step back answers {unmoved}: pc is {:04X}, GROM >0080 holds {:02X}.", m.pc, m.image[0x80]);
    assert!(unmoved == 0 && m.pc == 3 && m.image[0x80] == 0 && m.used == 2);
    let back = m.step_back();
    println!("One more answers {back}: pc is {:04X}, pad >10 holds {:02X}.", m.pc, m.pad[0x10]);
    assert!(back == 0 && m.pc == 0 && m.pad[0x10] == 0 && m.used == 0);
    m.vdp[0x400..0x404].copy_from_slice(&[2, 0xE4, 0xF2, 5]); // a sound list: two bytes, then 5 ticks
    m.pad[0xCC..0xCF].copy_from_slice(&[4, 0, 1]); // its address, and 1: due at the next tick
    m.source = 1;
    let mut output = [0; 8];
    let (ticked, sent) = m.tick(&mut output);
    println!("A tick answers {ticked} and sends {sent:02X?}: {} ticks to the next block.", m.pad[0xCE]);
    assert!(ticked == 0 && sent == [0xE4, 0xF2] && m.pad[0xCC..0xCF] == [4, 4, 5] && m.source == 1);
    let unticked = m.step_back();
    println!("A step back answers {unticked}: the list stands at {:02X}{:02X} again.", m.pad[0xCC], m.pad[0xCD]);
    assert!(unticked == 0 && m.pad[0xCC..0xCF] == [4, 0, 1] && m.source == 1 && m.used == 0);
    let mut map = vec![0; m.image.len()];
    let ran = m.run_mapped(&mut map, 2);
    let read = map.iter().filter(|&&byte| byte == 1).count();
    println!("A run of 2 with a map answers {ran}: it read {read} bytes, and not GROM >0080, where it stored {:02X}.", m.image[0x80]);
    assert!(ran == 0 && read == 9 && map[..9] == [1; 9] && m.image[0x80] == 0x2A && m.used == 8);
    let (pc, pad) = (m.pc, m.pad);
    assert!(m.step_back() == 0 && m.step_back() == 0 && m.pc == 0);
    m.image[0x80] = 0x77; // not read, so it may be any
    let again = m.run_mapped(&mut map, 2);
    println!("With another byte there it answers {again}: pc is {:04X}, and GROM >0080 holds {:02X} again.", m.pc, m.image[0x80]);
    assert!(again == 0 && m.pc == pc && m.pad == pad && m.used == 8 && m.image[0x80] == 0x2A);
}
