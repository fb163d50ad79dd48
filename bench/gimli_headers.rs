//! gimli_headers ROUNDS SECTION_ADDRESS SECTION HEADER_ADDRESS HEADER: measures gimli's lookup in
//! the sorted table of `.eh_frame_hdr`, as header_bench measures ours: the same loop by the same
//! random numbers over as many addresses. Each CIE is parsed once and kept.
use gimli::{BaseAddresses, CommonInformationEntry, EhFrame, EhFrameHdr, EndianSlice};
use gimli::{FrameDescriptionEntry, LittleEndian, ParsedEhFrameHdr, Pointer, UnwindSection};
use std::collections::HashMap;
use std::{env, fs};

type Bytes<'a> = EndianSlice<'a, LittleEndian>;
type Cies<'a> = HashMap<usize, CommonInformationEntry<Bytes<'a>>>;

const PROBES: usize = 4096;
const LAPS: u32 = 9;

struct Frames<'a> {
    section: EhFrame<Bytes<'a>>,
    header: ParsedEhFrameHdr<Bytes<'a>>,
    bases: BaseAddresses,
}

impl<'a> Frames<'a> {
    fn fde_at(&self, cies: &mut Cies<'a>, pc: u64) -> Option<FrameDescriptionEntry<Bytes<'a>>> {
        let table = self.header.table()?;
        let found = table.fde_for_address(&self.section, &self.bases, pc, |section, bases, at| {
            if let Some(cie) = cies.get(&at.0) {
                return Ok(cie.clone());
            }
            let cie = section.cie_from_offset(bases, at)?;
            cies.insert(at.0, cie.clone());
            Ok(cie)
        });
        found.ok()
    }

    /// Random addresses of random entries.
    fn probes(&self, cies: &mut Cies<'a>) -> Option<Vec<u64>> {
        let table = self.header.table()?;
        let mut entries = table.iter(&self.bases);
        let mut locations = vec![];
        while let Some((location, _)) = entries.next().ok()? {
            let Pointer::Direct(location) = location else { return None };
            locations.push(location);
        }
        let mut number: u64 = 88172645463325252;
        let mut probes = vec![];
        for _ in 0..PROBES {
            number = next(number);
            let location = locations[(number >> 20) as usize % locations.len()];
            let range = self.fde_at(cies, location).map_or(0, |fde| fde.len());
            probes.push(location + if range > 0 { (number >> 9) % range } else { 0 });
        }
        Some(probes)
    }
}

fn next(number: u64) -> u64 {
    let number = number ^ (number << 13);
    let number = number ^ (number >> 7);
    number ^ (number << 17)
}

fn nanos() -> u64 {
    let mut time = [0i64; 2];
    // 3 is the clock of this thread's processor time.
    unsafe { clock_gettime(3, time.as_mut_ptr()) };
    time[0] as u64 * 1_000_000_000 + time[1] as u64
}

extern "C" {
    fn clock_gettime(clock: i32, time: *mut i64) -> i32;
}

fn find_often<'a>(frames: &Frames<'a>, cies: &mut Cies<'a>, probes: &[u64], rounds: u64) -> u64 {
    let mut sum: u64 = 0;
    for _ in 0..rounds {
        for &pc in probes {
            if let Some(fde) = frames.fde_at(cies, pc) {
                sum = sum.wrapping_add(fde.initial_address());
            }
        }
    }
    sum
}

fn main() {
    let words: Vec<String> = env::args().collect();
    let number = |index: usize| words[index].parse::<u64>().expect("a number");
    let (rounds, section_address, header_address) = (number(1), number(2), number(4));
    let section = fs::read(&words[3]).expect("a section");
    let header = fs::read(&words[5]).expect("a header");
    let bases = BaseAddresses::default()
        .set_eh_frame(section_address)
        .set_eh_frame_hdr(header_address);
    let parsed = EhFrameHdr::new(&header, LittleEndian).parse(&bases, 8).expect("a header");
    let frames = Frames { section: EhFrame::new(&section, LittleEndian), header: parsed, bases };
    let mut cies = Cies::new();
    let probes = frames.probes(&mut cies).expect("a table");
    let (mut best, mut sum) = (u64::MAX, 0);
    for _ in 0..LAPS {
        let before = nanos();
        sum = find_often(&frames, &mut cies, &probes, rounds);
        best = best.min(nanos() - before);
    }
    println!("gimli {:.1} ns, {sum}", best as f64 / (rounds as f64 * PROBES as f64));
}
