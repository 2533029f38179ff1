//! Random hand-outs of bytes, out of two images as `replay` holds them.

use super::*;
use crate::plain_runs::{FLASH_BYTES, RAM_BYTES};

/// The longest image of `replay`.
const MOST_BYTES: usize = 4096;

/// Words behind `get_mem` that are no hand-out, and why: the first wrong word is told, whatever is wrong with it.
const BAD_HAND_OUTS: [(&str, &str); 16] = [
    ("", "7 numbers wanted, 0 given"),
    (" 1 0 1 0 4097 16", "7 numbers wanted, 6 given"),
    (" 1 0 1 0 4097 16 16 16", "7 numbers wanted, 8 given"),
    (" 1 0 1 0 4097 16 x", "out of range: 4097"),
    (" 1 0 1 0x 4097 0 4097", "no number: 0x"),
    (" 2147483648 0 1 0 16 16 16", "out of range: 2147483648"),
    (" 1 -1 1 0 16 16 16", "out of range: -1"),
    (" 1 0 4294967296 0 4097 16 16", "out of range: 4294967296"),
    (" 1 0 1 0 4097 4294967296 16", "out of range: 4097"),
    (" 1 0 1 0 16 -1 4097", "out of range: -1"),
    (" 1 0 1 0 4097 8192 16", "out of range: 4097"),
    (" 1 0 1 0 16 16 4097", "out of range: 4097"),
    (" 1 0 1 0 4096 4096 0x1001", "out of range: 0x1001"),
    (" 1 0 1 0 0x1001 8192 4098", "out of range: 0x1001"),
    (" -1 0 1 4294967295 4294967295 0 0", "out of range: 4294967295"),
    (" 0 0 0 0 4098 0 4097", "out of range: 4098"),
];

/// Where an image or an area lies, before its numbers are made to fit.
#[derive(Clone, Copy)]
struct Span {
    start: i64,
    end: i64,
}

impl Span {
    fn base(self) -> u32 {
        self.start.clamp(0, u32::MAX.into()) as u32
    }

    fn size(self) -> u32 {
        (self.end - self.start).clamp(0, u32::MAX.into()) as u32
    }

    /// An address in it, or its start where it is empty.
    fn inside(self, random: &mut Random) -> i64 {
        self.start + random.below(self.size().max(1) as usize) as i64
    }

    fn image(self, bytes: &[u8]) -> Image<'_> {
        Image { base: self.base(), bytes: &bytes[..self.size() as usize] }
    }
}

/// An address or, at times, one beside it.
fn about(random: &mut Random, address: i64) -> i64 {
    random.mostly(address, 4, &[address - 1, address + 1])
}

/// Where a region begins or ends for the most part, or where memory does.
fn border(random: &mut Random, kernel: &Kernel) -> i64 {
    let borders = kernel.borders();
    let good = if borders.is_empty() { 0 } else { random.pick(&borders) };
    random.mostly(good, 8, &[0, ADDRESSES, ADDRESSES]) as i64
}

fn random_length(random: &mut Random) -> i64 {
    let any = random.below(MOST_BYTES + 1);
    random.pick(&[0, 1, 2, 16, any, any, any, MOST_BYTES - 1, MOST_BYTES, MOST_BYTES]) as i64
}

/// An image that begins or ends at a border or reaches across it, but seldom across those of memory.
fn at_a_border(random: &mut Random, kernel: &Kernel) -> Span {
    let (border, length) = (border(random, kernel), random_length(random));
    let any = random.below(length as usize + 1) as i64;
    let start = border - random.pick(&[0, length, any, any]);
    let start = random.mostly(start.clamp(0, ADDRESSES as i64 - length), 12, &[start]);
    let start = about(random, start);
    Span { start, end: start + length }
}

/// An image that touches another, or has a byte in common with it, or a byte between, or begins in it.
fn beside(random: &mut Random, other: Span) -> Span {
    let length = random_length(random);
    let (before, behind) = (other.start - length, other.end);
    let touching = match (before >= 0, behind + length <= ADDRESSES as i64) {
        (true, true) => random.pick(&[before, behind]),
        (true, false) => before,
        _ => behind,
    };
    let (near, inside) = (about(random, touching), other.inside(random));
    let start = random.mostly(near, 16, &[inside]);
    Span { start, end: start + length }
}

/// Flash and RAM, either of them below the other.
fn random_images(random: &mut Random, kernel: &Kernel) -> [Span; 2] {
    let one = at_a_border(random, kernel);
    let other = if random.one_in(3) { at_a_border(random, kernel) } else { beside(random, one) };
    random.pick(&[[one, other], [other, one]])
}

/// In an image, or about its ends, or from one image into the other; or about a border of regions.
fn random_area(random: &mut Random, kernel: &Kernel, images: [Span; 2]) -> Span {
    let image = random.pick(&images);
    let (one, other) = (image.inside(random), image.inside(random));
    let (start, end) = (one.min(other), one.max(other) + 1);
    let (first, behind) = (about(random, image.start), about(random, image.end));
    match random.below(16) {
        0..=3 => Span { start, end },
        4 | 5 => Span { start: first, end: behind },
        6 | 7 => Span { start: first, end },
        8 | 9 => Span { start, end: behind },
        10 | 11 => {
            let [low, high] = images.map(|image| image.inside(random));
            Span { start: low.min(high), end: low.max(high) + 1 }
        }
        _ => {
            let border = border(random, kernel);
            let start = random.pick(&[first, behind, border, border - 1]);
            Span { start, end: start + random.pick(&[0, 1, 1, 2, 16, 0x1000, 0x1_0000, u32::MAX.into()]) }
        }
    }
}

/// The code of a hand-out, and which of its reasons holds where it has several.
fn met(kernel: &Kernel, code: Er, area: Span, images: [Image; 2]) -> (&'static str, &'static str) {
    let [flash, ram] = images;
    let end = u64::from(area.base()) + u64::from(area.size());
    let reaches = images.map(|image| u64::from(area.base().max(image.base)) < end.min(image.end()));
    let reason = match code {
        E_OK if reaches[0] => "out of flash",
        E_OK => "out of RAM",
        E_PAR if flash.end().max(ram.end()) > ADDRESSES => "an image past the end of memory",
        E_PAR if flash.overlaps(&ram) => "images that overlap",
        E_PAR => "the area",
        E_NOEXS if kernel.region_of(area.base()).is_none() => "no region",
        E_NOEXS => match reaches {
            [true, true] => "in both images",
            [false, false] => "in no image",
            _ => "in one image and beyond",
        },
        _ => "",
    };
    (name(code), reason)
}

pub fn hand_out(random: &mut Random, kernel: &Kernel, script: &mut Script) {
    if random.one_in(20) {
        let (words, reason) = random.pick(&BAD_HAND_OUTS);
        script.add(format!("get_mem{words}"), format!("bad line: {reason}"));
        *script.handed.entry(("bad line", "")).or_default() += 1;
    }
    let domain = asking(random, script);
    let spans = random_images(random, kernel);
    let area = random_area(random, kernel, spans);
    let (base, size) = (area.base(), area.size());
    let [flash, ram] = [spans[0].image(&FLASH_BYTES), spans[1].image(&RAM_BYTES)];
    let answer = kernel.get_mem(domain, base, size, flash, ram);
    let (code, part) = (answer.err().unwrap_or(E_OK), answer.unwrap_or_default());
    *script.handed.entry(met(kernel, code, area, [flash, ram])).or_default() += 1;
    let lent = [flash, ram].map(|image| format!("{} {}", image.base, image.bytes.len())).join(" ");
    let [first, last] = [part.first(), part.last()].map(|byte| byte.copied().unwrap_or(0));
    script.add(
        format!("get_mem {domain} {base} {size} {lent}"),
        format!("{} length={} first={first} last={last}", name(code), part.len()),
    );
}
