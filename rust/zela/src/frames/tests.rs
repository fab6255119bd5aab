use super::*;
use crate::core::counted;
use std::cmp::min;

const AC3: &[u8] = include_bytes!("../../../../samples/a_mono_48_64k.ac3");
const EAC3: &[u8] = include_bytes!("../../../../samples/e_mono_48.eac3");
/// The bytes of each frame of both.
const WHOLE: usize = 256;
/// The emulated core is slow.
const FILES: usize = if zelamodurk::EMULATED { 200 } else { 5000 };

/// An item without its bytes.
#[derive(Clone, Debug, PartialEq, Eq)]
enum Seen {
    Frame(u64, usize, Status),
    Gap(u64, u64, Trouble),
}

fn seen(input: impl Read) -> Vec<Seen> {
    let mut frames = Frames::new(input);
    let mut items = Vec::new();
    while let Some((place, item)) = frames.next().unwrap() {
        items.push(match item {
            Item::Frame(frame) => Seen::Frame(place.offset, frame.bytes.len(), frame.status),
            Item::Gap(gap) => Seen::Gap(place.offset, gap.bytes, gap.trouble),
        });
    }
    items
}

/// How many bytes are in frames, and how many in gaps.
fn shares(items: &[Seen]) -> (usize, usize) {
    let mut shares = (0, 0);
    for item in items {
        match item {
            Seen::Frame(_, bytes, _) => shares.0 += bytes,
            Seen::Gap(_, bytes, _) => shares.1 += *bytes as usize,
        }
    }
    shares
}

/// An input that gives few bytes at a time, and not always as many.
struct Uneven<'a>(&'a [u8], usize);

impl Read for Uneven<'_> {
    fn read(&mut self, room: &mut [u8]) -> io::Result<usize> {
        self.1 = self.1 * 31 % 257 + 1;
        let count = min(self.1, room.len());
        self.0.read(&mut room[..count])
    }
}

/// Bytes that look like nothing, the same each time.
fn noise(count: usize) -> Vec<u8> {
    let mut state: u32 = 1;
    let mut next = || {
        state = state.wrapping_mul(1_664_525).wrapping_add(1_013_904_223);
        state.to_be_bytes()[0]
    };
    (0..count).map(|_| next()).collect()
}

#[test]
fn each_byte_is_in_a_frame_or_a_gap_wherever_the_input_ends() {
    for stream in [AC3, EAC3] {
        for end in 0..4 * WHOLE {
            let items = seen(&stream[..end]);
            let (whole, part) = (end / WHOLE * WHOLE, end % WHOLE);
            assert_eq!(shares(&items), (whole, part), "cut at {end}");
        }
    }
}

#[test]
fn each_frame_but_the_first_is_found_wherever_the_input_begins() {
    for stream in [AC3, EAC3] {
        for start in 1..WHOLE {
            let items = seen(&stream[start..4 * WHOLE]);
            assert_eq!(shares(&items), (3 * WHOLE, WHOLE - start), "from {start}");
        }
    }
}

#[test]
fn any_wrong_byte_costs_at_most_its_frame() {
    for stream in [AC3, EAC3] {
        for at in WHOLE..2 * WHOLE {
            let mut bytes = stream[..4 * WHOLE].to_vec();
            bytes[at] ^= 0x41;
            let items = seen(&bytes[..]);
            let (in_frames, in_gaps) = shares(&items);
            assert_eq!(in_frames + in_gaps, bytes.len());
            let good = items.iter().filter(|item| match item {
                Seen::Frame(_, _, status) => status.is_good(),
                Seen::Gap(..) => false,
            });
            assert_eq!(good.count(), 3, "byte {at}: {items:?}");
        }
    }
}

#[test]
fn a_frame_inside_another_cuts_it_short() {
    for have in 6..WHOLE {
        let spliced = [&AC3[..WHOLE + have], &EAC3[..2 * WHOLE]].concat();
        let cut = Trouble::Cut {
            have: have as u64,
            whole: 256,
        };
        let items = seen(&spliced[..]);
        assert_eq!(items[1], Seen::Gap(256, have as u64, cut));
        assert_eq!(shares(&items), (3 * WHOLE, have));
    }
}

/// A header of 4,096 bytes, and a good frame that begins shortly before they end. A header in it stands where
/// they end.
fn nested() -> Vec<u8> {
    let header = [0x0B, 0x77, 0x07, 0xFF, 0x00, 0x80];
    let mut good = include_bytes!("../../../../samples/e_51_48_384k.eac3")[..1536].to_vec();
    good[96..102].copy_from_slice(&header);
    core::repair(&mut good, Codec::Eac3).unwrap();
    [&header[..], &[0; 3994], &good].concat()
}

#[test]
fn a_good_frame_is_found_up_to_the_end_of_a_bad_one() {
    let cut = Trouble::Cut {
        have: 4000,
        whole: 4096,
    };
    let bytes = nested();
    let items = seen(Uneven(&bytes, 1));
    assert_eq!(items[0], Seen::Gap(0, 4000, cut));
    assert_eq!(shares(&items), (1536, 4000));
}

#[test]
fn pieces_make_no_difference() {
    let parts = [&noise(70_000), &AC3[..700], EAC3, &noise(9), AC3, &nested()];
    let bytes = parts.concat();
    let whole = seen(&bytes[..]);
    let in_frames = 2 * WHOLE + EAC3.len() + AC3.len() + 1536;
    assert_eq!(shares(&whole), (in_frames, bytes.len() - in_frames));
    for begin in 0..20 {
        assert_eq!(seen(Uneven(&bytes, begin)), whole);
    }
}

#[test]
fn noise_has_no_frame() {
    let bytes = noise(3_000_000);
    let items = seen(&bytes[..]);
    assert_eq!(shares(&items), (0, bytes.len()));
}

#[test]
fn headers_without_end_take_no_frame_and_no_long_time() {
    // Each is that of an E-AC-3 frame of 4,096 bytes, and none stands where another ends.
    let bytes = [0x0B, 0x77, 0x07, 0xFF, 0x00, 0x80].repeat(10_000);
    assert_eq!(shares(&seen(&bytes[..])), (0, bytes.len()));
}

/// The rule as it is written, over a whole input and with nothing kept from place to place.
fn plainly(bytes: &[u8]) -> Vec<Seen> {
    let stand: Vec<_> = (0..bytes.len()).map(|at| whole(&bytes[at..])).collect();
    let is_good = |at: usize| matches!(&stand[at], Ok((_, status)) if status.is_good());
    let judged = |at: usize| {
        let (header, status) = stand[at].clone()?;
        let end = at + header.bytes;
        let ends_well = end == bytes.len() || probe(&bytes[end..]).is_ok();
        let whole = header.bytes as u64;
        match is_good(at) || (ends_well && !(at + 1..end).any(is_good)) {
            true => Ok((header, status)),
            false => Err(Trouble::Lone { status, whole }),
        }
    };
    let mut items = Vec::new();
    let mut at = 0;
    while at < bytes.len() {
        let mut later = at + 1..bytes.len();
        let (item, end) = match judged(at) {
            Ok((Header { bytes, .. }, status)) => {
                (Seen::Frame(at as u64, bytes, status), at + bytes)
            }
            Err(trouble) => {
                let end = later.find(|next| judged(*next).is_ok());
                let end = end.unwrap_or(bytes.len());
                let count = (end - at) as u64;
                (Seen::Gap(at as u64, count, trouble.before_next(count)), end)
            }
        };
        items.push(item);
        at = end;
    }
    items
}

/// An E-AC-3 header that claims so many bytes, and two bytes more.
fn claim(bytes: usize) -> [u8; 8] {
    let [high, low] = ((bytes / 2 - 1) as u16).to_be_bytes();
    [0x0B, 0x77, high, low, 0, 0x80, 0, 0]
}

/// An E-AC-3 frame of such bytes with a good checksum.
fn good(mut bytes: Vec<u8>) -> Vec<u8> {
    core::repair(&mut bytes, Codec::Eac3).unwrap();
    bytes
}

/// A piece of a file that is made to have frames inside frames, by a number.
fn piece(number: usize) -> Vec<u8> {
    let (kind, size) = (number % 8, number / 8 % 16 * 8);
    match kind {
        0 => good(claim(8).to_vec()),
        1 => claim(8).to_vec(),
        2 | 3 => claim(size + 8).to_vec(),
        4 => claim(core::LONGEST).to_vec(),
        5 => good([&claim(size + 8)[..], &claim(24).repeat(size / 8)].concat()),
        6 => [0x0B, 0x77].repeat(size / 8),
        _ => noise(size / 4),
    }
}

/// Numbers that look like chance, the same each time.
fn chances() -> impl FnMut() -> usize {
    let mut state: u64 = 0x0B77;
    move || {
        state ^= state << 13;
        state ^= state >> 7;
        state ^= state << 17;
        (state >> 8) as usize
    }
}

/// A file of such pieces; every other one is cut somewhere in the last of them.
fn pieces(number: usize, mut next: impl FnMut() -> usize) -> Vec<u8> {
    let count = next() % 30;
    let pieces: Vec<Vec<u8>> = (0..count).map(|_| piece(next())).collect();
    let mut bytes = pieces.concat();
    let cut = number % 2 * (next() % 8);
    bytes.truncate(bytes.len().saturating_sub(cut));
    bytes
}

#[test]
fn what_is_kept_makes_no_difference() {
    let mut next = chances();
    let (mut good, mut bad, mut gaps) = (0, 0, 0);
    for number in 0..FILES {
        let bytes = pieces(number, &mut next);
        let items = seen(Uneven(&bytes, number));
        assert_eq!(items, plainly(&bytes), "file {number}: {bytes:02X?}");
        for item in items {
            match item {
                Seen::Frame(_, _, status) if status.is_good() => good += 1,
                Seen::Frame(..) => bad += 1,
                Seen::Gap(..) => gaps += 1,
            }
        }
    }
    let counts = [good, bad, gaps];
    assert!(counts.iter().all(|count| *count > 300), "{counts:?}");
}

#[test]
fn frames_that_claim_the_same_bytes_are_tried_once() {
    // Each header is followed by another where its 4,096 bytes end, and a good frame is among them.
    let row = [
        &claim(core::LONGEST).repeat(511),
        &good(claim(8).to_vec())[..],
    ]
    .concat();
    let bytes = row.repeat(3);
    counted::take();
    let items = seen(&bytes[..]);
    let calls = counted::take();
    assert_eq!(items, plainly(&bytes));
    assert_eq!(shares(&items), (3 * 8, bytes.len() - 3 * 8));
    let places = bytes.len() / 8;
    assert!(calls.probe <= 5 * places, "{calls:?} of {places} places");
    assert!(
        calls.crc_status <= 3 * places,
        "{calls:?} of {places} places"
    );
}

#[test]
fn a_sync_word_is_found_at_each_place() {
    for at in 1..40 {
        let mut bytes = vec![0x0B; 40];
        assert_eq!(next_sync(&bytes), 39);
        if let Some(next) = bytes.get_mut(at + 1) {
            *next = 0x77;
        }
        assert_eq!(next_sync(&bytes), at);
    }
    assert_eq!(next_sync(&[0x0B]), 1);
    assert_eq!(next_sync(&[0x0B, 0x77, 0]), 3);
}
