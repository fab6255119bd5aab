use super::*;
use crate::{bits, crc, Why};

fn is(codec: Codec, bytes: usize) -> Result<Header, Refusal> {
    Ok(Header { codec, bytes })
}

fn refused<T>(why: Why, bit: usize) -> Result<T, Refusal> {
    Err(Refusal { why, bit })
}

/// The fixed values K12, and the one that is run.
#[test]
fn headers_say_their_length() {
    let with = |byte4| probe(&[0x0B, 0x77, 0x00, 0x00, byte4, 0x40]);
    assert_eq!(with(0x00), is(Codec::Ac3, 128));
    assert_eq!(with(0x41), is(Codec::Ac3, 140));
    assert_eq!(with(0x26), refused(Why::BadSize, 0));
    let eac3 = [0x0B, 0x77, 0x00, 0x3F, 0x00, 0x80];
    assert_eq!(probe(&eac3), is(Codec::Eac3, 128));
}

#[test]
fn a_header_is_refused_for_the_first_thing_wrong() {
    let (bad_bsid, bad_size) = (9 << 3, 0x3F);
    for short in 0..6 {
        assert_eq!(probe(&[0; 6][..short]), refused(Why::ShortHeader, 0));
    }
    let no_sync = [0x0B, 0x76, 0, 0, bad_size, bad_bsid];
    assert_eq!(probe(&no_sync), refused(Why::NoSync, 0));
    let with = |bsid: u8| probe(&[0x0B, 0x77, 0, 0, bad_size, bsid << 3]);
    for bsid in 0..=31 {
        let expected = match bsid {
            0..=8 => refused(Why::BadSize, 0),
            11..=16 => is(Codec::Eac3, 2),
            _ => refused(Why::BadBsid, 0),
        };
        assert_eq!(with(bsid), expected, "bsid {bsid}");
    }
}

/// The 5/8 point of 128 bytes is at bit 640: crc1 looks at no bit from there on.
#[test]
fn the_first_checksum_ends_at_the_five_eighths_point() {
    for (bit, crc1) in [(16, false), (639, false), (640, true), (1023, true)] {
        let mut frame = [0; 128];
        bits::set(&mut frame, bit, 1, 1).unwrap();
        let status = crc_status(&frame, Codec::Ac3).unwrap();
        assert_eq!((status.crc1, status.crc2), (Some(crc1), false));
        assert!(!status.is_good());
        let status = crc_status(&frame, Codec::Eac3).unwrap();
        assert_eq!((status.crc1, status.crc2), (None, false));
        assert!(!status.is_good());
    }
}

#[test]
fn lengths_unfit_for_a_checksum_are_refused() {
    for (codec, least) in [(Codec::Ac3, 8), (Codec::Eac3, 4)] {
        for length in 0..4100 {
            let mut frame = vec![0x5A; length];
            let fit = length >= least && length <= 4096 && length % 2 == 0;
            assert_eq!(crc_status(&frame, codec).is_ok(), fit);
            let done = repair(&mut frame, codec);
            if fit {
                assert!(crc_status(&frame, codec).unwrap().is_good());
            } else {
                assert_eq!(done, refused(Why::BadLength, 0));
                assert_eq!(frame, vec![0x5A; length]);
            }
        }
    }
}

/// With zeros from the 5/8 point on, crc2 is the CRC of the two bytes before it.
#[test]
fn a_repair_that_inverts_the_reserved_bit() {
    let is_sync = |word: &u16| crc::crc16(0, &word.to_be_bytes()) == 0x0B77;
    let [high, low] = (0..=u16::MAX).find(is_sync).unwrap().to_be_bytes();
    for length in [8, 128, 4096] {
        let mut frame = vec![0; length];
        frame[length - 4..].copy_from_slice(&[high, low, 0, 0]);
        let mut other = frame.clone();
        repair(&mut frame, Codec::Ac3).unwrap();
        assert_eq!(frame[length - 4..], [high, low ^ 1, 0x8B, 0x72]);
        assert!(crc_status(&frame, Codec::Ac3).unwrap().is_good());
        // E-AC-3 has no such rule.
        repair(&mut other, Codec::Eac3).unwrap();
        assert_eq!(other[length - 4..], [high, low, 0x0B, 0x77]);
    }
}
