use super::*;

/// An E-AC-3 header by its codes.
fn header(strmtyp: u8, substreamid: u8, fscod: u8, next: u8) -> [u8; 6] {
    let head = strmtyp << 6 | substreamid << 3;
    [0x0B, 0x77, head, 0xFF, fscod << 6 | next << 4, 0x80]
}

fn sound(strmtyp: u8, substreamid: u8, fscod: u8, next: u8) -> Sound {
    let header = header(strmtyp, substreamid, fscod, next);
    Sound::of(Codec::Eac3, &header).unwrap()
}

#[test]
fn an_e_ac_3_frame_lasts_as_its_header_says() {
    for (fscod, rate) in [48_000, 44_100, 32_000].into_iter().enumerate() {
        for (code, blocks) in [1, 2, 3, 6].into_iter().enumerate() {
            for strmtyp in [0, 2] {
                let time = sound(strmtyp, 0, fscod as u8, code as u8).time();
                assert_eq!(time, Time::of_blocks(blocks, rate));
            }
        }
    }
    for (fscod2, rate) in [24_000, 22_050, 16_000].into_iter().enumerate() {
        let time = sound(0, 0, 3, fscod2 as u8).time();
        assert_eq!(time, Time::of_blocks(6, rate));
    }
}

#[test]
fn other_substreams_and_reserved_codes_take_no_time() {
    for (strmtyp, id, fscod, next) in [(1, 0, 0, 3), (3, 0, 0, 3), (0, 1, 0, 3), (0, 0, 3, 3)] {
        assert_eq!(sound(strmtyp, id, fscod, next).time(), Time::default());
    }
}

#[test]
fn a_layout_is_that_of_acmod_and_lfeon_in_both_codecs() {
    let plain = ["1+1", "1/0", "2/0", "3/0", "2/1", "3/1", "2/2", "3/2"];
    // What of an AC-3 header stands between acmod and lfeon, in bits.
    let between = [0, 0, 2, 2, 2, 4, 2, 4];
    for acmod in 0..8u8 {
        for lfe in [0, 1u8] {
            let expected = plain[acmod as usize].to_string() + [".0", ".1"][lfe as usize];
            let expected = expected.trim_end_matches(".0");
            let mut eac3 = header(0, 0, 0, 3);
            eac3[4] |= acmod << 1 | lfe;
            let of_eac3 = Sound::of(Codec::Eac3, &eac3).unwrap();
            assert_eq!(of_eac3.format.layout(), expected);
            // The bits between are 1 where lfeon is 0, and the other way round, and so is the one behind.
            let at = 3 + between[acmod as usize];
            let rest: u16 = if lfe == 1 {
                1 << (15 - at)
            } else {
                !(1 << (15 - at))
            };
            let bits = u16::from(acmod) << 13 | rest & 0x1FFF;
            let [high, low] = bits.to_be_bytes();
            let ac3 = [0x0B, 0x77, 0, 0, 0, 0x40, high, low];
            let of_ac3 = Sound::of(Codec::Ac3, &ac3).unwrap();
            assert_eq!(of_ac3.format.layout(), expected, "acmod {acmod}");
        }
    }
}

#[test]
fn a_format_is_told_in_words() {
    let told = |fscod, next| sound(0, 0, fscod, next).format.to_string();
    assert_eq!(told(0, 3), "E-AC-3 1+1 48 kHz");
    assert_eq!(told(1, 3), "E-AC-3 1+1 44.1 kHz");
    assert_eq!(told(3, 1), "E-AC-3 1+1 22.05 kHz");
    assert_eq!(told(3, 3), "E-AC-3 1+1 of a reserved rate");
}

#[test]
fn a_frame_too_short_says_nothing() {
    for short in 0..6 {
        assert_eq!(
            Sound::of(Codec::Eac3, &header(0, 0, 0, 0)[..short.min(4)]),
            None
        );
        assert_eq!(Sound::of(Codec::Ac3, &[0; 6][..short]), None);
    }
}
