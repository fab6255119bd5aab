use super::*;
use crate::core::Codec;

/// A frame by its length and a number in it; the header's codes tell E-AC-3 frames of two substreams apart.
fn frame(strmtyp: u8, length: usize, number: u8) -> Vec<u8> {
    let mut frame = vec![number; length];
    frame[..6].copy_from_slice(&[0x0B, 0x77, strmtyp << 6, 0, 0x30, 0x80]);
    frame
}

fn sound(frame: &[u8]) -> Sound {
    Sound::of(Codec::Eac3, frame).unwrap()
}

fn lost(frame: &[u8]) -> Option<Lost> {
    let (sound, bytes) = (sound(frame), frame.len());
    Some(Lost { sound, bytes })
}

/// What has been kept of these frames.
fn kept(frames: &[Vec<u8>]) -> StandIns {
    let mut kept = StandIns::default();
    for frame in frames {
        kept.keep(sound(frame), frame);
    }
    kept
}

/// The length and the number of each frame that stands in.
fn filled(stand_ins: &mut StandIns, lost: Option<Lost>, bytes: u64) -> Vec<(usize, u8)> {
    let mut filling = stand_ins.filling(lost, bytes);
    let mut frames = Vec::new();
    while let Some(at) = stand_ins.candidate(&filling) {
        let frame = stand_ins.take(at);
        filling.add(frame.len());
        frames.push((frame.len(), frame[6]));
    }
    frames
}

#[test]
fn without_a_good_frame_nothing_stands_in() {
    let lost = lost(&frame(0, 100, 1));
    assert_eq!(filled(&mut StandIns::default(), lost, 100), []);
}

#[test]
fn the_last_good_frame_of_the_same_length_and_header_stands_in() {
    let frames = [
        frame(0, 100, 1),
        frame(0, 102, 2),
        frame(0, 100, 3),
        frame(0, 102, 4),
    ];
    let mut stand_ins = kept(&frames);
    assert_eq!(
        filled(&mut stand_ins, lost(&frame(0, 100, 9)), 100),
        [(100, 3)]
    );
    assert_eq!(
        filled(&mut stand_ins, lost(&frame(0, 102, 9)), 102),
        [(102, 4)]
    );
}

#[test]
fn a_frame_that_breaks_off_is_one_lost_frame() {
    let mut stand_ins = kept(&[frame(0, 100, 1)]);
    for have in [1, 49, 50, 99] {
        assert_eq!(
            filled(&mut stand_ins, lost(&frame(0, 100, 9)), have),
            [(100, 1)]
        );
    }
}

#[test]
fn without_a_header_the_bytes_are_counted() {
    let mut stand_ins = kept(&[frame(0, 100, 1)]);
    for (bytes, count) in [(1, 0), (49, 0), (50, 1), (149, 1), (150, 2), (1000, 10)] {
        assert_eq!(filled(&mut stand_ins, None, bytes).len(), count, "{bytes}");
    }
}

#[test]
fn a_header_of_another_length_is_one_frame_of_its_substream() {
    let mut stand_ins = kept(&[frame(0, 100, 1)]);
    for length in [40, 300, 900] {
        let other = frame(0, length, 9);
        let bytes = length as u64;
        assert_eq!(
            filled(&mut stand_ins, lost(&other), bytes),
            [(100, 1)],
            "{length}"
        );
    }
    // That of a substream that never came is sure to be no such frame.
    let dependent = lost(&frame(1, 100, 9));
    assert_eq!(filled(&mut stand_ins, dependent, 100), []);
}

#[test]
fn a_header_of_another_codec_is_damaged() {
    let mut stand_ins = kept(&[frame(0, 100, 1)]);
    let sound = Sound::of(Codec::Ac3, &[0; 8]).unwrap();
    let other = Some(Lost { sound, bytes: 128 });
    assert_eq!(filled(&mut stand_ins, other, 100), [(100, 1)]);
}

#[test]
fn what_would_follow_counts_for_more_than_a_header_that_may_be_damaged() {
    let unit = |number| [frame(0, 100, number), frame(1, 100, 10 + number)];
    let mut stand_ins = kept(&[unit(1), unit(2)].concat());
    // The first frame of a unit, with a flipped bit of strmtyp.
    let flipped = lost(&frame(1, 100, 9));
    assert_eq!(filled(&mut stand_ins, flipped, 100), [(100, 2)]);
    // Of two lengths in turn, the header's counts.
    let mut stand_ins = kept(&[frame(0, 100, 1), frame(0, 102, 2), frame(0, 100, 3)]);
    assert_eq!(
        filled(&mut stand_ins, lost(&frame(0, 100, 9)), 100),
        [(100, 3)]
    );
}

#[test]
fn a_unit_is_completed_by_what_followed_before() {
    let unit = |number| [frame(0, 200, number), frame(1, 100, number)];
    let mut stand_ins = kept(&[unit(1), unit(2)].concat());
    let begins = |sound: Sound| sound.format.substream.is_first();
    assert_eq!(stand_ins.completing(begins), None);
    stand_ins.keep(sound(&frame(0, 200, 3)), &frame(0, 200, 3));
    let at = stand_ins.completing(begins).unwrap();
    assert_eq!(stand_ins.take(at)[6], 2);
    assert_eq!(stand_ins.completing(begins), None);
    // Before a frame has followed, nothing is known to.
    assert_eq!(kept(&[frame(0, 200, 1)]).completing(begins), None);
}

#[test]
fn substreams_and_lengths_go_on_in_turn() {
    let unit = |number| [frame(0, 200, number), frame(1, 100, number)];
    let mut stand_ins = kept(&[unit(1), unit(2)].concat());
    assert_eq!(filled(&mut stand_ins, None, 300), [(200, 2), (100, 2)]);
    // Behind the first of a unit its second follows.
    stand_ins.keep(sound(&frame(0, 200, 3)), &frame(0, 200, 3));
    assert_eq!(filled(&mut stand_ins, None, 100), [(100, 2)]);
    assert_eq!(
        filled(&mut stand_ins, None, 640),
        [(200, 3), (100, 2), (200, 3), (100, 2)]
    );
}

#[test]
fn a_stream_of_many_lengths_takes_no_room() {
    let frames: Vec<Vec<u8>> = (0..500).map(|at| frame(0, 100 + 2 * at, 1)).collect();
    let mut stand_ins = kept(&frames);
    assert_eq!(stand_ins.kinds.len(), KINDS);
    // Those are kept that came last.
    for (at, frame) in frames.iter().enumerate() {
        let is_kept = stand_ins.like(sound(frame), frame.len()).is_some();
        assert_eq!(is_kept, at >= 500 - KINDS, "{at}");
    }
    assert_eq!(filled(&mut stand_ins, lost(&frames[499]), 1), [(1098, 1)]);
}
