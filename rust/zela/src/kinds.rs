//! Kinds of files that are no plain AC-3 stream, by their first bytes, with what to type to get at the AC-3 in
//! them.
//!
//! The first kind of the table that fits counts. A container is asked before what it may hold, and a weak
//! signature after the others.

use crate::core;

/// How many of a file's first bytes are looked at: a burst of AC-3 begins every 6,144.
pub const LOOK: usize = 8192;

/// A kind of file that is no plain AC-3 stream.
#[derive(Debug)]
pub struct Kind {
    /// What it is, for people.
    pub name: &'static str,
    /// Whether the first bytes decide by themselves. Where they don't, the kind counts only if no frame is found.
    pub is_sure: bool,
    fits: fn(&[u8]) -> bool,
    /// What gets the AC-3 out of a FILE.
    command: Option<&'static str>,
}

/// What these first bytes of a file are, if they are known and no AC-3.
pub fn of(first: &[u8]) -> Option<&'static Kind> {
    let first = first.get(..LOOK).unwrap_or(first);
    KINDS.iter().find(|kind| (kind.fits)(first))
}

impl Kind {
    /// What to type to get at the AC-3 in it, with the file's name as a shell takes it. Standard input has no
    /// name, so that FILE stands for it.
    pub fn advice(&self, file: &str) -> Option<String> {
        let command = self.command?;
        Some(match file {
            "-" => command.to_string(),
            _ => command.replace("FILE", &as_path(file)),
        })
    }
}

/// A name that ffmpeg takes for a file's: what stands before a colon would be a protocol to it.
fn as_path(file: &str) -> String {
    match file.split('/').next() {
        Some(start) if start.contains(':') => format!("./{file}"),
        _ => file.to_string(),
    }
}

/// Takes the first sound track as it is. `-f data` writes AC-3 and E-AC-3 alike.
const COPY: &str = "ffmpeg -i FILE -map 0:a:0 -c copy -f data OUT.ac3";
const COPY_SEGMENT: &str = "cat INIT FILE | ffmpeg -i - -map 0:a:0 -c copy -f data OUT.ac3";
/// MXF carries AC-3 as bursts in samples, which ffmpeg takes for sound until they are read as bursts.
const COPY_SAMPLES: &str = "ffmpeg -i FILE -map 0:a:0 -f s16le - | \
    ffmpeg -f spdif -i - -map 0:a:0 -c copy -f data OUT.ac3";
/// ffmpeg's reader of bursts wants the low byte first.
const COPY_LOW: &str = "ffmpeg -f spdif -i FILE -map 0:a:0 -c copy -f data OUT.ac3";
const COPY_HIGH: &str = "dd conv=swab if=FILE | \
    ffmpeg -f spdif -i - -map 0:a:0 -c copy -f data OUT.ac3";
/// ffmpeg's reader of bursts refuses E-AC-3. Its reader of E-AC-3 finds the frames, and eac3_core takes away
/// what stands between them, but dependent substreams too.
const COPY_HIGH_EAC3: &str = "ffmpeg -f eac3 -i FILE \
    -map 0:a:0 -c copy -bsf:a eac3_core -f data OUT.ac3 # leaves dependent substreams out";
const COPY_LOW_EAC3: &str = "dd conv=swab if=FILE | ffmpeg -f eac3 -i - \
    -map 0:a:0 -c copy -bsf:a eac3_core -f data OUT.ac3 # leaves dependent substreams out";
const SWAP: &str = "dd conv=swab if=FILE of=OUT.ac3";

const KINDS: &[Kind] = &[
    Kind {
        name: "a WAV file that holds IEC 61937 bursts of E-AC-3",
        is_sure: true,
        fits: |first| is_wav(first) && LOW.holds_eac3(first),
        command: Some(COPY_LOW_EAC3),
    },
    Kind {
        name: "a WAV file that holds IEC 61937 bursts",
        is_sure: true,
        fits: |first| is_wav(first) && LOW.holds_any(first),
        command: Some(COPY),
    },
    Kind {
        name: "a WAV file",
        is_sure: true,
        fits: is_wav,
        command: Some(COPY),
    },
    Kind {
        name: "an MP4 or QuickTime file",
        is_sure: true,
        fits: |first| has_box(first, FILE_BOXES),
        command: Some(COPY),
    },
    Kind {
        name: "a segment of an MP4 file, which needs its initialization segment INIT",
        is_sure: true,
        fits: |first| has_box(first, SEGMENT_BOXES),
        command: Some(COPY_SEGMENT),
    },
    Kind {
        name: "a Matroska or WebM file",
        is_sure: true,
        fits: |first| first.starts_with(&[0x1A, 0x45, 0xDF, 0xA3]),
        command: Some(COPY),
    },
    Kind {
        name: "an AVI file",
        is_sure: true,
        fits: |first| first.starts_with(b"RIFF") && first.get(8..12) == Some(b"AVI "),
        command: Some(COPY),
    },
    Kind {
        name: "an MPEG program stream",
        is_sure: true,
        fits: |first| first.starts_with(&[0, 0, 1, 0xBA]),
        command: Some(COPY),
    },
    Kind {
        name: "an MXF file",
        is_sure: true,
        fits: |first| first.starts_with(&[0x06, 0x0E, 0x2B, 0x34, 2, 5, 1, 1, 0x0D, 1, 2]),
        command: Some(COPY_SAMPLES),
    },
    Kind {
        name: "an MPEG transport stream",
        is_sure: true,
        fits: |first| [188, 192, 204].iter().any(|size| has_packets(first, *size)),
        command: Some(COPY),
    },
    Kind {
        name: "a capture of IEC 61937 bursts of E-AC-3, low byte first",
        is_sure: true,
        fits: |first| LOW.holds_eac3(first),
        command: Some(COPY_LOW_EAC3),
    },
    Kind {
        name: "a capture of IEC 61937 bursts of E-AC-3, high byte first",
        is_sure: true,
        fits: |first| HIGH.holds_eac3(first),
        command: Some(COPY_HIGH_EAC3),
    },
    Kind {
        name: "a capture of IEC 61937 bursts, low byte first",
        is_sure: true,
        fits: |first| LOW.holds_any(first),
        command: Some(COPY_LOW),
    },
    Kind {
        name: "a capture of IEC 61937 bursts, high byte first",
        is_sure: true,
        fits: |first| HIGH.holds_any(first),
        command: Some(COPY_HIGH),
    },
    Kind {
        name: "byte-swapped AC-3 or E-AC-3",
        is_sure: false,
        fits: is_swapped,
        command: Some(SWAP),
    },
    Kind {
        name: "MPEG audio (MP2 or MP3)",
        is_sure: false,
        fits: |first| is_mpeg_audio(after_id3(first)),
        command: None,
    },
    Kind {
        name: "a file that begins with an ID3 tag",
        is_sure: false,
        fits: |first| id3(first).is_some(),
        command: None,
    },
];

/// Whether a WAV file begins here, or one of its two forms for long files.
fn is_wav(first: &[u8]) -> bool {
    let names: [&[u8]; 3] = [b"RIFF", b"RF64", b"BW64"];
    names.iter().any(|name| first.starts_with(name)) && first.get(8..12) == Some(b"WAVE")
}

/// What an MP4 or QuickTime file may begin with, and a segment of one.
const FILE_BOXES: &[&[u8; 4]] = &[b"ftyp", b"moov", b"mdat", b"wide", b"free", b"skip"];
const SEGMENT_BOXES: &[&[u8; 4]] = &[b"styp", b"sidx", b"moof"];

/// Whether the first box (ISO 14496-12, 4.2) has one of these names.
fn has_box(first: &[u8], names: &[&[u8; 4]]) -> bool {
    first
        .get(4..8)
        .is_some_and(|found| names.iter().any(|name| found == *name))
}

/// Whether packets of a transport stream stand here, the first of them perhaps cut. Where AC-3 has frames of the
/// same length, a byte of theirs may look like the packets' sync byte.
fn has_packets(first: &[u8], size: usize) -> bool {
    repeats(first, size, |packet| packet.first() == Some(&0x47))
        && !repeats(first, size, begins_frame)
}

/// Whether `holds` is true of four places that are `size` bytes apart, the first of them among the first `size`
/// bytes. Three are enough where the bytes end before the fourth.
fn repeats(first: &[u8], size: usize, holds: fn(&[u8]) -> bool) -> bool {
    (0..size).any(|start| {
        let mut packets = first.get(start..).unwrap_or_default().chunks(size).take(4);
        packets.len() > 2 && packets.all(holds)
    })
}

fn begins_frame(bytes: &[u8]) -> bool {
    core::probe(bytes.get(..core::HEADER).unwrap_or(bytes)).is_ok()
}

/// How bursts stand in a file (IEC 61937-1): their two sync words, and which byte says what they hold.
struct Bursts {
    sync: [u8; 4],
    held: usize,
}

const LOW: Bursts = Bursts {
    sync: [0x72, 0xF8, 0x1F, 0x4E],
    held: 4,
};
const HIGH: Bursts = Bursts {
    sync: [0xF8, 0x72, 0x4E, 0x1F],
    held: 5,
};

impl Bursts {
    /// Whether a burst begins at one of these words. A capture may begin inside a burst, or with zeros.
    fn holds_any(&self, first: &[u8]) -> bool {
        first.windows(4).step_by(2).any(|words| words == self.sync)
    }

    /// Whether a burst of E-AC-3 does, which has 21 in five bits (IEC 61937-2).
    fn holds_eac3(&self, first: &[u8]) -> bool {
        let mut words = first.windows(6).step_by(2);
        words.any(|words| {
            words.starts_with(&self.sync)
                && words.get(self.held).is_some_and(|held| held & 31 == 21)
        })
    }
}

/// Whether a header of AC-3 begins here, with the two bytes of each word swapped.
fn is_swapped(first: &[u8]) -> bool {
    let Some(header) = first.first_chunk::<{ core::HEADER }>() else {
        return false;
    };
    let mut header = *header;
    header.chunks_exact_mut(2).for_each(<[u8]>::reverse);
    begins_frame(&header)
}

/// The length of the ID3 tag that begins here, if one does: ten bytes and what its last four say, seven bits each.
fn id3(first: &[u8]) -> Option<usize> {
    let header = first.strip_prefix(b"ID3")?.get(..7)?;
    let length = header.get(3..)?;
    if header.starts_with(&[0xFF]) || length.iter().any(|byte| *byte > 127) {
        return None;
    }
    let seven_more = |sum: usize, byte: &u8| sum << 7 | usize::from(*byte);
    Some(10 + length.iter().fold(0, seven_more))
}

fn after_id3(first: &[u8]) -> &[u8] {
    first.get(id3(first).unwrap_or(0)..).unwrap_or_default()
}

/// Whether a frame of MPEG audio begins here, and another after it if the bytes reach so far.
fn is_mpeg_audio(bytes: &[u8]) -> bool {
    mpeg_frame(bytes).is_some_and(|length| {
        let next = bytes.get(length..).unwrap_or_default();
        next.len() < 4 || mpeg_frame(next).is_some()
    })
}

/// The length of the frame of layer II or III that begins with these bytes, if one does (ISO 11172-3, 2.4.1.3;
/// ISO 13818-3, 2.4.1.3). Version 0 is in no standard: encoders write it for the lowest sample rates.
fn mpeg_frame(bytes: &[u8]) -> Option<usize> {
    let [0xFF, kind @ 0xE0..=0xFF, rates, _, ..] = *bytes else {
        return None;
    };
    let (version, layer) = (kind >> 3 & 3, kind >> 1 & 3);
    let (kilobits, samples) = match (version, layer) {
        (3, 2) => (&LAYER_2, 1152),
        (3, 1) => (&LAYER_3, 1152),
        (0 | 2, 2) => (&LOW_RATES, 1152),
        (0 | 2, 1) => (&LOW_RATES, 576),
        _ => return None,
    };
    let kilobits = kilobits.get(usize::from(rates >> 4).checked_sub(1)?)?;
    let hertz = [44_100, 48_000, 32_000].get(usize::from(rates >> 2 & 3))?;
    let hertz = match version {
        3 => *hertz,
        2 => hertz / 2,
        _ => hertz / 4,
    };
    Some(samples / 8 * kilobits * 1000 / hertz + usize::from(rates >> 1 & 1))
}

/// The bit rates in kbit/s, from code 1 on.
const LAYER_2: [usize; 14] = [
    32, 48, 56, 64, 80, 96, 112, 128, 160, 192, 224, 256, 320, 384,
];
const LAYER_3: [usize; 14] = [
    32, 40, 48, 56, 64, 80, 96, 112, 128, 160, 192, 224, 256, 320,
];
const LOW_RATES: [usize; 14] = [8, 16, 24, 32, 40, 48, 56, 64, 80, 96, 112, 128, 144, 160];

#[cfg(test)]
mod tests {
    use super::*;

    macro_rules! file {
        ($name:literal) => {
            include_bytes!(concat!("../tests/kinds/", $name))
        };
    }
    macro_rules! sample {
        ($name:literal) => {
            include_bytes!(concat!("../../../samples/", $name))
        };
    }

    const WAV: &str = "a WAV file";
    const WAV_BURSTS: &str = "a WAV file that holds IEC 61937 bursts";
    const WAV_EAC3: &str = "a WAV file that holds IEC 61937 bursts of E-AC-3";
    const MP4: &str = "an MP4 or QuickTime file";
    const SEGMENT: &str = "a segment of an MP4 file, which needs its initialization segment INIT";
    const MATROSKA: &str = "a Matroska or WebM file";
    const PROGRAM: &str = "an MPEG program stream";
    const MXF: &str = "an MXF file";
    const TRANSPORT: &str = "an MPEG transport stream";
    const EAC3_LOW: &str = "a capture of IEC 61937 bursts of E-AC-3, low byte first";
    const EAC3_HIGH: &str = "a capture of IEC 61937 bursts of E-AC-3, high byte first";
    const BURSTS_LOW: &str = "a capture of IEC 61937 bursts, low byte first";
    const BURSTS_HIGH: &str = "a capture of IEC 61937 bursts, high byte first";
    const SWAPPED: &str = "byte-swapped AC-3 or E-AC-3";
    const MPEG_AUDIO: &str = "MPEG audio (MP2 or MP3)";
    const ID3: &str = "a file that begins with an ID3 tag";

    const SURE: &[(&[u8], &str)] = &[
        (file!("wav_pcm"), WAV),
        (file!("wav_ac3"), WAV),
        (file!("wav_bursts"), WAV_BURSTS),
        (file!("rf64_bursts"), WAV_BURSTS),
        (file!("bw64_bursts"), WAV_BURSTS),
        (file!("wav_bursts_eac3"), WAV_EAC3),
        (file!("mp4"), MP4),
        (file!("mov"), MP4),
        (file!("segment_0"), SEGMENT),
        (file!("matroska"), MATROSKA),
        (file!("webm"), MATROSKA),
        (file!("avi"), "an AVI file"),
        (file!("ps_mpeg1"), PROGRAM),
        (file!("ps_mpeg2"), PROGRAM),
        (file!("mxf"), MXF),
        (file!("ts_188"), TRANSPORT),
        (file!("ts_188_inside"), TRANSPORT),
        (file!("ts_192"), TRANSPORT),
        (file!("ts_192_inside"), TRANSPORT),
        (file!("ts_204"), TRANSPORT),
        (file!("ts_eac3"), TRANSPORT),
        (file!("bursts_low"), BURSTS_LOW),
        (file!("bursts_inside"), BURSTS_LOW),
        (file!("bursts_high"), BURSTS_HIGH),
        (file!("bursts_zeros"), BURSTS_HIGH),
        (file!("bursts_eac3_low"), EAC3_LOW),
        (file!("bursts_eac3_high"), EAC3_HIGH),
    ];
    const WEAK: &[(&[u8], &str)] = &[
        (file!("swapped_ac3"), SWAPPED),
        (file!("swapped_eac3"), SWAPPED),
        (file!("mp3"), MPEG_AUDIO),
        (file!("mp3_id3"), MPEG_AUDIO),
        (file!("mp2"), MPEG_AUDIO),
        (file!("id3"), ID3),
    ];
    const SAMPLES: &[&[u8]] = &[
        sample!("a_51_48_448k.ac3"),
        sample!("a_mono_48_64k.ac3"),
        sample!("a_st_44_192k.ac3"),
        sample!("e_51_48_384k.eac3"),
        sample!("e_mono_48.eac3"),
        sample!("e_st_44.eac3"),
    ];
    /// The emulated core is slow.
    const STEP: usize = if zelamodurk::EMULATED { 97 } else { 1 };

    fn name(first: &[u8]) -> Option<&'static str> {
        of(first).map(|kind| kind.name)
    }

    fn is_sure(first: &[u8]) -> bool {
        of(first).is_some_and(|kind| kind.is_sure)
    }

    fn advice(first: &[u8], file: &str) -> Option<String> {
        of(first).and_then(|kind| kind.advice(file))
    }

    /// Bytes that look like nothing, the same each time.
    fn noise(seed: u32) -> Vec<u8> {
        let mut state = seed;
        let mut next = || {
            state = state.wrapping_mul(1_664_525).wrapping_add(1_013_904_223);
            state.to_be_bytes()[0]
        };
        (0..LOOK).map(|_| next()).collect()
    }

    #[test]
    fn real_files_are_named() {
        for (first, expected) in SURE.iter().chain(WEAK) {
            assert_eq!(name(first), Some(*expected));
        }
        assert!(SURE.iter().all(|(first, _)| is_sure(first)));
        assert!(!WEAK.iter().any(|(first, _)| is_sure(first)));
    }

    #[test]
    fn each_kind_has_a_real_file() {
        for kind in KINDS {
            let mut names = SURE.iter().chain(WEAK).map(|(_, name)| *name);
            assert!(names.any(|name| name == kind.name), "{}", kind.name);
        }
    }

    #[test]
    fn ac3_that_begins_anywhere_is_no_sure_kind() {
        for sample in SAMPLES {
            for start in (1..600).step_by(STEP) {
                assert!(!is_sure(&sample[start..]), "{start}");
            }
        }
    }

    #[test]
    fn frames_as_long_as_a_packet_are_no_packets() {
        // bsid 8 and bsmod 7 make the sync byte of a packet.
        let mut frame = [0; 192];
        frame[..core::HEADER].copy_from_slice(&[0x0B, 0x77, 0, 0, 2, 0x47]);
        let frames = frame.repeat(20);
        for start in 1..frame.len() {
            assert_eq!(name(&frames[start..]), None, "{start}");
        }
    }

    #[test]
    fn four_packets_are_asked_for_and_three_of_a_short_file() {
        let mut first = file!("ts_188").to_vec();
        assert_eq!(name(&first[..3 * 188]), Some(TRANSPORT));
        assert_eq!(name(&first[..2 * 188]), None);
        first[4 * 188] = 0;
        assert_eq!(name(&first), Some(TRANSPORT));
        first[3 * 188] = 0;
        assert_eq!(name(&first), None);
    }

    #[test]
    fn bursts_begin_with_whole_words() {
        for first in [
            file!("bursts_low"),
            file!("bursts_eac3_low"),
            file!("bursts_eac3_high"),
        ] {
            let bytes = [&[0], &first[..]].concat();
            assert_eq!(name(&bytes), None);
        }
    }

    #[test]
    fn five_bits_say_what_a_burst_holds() {
        let mut first = file!("bursts_eac3_low").to_vec();
        first[4] |= 0xE0;
        assert_eq!(name(&first), Some(EAC3_LOW));
        first[4] ^= 1;
        assert_eq!(name(&first), Some(BURSTS_LOW));
    }

    #[test]
    fn a_form_of_another_name_is_no_wav_file() {
        let mut first = file!("wav_pcm").to_vec();
        first[8..12].copy_from_slice(b"CDDA");
        assert_eq!(name(&first), None);
    }

    #[test]
    fn the_length_of_an_id3_tag_has_seven_bits_a_byte() {
        assert_eq!(id3(b"ID3\x04\0\0\x01\x02\x03\x04"), Some(0x20_81_84 + 10));
        assert_eq!(
            id3(b"ID3\x04\0\0\x7F\x7F\x7F\x7F"),
            Some(0x0F_FF_FF_FF + 10)
        );
        assert_eq!(id3(b"ID3\x04\0\0\0\0\x80\0"), None);
        assert_eq!(id3(b"ID3\xFF\0\0\0\0\0\0"), None);
        assert_eq!(id3(b"ID3\x04\0\0\0\0\0"), None);
    }

    #[test]
    fn noise_and_text_are_nothing() {
        for seed in 0..500 {
            assert_eq!(name(&noise(seed)), None, "{seed}");
        }
        assert_eq!(name(&[0; LOOK]), None);
        assert_eq!(name(&[0xFF; LOOK]), None);
        assert_eq!(
            name("GGG RIFF ID, and no more\n".repeat(99).as_bytes()),
            None
        );
    }

    #[test]
    fn any_number_of_bytes_gets_an_answer() {
        let noise = noise(1);
        let files = SURE.iter().chain(WEAK).map(|(first, _)| *first);
        for first in files.chain([noise.as_slice()]) {
            for count in (0..=first.len()).step_by(STEP) {
                let named = name(&first[..count]);
                assert!(named.is_none() || count > 3);
            }
        }
    }

    #[test]
    fn bytes_past_the_look_count_for_nothing() {
        let mut bytes = vec![0; LOOK];
        bytes.extend(file!("bursts_low"));
        assert_eq!(name(&bytes), None);
        assert_eq!(name(&bytes[2..]), None);
        assert_eq!(name(&bytes[4..]), Some(BURSTS_LOW));
    }

    #[test]
    fn mpeg_audio_has_a_second_frame_where_the_bytes_reach() {
        let first = file!("mp2");
        let length = mpeg_frame(first).unwrap();
        assert_eq!(name(&first[..length]), Some(MPEG_AUDIO));
        let mut other = first.to_vec();
        other[length] = 0;
        assert_eq!(name(&other), None);
        assert_eq!(name(&other[..length + 3]), Some(MPEG_AUDIO));
    }

    #[test]
    fn the_length_of_mpeg_audio_is_that_of_its_standard() {
        assert_eq!(mpeg_frame(&[0xFF, 0xFB, 0x90, 0]), Some(417));
        assert_eq!(mpeg_frame(&[0xFF, 0xFB, 0x92, 0]), Some(418));
        assert_eq!(mpeg_frame(&[0xFF, 0xFD, 0xA4, 0]), Some(576));
        assert_eq!(mpeg_frame(&[0xFF, 0xF3, 0x84, 0]), Some(192));
        assert_eq!(mpeg_frame(&[0xFF, 0xE3, 0x18, 0]), Some(72));
        let refused = [0xFF, 0xF9, 0xEB].map(|kind| mpeg_frame(&[0xFF, kind, 0x90, 0]));
        assert_eq!(refused, [None; 3]);
        let refused = [0x00, 0xF0, 0x9C].map(|rates| mpeg_frame(&[0xFF, 0xFB, rates, 0]));
        assert_eq!(refused, [None; 3]);
    }

    #[test]
    fn advice_names_the_file() {
        let copy = |file: &str| {
            Some(format!(
                "ffmpeg -i {file} -map 0:a:0 -c copy -f data OUT.ac3"
            ))
        };
        let first = file!("ts_188");
        assert_eq!(advice(first, "a.ts"), copy("a.ts"));
        assert_eq!(advice(first, "'a b.ts'"), copy("'a b.ts'"));
        assert_eq!(advice(first, "'10:30 a.ts'"), copy("./'10:30 a.ts'"));
        assert_eq!(advice(first, "/a/10:30.ts"), copy("/a/10:30.ts"));
        assert_eq!(advice(first, "-"), copy("FILE"));
        let swap = "dd conv=swab if=a.ac3 of=OUT.ac3";
        assert_eq!(advice(file!("swapped_ac3"), "a.ac3").as_deref(), Some(swap));
        assert_eq!(advice(file!("mp3"), "a.mp3"), None);
    }

    #[test]
    fn each_command_has_one_place_for_the_file() {
        for command in KINDS.iter().filter_map(|kind| kind.command) {
            assert_eq!(command.matches("FILE").count(), 1, "{command}");
        }
    }
}
