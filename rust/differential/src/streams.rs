//! The streams beside the project, or the samples where those are not there, and the frames of each.

use std::fs;
use std::path::{Path, PathBuf};
use zelamodurk::frame::{self, Codec};

const STREAMS: &str = concat!(env!("CARGO_MANIFEST_DIR"), "/../../../shared/streams");
const SAMPLES: &str = concat!(env!("CARGO_MANIFEST_DIR"), "/../../samples");

/// The folder that the streams are in.
fn folder() -> &'static Path {
    let streams = Path::new(STREAMS);
    if streams.is_dir() {
        streams
    } else {
        Path::new(SAMPLES)
    }
}

/// The codec of a file that is a stream, by its name.
fn codec_of(file: &Path) -> Option<Codec> {
    match file.extension()?.to_str()? {
        "ac3" => Some(Codec::Ac3),
        "eac3" => Some(Codec::Eac3),
        _ => None,
    }
}

/// The first frame of a stream, as long as its header says, and what stands behind it; none where it is not
/// whole, or of another codec.
fn first(stream: &[u8], codec: Codec) -> Option<(&[u8], &[u8])> {
    let header = frame::probe(stream).ok()?;
    let cut = stream.split_at_checked(header.bytes);
    cut.filter(|_| header.codec == codec)
}

/// The frames of a file that is a stream.
///
/// # Errors
/// Where it can't be read, its name is not that of a stream, or it is not of whole frames of its codec.
pub fn cut(file: &Path) -> Result<Vec<Vec<u8>>, String> {
    let said = |why: &str| format!("{}: {why}", file.display());
    let codec = codec_of(file).ok_or_else(|| said("not a stream by its name"))?;
    let stream = fs::read(file).map_err(|e| said(&e.to_string()))?;
    let (mut frames, mut rest) = (Vec::new(), &stream[..]);
    while !rest.is_empty() {
        let cut = first(rest, codec).ok_or_else(|| said("not of whole frames"))?;
        frames.push(cut.0.to_vec());
        rest = cut.1;
    }
    Ok(frames)
}

/// The streams of a codec, in the order of their names.
///
/// # Errors
/// Where the folder can't be read.
pub fn files(codec: Codec) -> Result<Vec<PathBuf>, String> {
    let folder = folder();
    let files = fs::read_dir(folder).map_err(|e| format!("{}: {e}", folder.display()))?;
    let mut files: Vec<PathBuf> = files.flatten().map(|file| file.path()).collect();
    files.retain(|file| codec_of(file) == Some(codec));
    files.sort();
    Ok(files)
}

/// Every frame of the streams of a codec, in the order of their names.
///
/// # Errors
/// Where the folder or a stream can't be read, or a stream can't be cut.
pub fn frames(codec: Codec) -> Result<Vec<Vec<u8>>, String> {
    let cut: Result<Vec<_>, String> = files(codec)?.iter().map(|file| cut(file)).collect();
    Ok(cut?.concat())
}
