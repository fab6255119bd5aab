//! Every exported function is declared alike in the core's source, in the header and in this crate: its
//! arguments, their names, their types and the lengths of arrays. A call is sound only then.

use std::collections::BTreeMap;

const HEADER: &str = include_str!("../../../include/zelamodurk.h");
const BOUNDARY: [&str; 3] = [
    include_str!("../src/ffi/bytes.rs"),
    include_str!("../src/ffi/elements.rs"),
    include_str!("../src/ffi/slots.rs"),
];
const CORE: [&str; 7] = [
    include_str!("../../../crates/capi_bytes_c/src/lib.rt"),
    include_str!("../../../crates/capi_c/src/lib.rt"),
    include_str!("../../../crates/capi_c/src/block.rt"),
    include_str!("../../../crates/capi_c/src/mantissas.rt"),
    include_str!("../../../crates/capi_c/src/sets.rt"),
    include_str!("../../../crates/capi_c/src/state.rt"),
    include_str!("../../../crates/capi_c/src/tail.rt"),
];

/// The arguments of each function by its name, as `frame: *const u8`; behind the type of an array its length.
type Functions = BTreeMap<String, Vec<String>>;

/// The functions of a text: what stands between `before` and `after` is one's name and arguments, and an argument
/// may stand for two.
fn functions(
    text: &str,
    (before, after): (&str, &str),
    plain: fn(&str) -> Vec<String>,
) -> Functions {
    let words: Vec<&str> = text.split_whitespace().collect();
    let text = words.join(" ");
    let listed = text.split(before).skip(1).filter_map(|rest| {
        let (name, rest) = rest.split_once('(')?;
        let (arguments, _) = rest.split_once(after)?;
        let arguments = arguments.split(',').map(str::trim);
        let arguments = arguments.filter(|argument| !argument.is_empty());
        Some((name.to_string(), arguments.flat_map(plain).collect()))
    });
    listed.collect()
}

/// C's `const uint8_t codes[9]`.
fn of_c(argument: &str) -> Vec<String> {
    let kind = match argument.strip_prefix("const ") {
        Some(_) => "*const ",
        None => "*mut ",
    };
    let bare = argument.trim_start_matches("const ");
    let (c_type, name) = bare.rsplit_once(' ').expect("a type and a name");
    let (name, length) = match name.split_once('[') {
        Some((name, length)) => (name, format!("[{length}")),
        None => (name, String::new()),
    };
    let rust_type = match c_type {
        "size_t" => "usize",
        "struct zela_state" => "State",
        number => &number
            .replace("uint", "u")
            .replace("int", "i")
            .replace("_t", ""),
    };
    let is_pointer = name.starts_with('*') || !length.is_empty();
    let kind = if is_pointer { kind } else { "" };
    let name = name.trim_start_matches('*');
    vec![format!("{name}: {kind}{rust_type}{length}")]
}

/// Rust's `codes: *const u8`.
fn of_rust(argument: &str) -> Vec<String> {
    vec![argument.to_string()]
}

/// The core's `codes: &[u8; 9]`. A slice is handed over as a pointer and a length, a state as its struct.
fn of_core(argument: &str) -> Vec<String> {
    let (name, lent) = argument.split_once(": ").expect("a name and a type");
    let (kind, lent) = match (lent.strip_prefix("&mut "), lent.strip_prefix('&')) {
        (Some(lent), _) => ("*mut ", lent),
        (None, Some(lent)) => ("*const ", lent),
        (None, None) => ("", lent),
    };
    let parts: Vec<&str> = lent
        .split(['[', ']', ';', ' '])
        .filter(|part| !part.is_empty())
        .collect();
    let lengths = parts[1..]
        .iter()
        .map(|part| part.parse::<usize>().expect("a length"));
    let length: usize = lengths.product();
    match (lent.starts_with('['), parts[0]) {
        (true, _) if name == "state" => vec![format!("state: {kind}State")],
        (true, of) if parts.len() > 1 => vec![format!("{name}: {kind}{of}[{length}]")],
        (true, of) => {
            let unit = if name == "log" { "words" } else { "len" };
            vec![
                format!("{name}: {kind}{of}"),
                format!("{name}_{unit}: usize"),
            ]
        }
        (false, of) => vec![format!("{name}: {kind}{of}")],
    }
}

/// Without the lengths of arrays, which a pointer of Rust's does not have.
fn without_lengths(functions: &Functions) -> Functions {
    let bare = |argument: &String| argument.split('[').next().map(str::to_string);
    let functions = functions.iter();
    functions
        .map(|(name, arguments)| (name.clone(), arguments.iter().filter_map(bare).collect()))
        .collect()
}

#[test]
fn the_core_the_header_and_this_crate_declare_the_same() {
    let header = functions(HEADER, (" uint8_t zela_", ");"), of_c);
    let core = functions(
        &CORE.concat(),
        ("pub extern \"C\" fn zela_", ") -> u8"),
        of_core,
    );
    let boundary = functions(&BOUNDARY.concat(), ("fn zela_", ") -> u8;"), of_rust);
    assert_eq!(header.len(), 26);
    assert_eq!(
        header["read_raw"][..2],
        ["frame: *const u8", "frame_len: usize"]
    );
    assert_eq!(header["aht"][4], "hebap: *const u8[256]");
    assert_eq!(core, header);
    assert_eq!(boundary, without_lengths(&header));
}
