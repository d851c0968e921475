//! tablet.h and ffi.rs have the signatures of the exported functions (crates/tablet_c): the same functions, and of each the same
//! parameters by name, type and place. The functions over ffi's C declarations hand on what the parameters are called for.

use std::collections::{BTreeMap, BTreeSet};
use std::fs;

/// Parameters by name and type, a slice as pointer and length, and the type of the result. Types are Rust's.
type Signature = (Vec<(String, String)>, String);
type Signatures = BTreeMap<String, Signature>;

fn read(path: &str) -> String {
    let path = format!("{}/{path}", env!("CARGO_MANIFEST_DIR"));
    fs::read_to_string(&path).unwrap_or_else(|e| panic!("{path}: {e}"))
}

/// Without comments, and with single blanks.
fn plain(text: &str) -> String {
    let mut code = String::new();
    let mut rest = text;
    while let Some(at) = rest.find("/*") {
        code += &rest[..at];
        rest = &rest[at + rest[at..].find("*/").expect("a comment ends") + 2..];
    }
    code += rest;
    let lines = code.lines().map(|l| l.split("//").next().unwrap());
    lines.flat_map(str::split_whitespace).collect::<Vec<_>>().join(" ")
}

/// What stands between the bracket that opens at `at` and the one that closes it, and the place behind that.
fn bracketed(text: &str, at: usize) -> (&str, usize) {
    let mut depth = 0;
    for (i, c) in text[at..].char_indices() {
        match c {
            '(' | '{' | '[' => depth += 1,
            ')' | '}' | ']' => depth -= 1,
            _ => {}
        }
        if depth == 0 {
            return (&text[at + 1..at + i], at + i + 1);
        }
    }
    panic!("a bracket closes: {}", &text[at..]);
}

/// Parts between commas that stand outside brackets.
fn listed(text: &str) -> Vec<String> {
    let mut parts = vec![String::new()];
    let mut depth = 0;
    for c in text.chars() {
        match c {
            '(' | '[' | '{' => depth += 1,
            ')' | ']' | '}' => depth -= 1,
            _ => {}
        }
        match c {
            ',' if depth == 0 => parts.push(String::new()),
            _ => parts.last_mut().unwrap().push(c),
        }
    }
    parts.iter().map(|p| p.trim().to_string()).filter(|p| !p.is_empty()).collect()
}

fn named(parameter: &str) -> (String, String) {
    let (name, kind) = parameter.split_once(':').unwrap_or_else(|| panic!("name: type, not {parameter}"));
    (name.trim().to_string(), kind.trim().to_string())
}

fn word(text: &str) -> &str {
    text.split(|c: char| c != '_' && !c.is_ascii_alphanumeric()).next().unwrap()
}

fn add(to: &mut Signatures, name: &str, signature: Signature) {
    assert!(to.insert(name.to_string(), signature).is_none(), "{name} stands twice");
}

/// `#[unsafe(no_mangle)] pub extern "C" fn name(parameter: type, ..) -> type` of Rattle's text. In a contract `result` is what the
/// function gives, so a parameter that is `result` elsewhere is `res` there.
fn of_rattle(text: &str) -> Signatures {
    let text = plain(text);
    let mut all = Signatures::new();
    for (at, start) in text.match_indices("#[unsafe(no_mangle)] pub extern \"C\" fn ") {
        let from = at + start.len();
        let name = word(&text[from..]);
        let (inside, end) = bracketed(&text, from + name.len());
        let mut parameters = vec![];
        for p in listed(inside) {
            let (name, kind) = named(&p);
            let name = if name == "res" { "result".to_string() } else { name };
            let slice = |open: &str| kind.strip_prefix(open).map(|k| k.trim_end_matches(']').to_string());
            let pointer = slice("&mut [").map(|k| format!("*mut {k}")).or(slice("&[").map(|k| format!("*const {k}")));
            match pointer {
                Some(pointer) => parameters.extend([(name.clone(), pointer), (format!("{name}_len"), "usize".into())]),
                None => parameters.push((name, kind)),
            }
        }
        let result = word(text[end..].trim_start_matches(" -> ")).to_string();
        add(&mut all, name, (parameters, result));
    }
    assert_eq!(all.len(), text.matches("extern \"C\"").count(), "each exported function is read");
    all
}

fn of_c_type(kind: &str) -> String {
    let scalar = |k: &str| match k {
        "uint8_t" => "u8".to_string(),
        "uint32_t" => "u32".to_string(),
        "uint64_t" => "u64".to_string(),
        "size_t" => "usize".to_string(),
        "float" => "f32".to_string(),
        "double" => "f64".to_string(),
        other => panic!("a type of C: {other}"),
    };
    match kind.strip_suffix('*') {
        None => scalar(kind),
        Some(to) => match to.trim().strip_prefix("const ") {
            Some(to) => format!("*const {}", scalar(to)),
            None => format!("*mut {}", scalar(to.trim())),
        },
    }
}

/// `type name(type parameter, ..);` of the header, up to the struct for all slices: what comes after it is C over these.
fn of_header(text: &str) -> Signatures {
    let text = text.split("\nstruct tablet_areas {").next().unwrap();
    let text: Vec<&str> = text.lines().filter(|l| !l.starts_with('#')).collect();
    let text = plain(&text.join("\n"));
    let mut all = Signatures::new();
    for (at, _) in text.match_indices(" tablet_") {
        let name = word(&text[at + 1..]);
        let open = at + 1 + name.len();
        assert!(text[open..].starts_with('('), "{name} is a function");
        let (inside, end) = bracketed(&text, open);
        assert!(text[end..].starts_with(';'), "{name} is declared");
        let parameter = |p: &String| {
            let cut = p.rfind([' ', '*']).expect("type and name") + 1;
            (p[cut..].to_string(), of_c_type(p[..cut].trim()))
        };
        let result = text[..at].rsplit([' ', ';', '{', '}']).next().unwrap();
        add(&mut all, name, (listed(inside).iter().map(parameter).collect(), of_c_type(result)));
    }
    all
}

/// The declarations of ffi's `extern "C"` blocks; those that share their first parameters come from the macro `looks`.
fn of_ffi(text: &str) -> Signatures {
    let text = plain(text);
    let mut all = Signatures::new();
    let mut declare = |name: &str, parameters: &str, result: &str| {
        add(&mut all, name, (listed(parameters).iter().map(|p| named(p)).collect(), result.to_string()));
    };
    let shared = text.find("$(pub fn $name(").expect("the macro looks");
    let (shared, after) = bracketed(&text, shared + "$(pub fn $name".len());
    let result = word(text[after..].trim_start_matches(" -> "));
    let (first, extra) = shared.split_once("$(").expect("its repetition");
    assert_eq!(extra.trim(), "$extra: $t),*");
    let (looks, _) = bracketed(&text, text.find("looks! {").expect("its use") + "looks! ".len());
    for function in looks.split(';').map(str::trim).filter(|f| !f.is_empty()) {
        let name = word(function);
        let (own, _) = bracketed(function, name.len());
        declare(name, &format!("{first}{own}"), result);
    }
    for (at, start) in text.match_indices("pub fn tablet_") {
        let from = at + start.len() - "tablet_".len();
        let name = word(&text[from..]);
        let (inside, end) = bracketed(&text, from + name.len());
        declare(name, inside, word(text[end..].trim_start_matches(" -> ")));
    }
    all
}

/// What ffi's safe functions hand to each declared one, by the names of the parameters that it stands for.
fn handed(text: &str) -> BTreeMap<String, Vec<String>> {
    let text = plain(text);
    let mut all = BTreeMap::new();
    for (at, start) in text.match_indices("c::tablet_") {
        let from = at + start.len() - "tablet_".len();
        let name = word(&text[from..]);
        let (inside, _) = bracketed(&text, from + name.len());
        let argument = |a: &String| {
            let (of, what) = match (a.strip_suffix(".len()"), a.strip_suffix(".as_ptr()").or(a.strip_suffix(".as_mut_ptr()"))) {
                (Some(slice), _) => (slice, "_len"),
                (_, Some(slice)) => (slice, ""),
                _ => (a.as_str(), ""),
            };
            // a field of the frame or of the areas is what it is called
            format!("{}{what}", of.rsplit('.').next().unwrap())
        };
        assert!(all.insert(name.to_string(), listed(inside).iter().map(argument).collect()).is_none(), "{name} is called twice");
    }
    all
}

/// What is not as the exported functions have it.
fn differences(rattle: &str, header: &str, ffi: &str) -> Vec<String> {
    let exported = of_rattle(rattle);
    let mut found = vec![];
    for (file, others) in [("tablet.h", of_header(header)), ("ffi.rs", of_ffi(ffi))] {
        for name in exported.keys().chain(others.keys()).collect::<BTreeSet<_>>() {
            if exported.get(name) != others.get(name) {
                found.push(format!("{name}: {:?}, and in {file} {:?}", exported.get(name), others.get(name)));
            }
        }
    }
    let calls = handed(ffi);
    for name in exported.keys().chain(calls.keys()).collect::<BTreeSet<_>>() {
        let wanted = exported.get(name).map(|(parameters, _)| parameters.iter().map(|p| p.0.clone()).collect());
        if wanted.as_ref() != calls.get(name) {
            found.push(format!("{name}: {wanted:?}, and ffi.rs hands on {:?}", calls.get(name)));
        }
    }
    found
}

struct Files {
    rattle: String,
    header: String,
    ffi: String,
}

fn files() -> Files {
    let folder = "../../crates/tablet_c/src";
    let there = fs::read_dir(format!("{}/{folder}", env!("CARGO_MANIFEST_DIR"))).unwrap();
    let rattle = there.map(|f| read(&format!("{folder}/{}", f.unwrap().file_name().to_str().unwrap()))).collect();
    Files { rattle, header: read("../include/tablet.h"), ffi: read("src/ffi.rs") }
}

#[test]
fn header_and_ffi_have_the_exported_signatures() {
    let f = files();
    assert!(!of_rattle(&f.rattle).is_empty());
    assert_eq!(differences(&f.rattle, &f.header, &f.ffi), Vec::<String>::new());
}

/// Each constant of ffi has its number in an enum of the header, and the one that no enum can hold in a macro.
#[test]
fn constants_are_the_headers() {
    let f = files();
    let (header, ffi) = (plain(&f.header), plain(&f.ffi));
    let constants: Vec<_> = ffi.split("pub const ").skip(1).map(|c| c.split_once(';').expect("a constant ends").0).collect();
    assert!(["BEYOND: ", "NO_PATCH: "].iter().all(|name| constants.iter().any(|c| c.starts_with(name))), "{constants:?}");
    for constant in constants {
        // the four places have a name each there
        let name = word(constant).replace("PLACES", "PLACE_TL");
        match constant.rsplit(' ').next().unwrap() {
            "u64::MAX" => assert!(f.header.lines().any(|l| l == format!("#define TABLET_{name} UINT64_MAX")), "{name}"),
            number => {
                let entry = format!("TABLET_{name} = {number}");
                assert!(header.split([',', '{', '}']).any(|e| e.trim() == entry), "{entry}");
            }
        }
    }
}

/// `text` with the first `old` after `place` made `new`.
fn edited(text: &str, place: &str, old: &str, new: &str) -> String {
    let at = text.find(place).unwrap_or_else(|| panic!("no {place}"));
    let at = at + text[at..].find(old).unwrap_or_else(|| panic!("no {old} after {place}"));
    format!("{}{new}{}", &text[..at], &text[at + old.len()..])
}

#[test]
fn an_exchange_in_any_of_the_three_is_seen() {
    let f = files();
    let seen = |rattle: &str, header: &str, ffi: &str| !differences(rattle, header, ffi).is_empty();
    for (place, old, new) in [
        ("fn tablet_rectify(", "w: usize,\n    h: usize", "h: usize,\n    w: usize"),
        ("fn tablet_fit_geometry(", "cell: usize,\n    margin: usize", "margin: usize,\n    cell: usize"),
        ("fn tablet_from_points(", "source: &[f64], target: &[f64]", "target: &[f64], source: &[f64]"),
        ("fn tablet_rms_error(", "fn tablet_rms_error", "fn tablet_error"),
        ("fn tablet_apply(", "matrix: &[f64]", "matrix: &mut [f64]"),
        ("fn tablet_luma(", "r: u8, g: u8", "g: u8, r: u8"),
        ("fn tablet_checkerboard(", "w: usize, h: usize", "h: usize, w: usize"),
        ("fn tablet_candidate_page(", "page: &mut [u8]", "page: &[u8]"),
        ("fn tablet_patch_windows(", "n: usize,\n    windows: &[u64],\n    k: usize", "k: usize,\n    windows: &[u64],\n    n: usize"),
        ("fn tablet_read_book(", "heads: &mut [u32]", "heads: &mut [u64]"),
        ("fn tablet_merge_books(", "first: &[u8], second: &[u8]", "second: &[u8], first: &[u8]"),
        ("fn tablet_warp_record(", "counts: &mut [u64]", "counts: &mut [u32]"),
    ] {
        assert!(seen(&edited(&f.rattle, place, old, new), &f.header, &f.ffi), "{place} of the library");
    }
    for (place, old, new) in [
        ("tablet_rectify(", "size_t w, size_t h", "size_t h, size_t w"),
        ("tablet_undistort(", "double x, double y", "double y, double x"),
        ("tablet_lengths(", "uint64_t *lengths", "uint32_t *lengths"),
        ("uint32_t tablet_rms_error(", "tablet_rms_error", "tablet_error"),
        ("float tablet_luma(", "float", "double"),
        ("tablet_checkerboard(", "size_t w, size_t h", "size_t h, size_t w"),
        ("tablet_candidate_page(", "size_t candidates_len, size_t count", "size_t count, size_t candidates_len"),
        ("tablet_patch_windows(", "const uint64_t *windows", "uint64_t *windows"),
        ("tablet_write_book(", "const uint32_t *heads", "uint32_t *heads"),
        ("tablet_merge_books(", "size_t second_len", "size_t first_len"),
        ("tablet_warp_with(", "uint64_t *counts", "const uint64_t *counts"),
    ] {
        assert!(seen(&f.rattle, &edited(&f.header, place, old, new), &f.ffi), "{place} of the header");
    }
    for (place, old, new) in [
        ("$(pub fn $name(", "w: usize, h: usize", "h: usize, w: usize"),
        ("tablet_fit_geometry(means", "counts: *mut u64", "counts: *mut u32"),
        ("pub fn tablet_mat3_mul(", "a: *const f64, a_len", "b: *const f64, a_len"),
        ("c::tablet_grid(", "f.width, f.height", "f.height, f.width"),
        ("c::tablet_luma(", "r, g, b", "b, g, r"),
        ("c::tablet_warp_with(", "canonical.as_mut_ptr(), canonical.len()", "canonical.as_mut_ptr(), fit.len()"),
        ("c::tablet_warp_record(", "counts.as_mut_ptr(), counts.len()", "counts.as_mut_ptr(), numbers.len()"),
        ("c::tablet_checkerboard(", "w, h", "h, w"),
        ("c::tablet_candidate_page(", "candidates.len(), count", "count, candidates.len()"),
        ("c::tablet_patch_windows(", "windows.len(), k", "windows.len(), n"),
        ("c::tablet_write_book(", "numbers.len(), count", "count, numbers.len()"),
        ("c::tablet_merge_books(", "first.as_ptr(), first.len(), second.as_ptr()", "second.as_ptr(), first.len(), first.as_ptr()"),
    ] {
        assert!(seen(&f.rattle, &f.header, &edited(&f.ffi, place, old, new)), "{place} of ffi");
    }
}
