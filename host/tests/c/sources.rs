//! The structs and functions that a text declares, in one form, whether the text is the header, Rust or Rattle. The form is Rust's.

use std::collections::BTreeMap;

/// The fields of each struct, or the types of each function, by name.
pub type Declared = BTreeMap<String, Vec<String>>;

/// The header without its comments and its lines for the preprocessor. A star is a word of its own.
fn header_words(header: &str) -> String {
    let mut kept = String::new();
    for part in header.split("/*") {
        kept.push_str(part.split_once("*/").map_or(part, |(_, after)| after));
    }
    kept.lines().filter(|line| !line.starts_with('#')).collect::<Vec<_>>().join("\n").replace('*', " * ")
}

/// `degvuurel_entry_place` is `Entry`: the header adds a word where a function has the struct's name.
fn struct_name(word: &str) -> String {
    let plain = word.trim_start_matches("degvuurel_").trim_end_matches("_shown").trim_end_matches("_place");
    plain.split('_').map(|part| part[..1].to_uppercase() + &part[1..]).collect()
}

/// A type of C. The name that follows it is passed over.
fn type_in_c(text: &str) -> String {
    let words: Vec<&str> = text.split_whitespace().collect();
    match words[..] {
        ["const", "uint8_t", "*", ..] => "*const u8".to_string(),
        ["uint8_t", "*", ..] => "*mut u8".to_string(),
        ["size_t", "*", ..] => "*mut usize".to_string(),
        ["struct", name, ..] => struct_name(name),
        ["size_t", ..] => "usize".to_string(),
        _ => words.first().map_or(String::new(), |plain| plain.trim_end_matches("_t").replace("uint", "u")),
    }
}

/// `struct degvuurel_track tracks[4]` is `tracks: [Track; 4]`.
fn field_in_c(field: &str) -> String {
    let name = field.split_whitespace().last().unwrap_or("");
    match name.trim_end_matches(']').split_once('[') {
        Some((name, length)) => format!("{name}: [{}; {length}]", type_in_c(field)),
        None => format!("{name}: {}", type_in_c(field)),
    }
}

/// The structs of the header. A tuple's one field is called `number`, or has its struct's name.
pub fn structs_in_c(header: &str) -> Declared {
    let words = header_words(header);
    let declared = |part: &str| {
        let (name, rest) = part.split_once(" {\n")?;
        let (body, _) = rest.split_once("\n}")?;
        let fields = body.split(';').filter(|field| !field.trim().is_empty()).map(field_in_c);
        let of_its_name = format!("{}: ", name.trim_start_matches("degvuurel_"));
        Some((struct_name(name), fields.map(|field| field.replacen(&of_its_name, "number: ", 1)).collect()))
    };
    words.split("\nstruct ").skip(1).filter_map(declared).collect()
}

/// The functions of the header: the types that each takes, and the one that it returns.
pub fn functions_in_c(header: &str) -> Declared {
    let words = header_words(header);
    let declared = |statement: &str| {
        let (start, parameters) = statement.split_once('(')?;
        let name = start.split_whitespace().last().filter(|name| name.starts_with("degvuurel_"))?;
        let taken = parameters.trim_end_matches(')').split(',').map(type_in_c).filter(|kind| kind != "void");
        Some((name.to_string(), taken.chain([type_in_c(start)]).collect()))
    };
    words.split(';').filter_map(declared).collect()
}

/// Rust and Rattle have the same comments, and attributes that say nothing of a layout, which are left out.
fn source_words(source: &str) -> String {
    let words = source.lines().filter(|line| !line.starts_with("#[derive("));
    words.map(|line| line.split("//").next().unwrap_or("")).collect::<Vec<_>>().join("\n")
}

/// The type behind a name: of an array, or of a number in a transparent struct.
fn without_alias(words: &str, kind: &str) -> String {
    let alias = words.split_once(&format!("pub type {kind} = "));
    let array = alias.and_then(|(_, rest)| rest.split_once(";\n")).map_or(kind, |(array, _)| array);
    let named = words.split("#[repr(transparent)]\npub struct ").skip(1).filter_map(|part| part.split_once(");"));
    named.filter_map(|(declared, _)| declared.split_once('(')).fold(array.to_string(), |kind, (name, number)| {
        let number = number.split_whitespace().last().unwrap_or(number);
        let whole = |part: &str| if part == name { number.to_string() } else { part.to_string() };
        match kind.strip_prefix('[').and_then(|array| array.split_once("; ")) {
            Some((element, length)) => format!("[{}; {length}", whole(element)),
            None => whole(&kind),
        }
    })
}

/// The structs of a source that have C's layout. The one field of a tuple is called `number`.
pub fn structs_in_source(source: &str) -> Declared {
    let words = source_words(source);
    let field = |field: &str| {
        let (name, kind) = field.trim().trim_start_matches("pub ").split_once(": ")?;
        Some(format!("{name}: {}", without_alias(&words, kind)))
    };
    let declared = |part: &str| {
        let (name, rest) = part.split_once([' ', '('])?;
        let fields = match rest.strip_prefix('{') {
            Some(body) => body.split('}').next()?.split(',').filter_map(field).collect(),
            None => vec![format!("number: {}", rest.split(");").next()?.split_whitespace().last()?)],
        };
        Some((name.to_string(), fields))
    };
    words.split("#[repr(C)]\npub struct ").skip(1).filter_map(declared).collect()
}

/// A parameter as the archive has it: a slice is a pointer and a length, and an array of a known length a pointer alone.
fn type_in_source(parameter: &str) -> Vec<String> {
    let kind = parameter.split_once(": ").map_or("", |(_, kind)| kind);
    let words: &[&str] = match kind {
        "&[u8]" => &["*const u8", "usize"],
        "&mut [u8]" => &["*mut u8", "usize"],
        "&mut SheetText" | "*mut SheetText" | "&mut RegisterBytes" | "*mut RegisterBytes" => &["*mut u8"],
        "&mut RowLines" | "*mut RowLines" => &["*mut usize"],
        plain => &[plain],
    };
    words.iter().map(ToString::to_string).collect()
}

/// The exported functions of a source, as [`functions_in_c`] has them.
pub fn functions_in_source(source: &str) -> Declared {
    let words = source_words(source);
    let declared = |part: &str| {
        let (name, rest) = part.split_once('(')?;
        let (parameters, rest) = rest.split_once(") -> ")?;
        let taken = parameters.split(',').flat_map(|parameter| type_in_source(parameter.trim()));
        let taken = taken.filter(|kind| !kind.is_empty());
        Some((format!("degvuurel_{name}"), taken.chain([rest.split([';', '\n']).next()?.to_string()]).collect()))
    };
    words.split("fn degvuurel_").skip(1).filter_map(declared).collect()
}

/// The numbers that a source gives names to: `pub const HEADER: usize = 16;`, and the cases of an enum, `NoSuchKind = 1,`, which
/// elsewhere are called `NO_SUCH_KIND`.
pub fn constants_in_source(source: &str) -> BTreeMap<String, String> {
    let constant = |line: &str| {
        let (name, rest) = line.strip_prefix("pub const ")?.split_once(": ")?;
        Some((name.to_string(), rest.split_once(" = ")?.1.trim_end_matches(';').to_string()))
    };
    let case = |line: &str| {
        let (name, number) = line.strip_prefix("    ")?.strip_suffix(',')?.split_once(" = ")?;
        let plain = name.chars().all(char::is_alphanumeric) && number.chars().all(|digit| digit.is_ascii_digit());
        plain.then(|| (in_capitals(name), number.to_string()))
    };
    source.lines().filter_map(|line| constant(line).or_else(|| case(line))).collect()
}

/// The name of an enum's case as constants are written: `NO_SUCH_KIND` of `NoSuchKind`.
fn in_capitals(name: &str) -> String {
    let parted = name.chars().enumerate().flat_map(|(place, letter)| {
        let gap = (place > 0 && letter.is_uppercase()).then_some('_');
        gap.into_iter().chain(letter.to_uppercase())
    });
    parted.collect()
}
