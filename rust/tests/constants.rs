//! One number, one value: the macros of include/*.h, the constants and image types of the proved code (crates/*/src/lib.rt) and those of
//! the reference (rust/src) agree. Reads the files as text, so a number that is changed in one place alone fails here. Every constant of
//! the proved code has a row in `TABLE`.

use std::collections::BTreeMap;
use std::fs;
use std::path::{Path, PathBuf};

/// A number: its macros without PBEAM_, as an expression; its names in the proved code, `crate NAME`; its names in the reference,
/// `file NAME`. The number of an image type is the number of its words.
#[rustfmt::skip]
const TABLE: &[(&str, &[&str], &[&str])] = &[
    // Memory
    ("PAGE_BYTES", &["words PAGE_SIZE", "words PAGE_LEN"], &["reference/layout PAGE"]),
    ("GRANULE_BYTES", &["words PAGE_SIZE"], &["reference/layout GRANULE"]),
    ("ADDRESS_LIMIT", &["words ADDRESS_LIMIT"], &["reference/banks MEMORY_END", "inplace MEMORY_END", "random/banks END"]),
    ("BASE_MOST", &["words BASE_MOST"], &["reference/layout LAST_BASE"]),
    ("GRANULE_NON_SECURE", &[], &["reference/granules NON_SECURE", "inplace NON_SECURE"]),
    ("GRANULE_REALM", &[], &["reference/granules REALM", "inplace REALM"]),
    // Manifest
    ("INTERFACE_MINOR", &[], &["reference/boot INTERFACE_MINOR"]),
    ("CORE_BYTES_1", &["versions CORE_1"], &[]),
    ("CORE_BYTES_2", &["versions CORE_2"], &[]),
    ("CORE_BYTES_3", &["versions CORE_3"], &[]),
    ("CORE_BYTES_4", &["versions CORE_4"], &[]),
    ("CORE_VERSION", &["sections CORE_VERSION"], &[]),
    ("CORE_PADDING", &["sections CORE_PADDING"], &[]),
    ("CORE_PLAT_DATA", &["sections CORE_PLAT_DATA"], &[]),
    ("CORE_DRAM + SECTION_COUNT", &["sections CORE_COUNT"], &[]),
    ("CORE_DRAM + SECTION_POINTER", &["sections CORE_POINTER"], &[]),
    ("CORE_DRAM + SECTION_CHECKSUM", &["sections CORE_CHECKSUM"], &[]),
    ("SECTION_BYTES", &["sections SECTION_BYTES"], &[]),
    ("SECTIONS", &[], &["reference/layout SECTIONS"]),
    ("CONSOLE", &[], &["reference/layout CONSOLE"]),
    ("BANK_BYTES", &["entries BANK_BYTES", "entries BANK_LEN"], &[]),
    ("BANK_WORDS", &["entries BANK_WORDS"], &[]),
    ("CONSOLE_BYTES", &["entries CONSOLE_BYTES", "entries CONSOLE_LEN"], &[]),
    ("CONSOLE_WORDS", &["entries CONSOLE_WORDS"], &[]),
    ("CONSOLE_NAME * 8", &["lookup CONSOLE_NAME_AT"], &[]),
    ("FIELD_VALUE", &["fields FIELD_HEAD"], &["reference/fields HEAD"]),
    ("FIELD_END_BYTES", &["fields FIELD_HEAD"], &["reference/fields HEAD"]),
    ("TAG_END", &["fields TAG_END"], &[]),
    ("TAG_NAME", &["fields TAG_NAME"], &[]),
    ("TAG_SERIAL", &["fields TAG_SERIAL"], &[]),
    ("TAG_CONSOLE", &["fields TAG_CONSOLE"], &["reference/fields WITHDRAWN"]),
    ("NAME_LEAST", &["fields NAME_LEAST"], &[]),
    ("NAME_MOST", &["fields NAME_MOST"], &[]),
    ("SERIAL_BYTES", &["fields SERIAL_BYTES"], &[]),
    ("CHOICE_BYTES", &["fields CHOICE_BYTES"], &[]),
    ("MEND_WORDS", &[], &["reference/mend PARTS"]),
    // Images
    ("STATE_WORDS", &[], &["exports RecordImage"]),
    ("SESSION_WORDS", &[], &["exports SessionImage"]),
    ("VIEW_WORDS", &[], &["exports ViewImage"]),
    ("FIELD_WORDS", &[], &["exports FieldImage"]),
    ("PLACE_WORDS", &[], &["exports Place"]),
    ("OUT_WORDS", &[], &["exports Registers"]),
    ("WORK_WORDS", &[], &["exports Work"]),
    ("WORK_FORWARD", &["potterbeam WORK_FORWARD"], &[]),
    ("GRANULES_WORDS", &["banks GRANULES_WORDS", "banks GranulesImage"], &["exports GranulesImage"]),
    ("GRANULES_BANKS_MOST", &["banks BANKS_MOST", "banks BANK_PLACES"], &["reference/banks BANKS", "inplace BANKS"]),
    ("REALM_WORD_GRANULES", &["realm_words WORD_GRANULES"], &[]),
    // Queue
    ("QUEUE_WORDS", &["queue_image QUEUE_WORDS", "queue_image QueueImage"], &["exports QueueImage"]),
    ("QUEUE_REQUESTS", &["queue_image REQUESTS"], &[]),
    ("QUEUE_RESPONSES", &["queue_image RESPONSES"], &[]),
    ("QUEUE_FIRST_REQUEST", &["queue_image FIRST_REQUEST"], &["images REQUESTS", "inplace REQUESTS"]),
    ("QUEUE_FIRST_RESPONSE", &["queue_image FIRST_RESPONSE"], &["images RESPONSES", "inplace RESPONSES"]),
    ("REQUESTS_MOST", &["queue PLACES", "queue_image PLACES_WORD"], &["reference/queue PLACES"]),
    ("RESPONSES_MOST", &["queue PLACES", "queue_image PLACES_WORD"], &["reference/queue PLACES"]),
    ("REQUEST_WORDS", &["queue_image REQUEST_WORDS", "queue_image RequestImage"], &["images REQUEST", "inplace REQUEST"]),
    ("REQUEST_WORDS", &[], &["exports RequestImage"]),
    ("REQUEST_WORD_HASH", &["queue_image HASH_AT"], &[]),
    ("HASH_WORDS", &["queue_image HASH_WORDS"], &[]),
    ("RESPONSE_WORDS", &["queue_image RESPONSE_WORDS"], &["images RESPONSE", "inplace RESPONSE"]),
    ("RESPONSE_WORD_SIGNATURE", &["queue_image SIGNATURE_AT"], &["inplace HEAD"]),
    ("SIGNATURE_WORDS", &["queue_image SIGNATURE_WORDS"], &[]),
    // Signing
    ("OPCODE_PUSH", &[], &["reference/signing PUSH"]),
    ("OPCODE_PULL", &[], &["reference/signing PULL"]),
    ("OPCODE_KEY", &[], &["reference/signing KEY"]),
    ("REQUEST_BYTES", &["requests REQUEST_BYTES"], &["reference/signing REQUEST", "inplace REQUEST_BYTES"]),
    ("REQUEST_ALGORITHM", &["requests REQUEST_ALGORITHM"], &[]),
    ("REQUEST_GRANULE", &["requests REQUEST_GRANULE"], &[]),
    ("REQUEST_TICKET", &["requests REQUEST_TICKET"], &[]),
    ("REQUEST_HASH_ID", &["requests REQUEST_HASH_ID"], &[]),
    ("REQUEST_HASH", &["requests REQUEST_HASH"], &[]),
    ("HASH_BYTES", &["queue HASH_BYTES"], &[]),
    ("ALGORITHM_SECP384R1", &["requests ALGORITHM_SECP384R1"], &["reference/signing ALGORITHM"]),
    ("HASH_SHA2_384", &["requests HASH_SHA2_384"], &["reference/signing HASH_ID"]),
    ("RESPONSE_GRANULE", &["responses RESPONSE_GRANULE"], &[]),
    ("RESPONSE_TICKET", &["responses RESPONSE_TICKET"], &[]),
    ("RESPONSE_LENGTH", &["responses RESPONSE_LENGTH"], &[]),
    ("RESPONSE_SIGNATURE", &["responses RESPONSE_SIGNATURE"], &["reference/signing RESPONSE_HEAD", "inplace HEAD_BYTES"]),
    ("SIGNATURE_BYTES_MOST", &["queue SIGNATURE_BYTES", "queue_image SIGNATURE_WORD"], &["reference/queue SIGNATURE"]),
    // Commands
    ("ID_FORWARD", &[], &["reference/runtime REQ_COMPLETE"]),
    ("ID_DELEGATE", &[], &["reference/runtime DELEGATE"]),
    ("ID_UNDELEGATE", &[], &["reference/runtime UNDELEGATE"]),
    ("ID_REALM_KEY", &[], &["reference/runtime REALM_KEY"]),
    ("ID_PLATFORM_TOKEN", &[], &["reference/runtime PLAT_TOKEN"]),
    ("ID_FEATURES", &[], &["reference/runtime FEATURES"]),
    ("ID_TOKEN_SIGNING", &[], &["reference/runtime TOKEN_SIGN"]),
    ("ID_KEY_UPDATE", &[], &["reference/runtime KEY_UPDATE"]),
    ("SIGNING_MINOR", &["features SIGNING_MINOR"], &[]),
    ("KEY_UPDATE_MINOR", &["features KEY_UPDATE_MINOR"], &[]),
    ("FEATURES_INDEX", &["features FEATURES_INDEX"], &[]),
    ("FEATURE_TOKEN_SIGNING", &["features FEATURE_TOKEN_SIGNING"], &["reference/features TOKEN_SIGN"]),
    ("MECID_MOST", &["features MECID_MOST"], &[]),
    ("WIDTH_MOST", &["features WIDTH_MOST"], &["reference/features WIDEST"]),
    ("CHALLENGE_NONE", &["token CHALLENGE_NONE"], &[]),
    ("CHALLENGE_SHA256", &["token CHALLENGE_SHA256"], &[]),
    ("CHALLENGE_SHA384", &["token CHALLENGE_SHA384"], &[]),
    ("CHALLENGE_SHA512", &["token CHALLENGE_SHA512"], &[]),
    ("X0_OK", &[], &["inplace OK"]),
    ("X0_UNK", &[], &["inplace UNK"]),
    ("X0_BAD_ADDR", &[], &["inplace BAD_ADDR"]),
    ("X0_BAD_PAS", &[], &["inplace BAD_PAS"]),
    ("X0_INVAL", &[], &["inplace INVAL"]),
    ("X0_AGAIN", &[], &["inplace AGAIN"]),
    // TPM
    ("TPM_IN_SIZE_MOST", &["tpm IN_SIZE_MOST"], &["reference/tpm TRANSFER"]),
    ("TPM_OUT_SIZE_LEAST", &["tpm OUT_SIZE_LEAST"], &["reference/tpm TRANSFER"]),
    ("TPM_EXECUTE", &[], &["reference/tpm EXECUTE"]),
    ("TPM_CLOSE", &[], &["reference/tpm CLOSE"]),
    ("SWTPM_HEAD_BYTES", &[], &["reference/state_blob HEAD"]),
];

/// The text of each number, by `file NAME`.
type Texts = BTreeMap<String, String>;

fn root() -> PathBuf {
    Path::new(env!("CARGO_MANIFEST_DIR")).join("..")
}

/// Name and text of a number that this line of Rust or Rattle defines: a constant, or the length of an array type. A struct is no number,
/// and a constant of an impl that is another constant's name has the row of that one.
fn defined(line: &str) -> Option<(&str, &str)> {
    let inside = line.starts_with(' ');
    let line = line.trim_start();
    let line = line
        .strip_prefix("pub(super) ")
        .or_else(|| line.strip_prefix("pub "))
        .unwrap_or(line);
    let line = line.split(';').collect::<Vec<_>>();
    if let Some(rest) = line[0].strip_prefix("const ") {
        let (name, rest) = rest.split_once(':')?;
        let text = rest.split_once('=')?.1;
        let named = text.trim().chars().all(|c| c.is_ascii_uppercase() || c == '_');
        return (!text.contains('{') && !(inside && named)).then_some((name, text));
    }
    let (name, _) = line[0].strip_prefix("type ")?.split_once(" = [")?;
    Some((name, line.get(1)?.strip_suffix(']')?))
}

/// Adds the numbers that a file defines, each with this name before its own.
fn add(texts: &mut Texts, file: &str, path: &Path) {
    for line in fs::read_to_string(path).unwrap().lines() {
        if let Some((name, text)) = defined(line) {
            texts.insert(format!("{file} {name}"), text.to_string());
        }
    }
}

fn proved() -> Texts {
    let mut texts = Texts::new();
    for folder in fs::read_dir(root().join("crates")).unwrap() {
        let folder = folder.unwrap();
        let path = folder.path().join("src/lib.rt");
        if path.exists() {
            add(&mut texts, folder.file_name().to_str().unwrap(), &path);
        }
    }
    texts
}

fn reference() -> Texts {
    let mut texts = Texts::new();
    for part in ["", "reference/", "random/"] {
        for file in fs::read_dir(root().join("rust/src").join(part)).unwrap() {
            let path = file.unwrap().path();
            if path.extension().map_or(false, |kind| kind == "rs") {
                let name = path.file_stem().unwrap().to_str().unwrap();
                add(&mut texts, &format!("{part}{name}"), &path);
            }
        }
    }
    texts
}

/// The macros of all headers, without PBEAM_; their file is `h`.
fn header() -> Texts {
    let mut texts = Texts::new();
    for file in fs::read_dir(root().join("include")).unwrap() {
        for line in fs::read_to_string(file.unwrap().path()).unwrap().lines() {
            let line = line.split("/*").next().unwrap();
            if let Some((name, text)) = line
                .strip_prefix("#define PBEAM_")
                .and_then(|rest| rest.split_once(' '))
            {
                let text = text.replace("UINT64_C", "").replace("INT64_C", "");
                texts.insert(format!("h {name}"), text);
            }
        }
    }
    texts
}

/// The number that a text gives in a file: numbers, names of the same file (or `PLACES` and `PAGE` of the reference), `+ - * <<`,
/// parentheses. Leaves out `as` and the types. Wraps at 64 bits.
struct Reader<'a> {
    texts: &'a Texts,
    file: &'a str,
    rest: Vec<String>,
}

impl Reader<'_> {
    fn next_is(&mut self, word: &str) -> bool {
        let is = self.rest.last().map_or(false, |next| next == word);
        if is {
            self.rest.pop();
        }
        is
    }

    fn one(&mut self) -> u64 {
        let word = self.rest.pop().expect("a number");
        let value = match word.as_str() {
            "(" => {
                let value = self.sum();
                assert!(self.next_is(")"));
                value
            }
            "-" => self.one().wrapping_neg(),
            _ if word.starts_with(|c: char| c.is_ascii_digit()) => number(&word),
            "PLACES" if self.file != "reference/queue" => {
                value(self.texts, "reference/queue PLACES")
            }
            _ => value(self.texts, &format!("{} {word}", self.file)),
        };
        if self.next_is("as") {
            self.rest.pop();
        }
        value
    }

    fn product(&mut self) -> u64 {
        let mut value = self.one();
        while self.next_is("*") {
            value = value.wrapping_mul(self.one());
        }
        value
    }

    fn sum(&mut self) -> u64 {
        let mut value = self.product();
        loop {
            if self.next_is("+") {
                value = value.wrapping_add(self.product());
            } else if self.next_is("-") {
                value = value.wrapping_sub(self.product());
            } else if self.next_is("<<") {
                value <<= self.product();
            } else {
                return value;
            }
        }
    }
}

fn number(word: &str) -> u64 {
    let word = word.replace('_', "");
    let digits = ["i64", "u64", "usize"]
        .iter()
        .find_map(|kind| word.strip_suffix(kind))
        .unwrap_or(&word);
    match digits.strip_prefix("0x") {
        Some(hex) => u64::from_str_radix(hex, 16),
        None => digits.parse(),
    }
    .unwrap_or_else(|_| panic!("{word} is no number"))
}

fn evaluate(texts: &Texts, file: &str, text: &str) -> u64 {
    let mut spaced = text.replace("<<", " << ");
    for sign in ["(", ")", "+", "-", "*"] {
        spaced = spaced.replace(sign, &format!(" {sign} "));
    }
    let rest = spaced.split_whitespace().rev().map(String::from).collect();
    let mut reader = Reader { texts, file, rest };
    let value = reader.sum();
    assert!(reader.rest.is_empty(), "{file}: cannot read {text}");
    value
}

/// The number with this name, `file NAME`.
fn value(texts: &Texts, name: &str) -> u64 {
    let text = texts
        .get(name)
        .unwrap_or_else(|| panic!("no constant {name}"));
    evaluate(texts, name.split(' ').next().unwrap(), text)
}

#[test]
fn header_code_and_reference_agree() {
    let (header, proved, reference) = (header(), proved(), reference());
    let mut differ = Vec::new();
    for (macros, codes, references) in TABLE {
        let wanted = evaluate(&header, "h", macros);
        for (texts, names) in [(&proved, codes), (&reference, references)] {
            for name in *names {
                let found = value(texts, name);
                if found != wanted {
                    differ.push(format!("{name} is {found}, but PBEAM_{macros} is {wanted}"));
                }
            }
        }
    }
    assert!(differ.is_empty(), "{}", differ.join("\n"));
}

#[test]
fn every_constant_of_the_proved_code_is_in_the_table() {
    let missing: Vec<_> = proved()
        .into_keys()
        .filter(|name| {
            !TABLE
                .iter()
                .any(|(_, codes, _)| codes.contains(&name.as_str()))
        })
        .collect();
    assert!(
        missing.is_empty(),
        "not in the table: {}",
        missing.join(", ")
    );
}
