//! Board facts in the platform data (FD1 to FD7): fields of one byte of tag, two of length and the value, up to an end mark. Tag 3 is
//! withdrawn (FD8): it keeps its rules, but is shown without its value, and no description may hold it.

/// Bytes of a field before its value, and of the end mark.
pub const HEAD: usize = 3;

/// A field; its value is a part of the lent bytes.
#[derive(Clone, Copy, Debug, PartialEq, Eq)]
pub struct Field<'a> {
    pub tag: u8,
    pub value: &'a [u8],
}

/// The tag of the console choice.
const WITHDRAWN: u8 = 3;

/// A field as it is shown: the withdrawn one without its value.
#[derive(Clone, Copy, Debug, PartialEq, Eq)]
pub enum Shown<'a> {
    Raw(Field<'a>),
    Withdrawn,
}

impl<'a> Field<'a> {
    /// The field as it is shown.
    pub fn shown(self) -> Shown<'a> {
        match self.tag {
            WITHDRAWN => Shown::Withdrawn,
            _ => Shown::Raw(self),
        }
    }
}

impl Shown<'_> {
    /// The tag of a shown field.
    pub fn tag(&self) -> u8 {
        match self {
            Shown::Raw(field) => field.tag,
            Shown::Withdrawn => WITHDRAWN,
        }
    }
}

/// The first field of the bytes, and what follows it; `None` if the field is cut short.
#[inline]
pub fn split_field(bytes: &[u8]) -> Option<(Field<'_>, &[u8])> {
    let head = bytes.get(..HEAD)?;
    let end = HEAD + usize::from(u16::from_le_bytes([head[1], head[2]]));
    let value = bytes.get(HEAD..end)?;
    let tag = head[0];
    Some((Field { tag, value }, &bytes[end..]))
}

/// Which of the tags 1 to 3 were met.
#[derive(Default)]
struct Met([bool; 4]);

impl Met {
    /// Whether a field may follow those met: the lengths of tags 1 to 3, and that each of them appears at most once.
    #[inline]
    fn allow(&mut self, field: Field) -> bool {
        let lengths = match field.tag {
            1 => 1..=32,
            2 => 8..=8,
            WITHDRAWN => 1..=1,
            _ => return true,
        };
        let met = std::mem::replace(&mut self.0[usize::from(field.tag)], true);
        lengths.contains(&field.value.len()) && !met
    }
}

/// How many bytes the fields take through their end mark, if they keep the rules and the mark is there.
pub fn fields_end(bytes: &[u8]) -> Option<usize> {
    let mut met = Met::default();
    let mut rest = bytes;
    loop {
        let (field, behind) = split_field(rest)?;
        rest = behind;
        if field.tag == 0 {
            return field.value.is_empty().then_some(bytes.len() - rest.len());
        }
        if !met.allow(field) {
            return None;
        }
    }
}

/// The fields in their order, as they are shown; none if they are broken.
pub fn fields_of(bytes: &[u8]) -> Vec<Shown<'_>> {
    let mut fields = Vec::new();
    let mut rest = &bytes[..fields_end(bytes).unwrap_or(0)];
    while let Some((field, behind)) = split_field(rest) {
        if field.tag != 0 {
            fields.push(field.shown());
        }
        rest = behind;
    }
    fields
}

/// Whether a description may be written: whole fields that keep the rules, none of tag 0 and none that is withdrawn.
pub fn description_ok(bytes: &[u8]) -> bool {
    let mut met = Met::default();
    let mut rest = bytes;
    while !rest.is_empty() {
        match split_field(rest) {
            Some((
                Field {
                    tag: 0 | WITHDRAWN, ..
                },
                _,
            ))
            | None => return false,
            Some((field, behind)) if met.allow(field) => rest = behind,
            Some(_) => return false,
        }
    }
    true
}
