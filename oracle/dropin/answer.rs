//! What either side answers.

#[derive(Clone, Debug, PartialEq)]
pub enum Value {
    Whole(i64),
    /// The bits of an f32.
    Bits(u32),
    Flag(bool),
    Bytes(Vec<u8>),
    /// A variant's name, or a whole record as `{:?}` shows it.
    Text(String),
}

#[derive(Clone, Debug, PartialEq)]
pub enum Answer {
    Values(Vec<Value>),
    /// With the error's name.
    Refused(String),
    Panicked,
}

impl Value {
    /// Makes it another one.
    fn spoil(&mut self, bit: usize) {
        match self {
            Self::Whole(number) => *number ^= 1 << (bit % 8),
            Self::Bits(bits) => *bits ^= 1 << (bit % 32),
            Self::Flag(flag) => *flag = !*flag,
            Self::Bytes(bytes) if bytes.is_empty() => bytes.push(0),
            Self::Bytes(bytes) => {
                let place = bit % bytes.len();
                bytes[place] ^= 1 << (bit % 8);
            }
            Self::Text(text) => text.push('~'),
        }
    }
}

impl Answer {
    pub fn refused(name: &str) -> Self {
        Self::Refused(name.to_string())
    }

    /// Changes one value: a comparison that then finds nothing compares nothing.
    pub fn spoil(&mut self, bit: usize) {
        match self {
            Self::Values(values) if values.is_empty() => values.push(Value::Whole(0)),
            Self::Values(values) => {
                let count = values.len();
                values[bit % count].spoil(bit / count);
            }
            Self::Refused(name) => name.push('~'),
            Self::Panicked => *self = Self::Values(Vec::new()),
        }
    }
}
