//! The value that a trial line spells.

/// A value with the annotations of its `ann`. No `ann` and an empty one are the same.
#[derive(Clone, Debug, PartialEq, Eq)]
pub struct Annotated {
    pub annotations: Vec<Symbol>,
    pub value: Value,
}

#[derive(Clone, Debug, PartialEq, Eq)]
pub enum Value {
    Null(Type),
    Bool(bool),
    I64(i64),
    Int(Signed),
    F32(u32),
    F64(u64),
    Decimal { coefficient: Signed, exponent: i64 },
    Timestamp(Timestamp),
    Symbol(Symbol),
    String(Vec<u8>),
    Clob(Vec<u8>),
    Blob(Vec<u8>),
    List(Vec<Annotated>),
    Sexp(Vec<Annotated>),
    Struct(Vec<(Symbol, Annotated)>),
}

/// A sign and a big-endian magnitude without leading zero bytes. Zero has no bytes and may be
/// negative.
#[derive(Clone, Debug, PartialEq, Eq)]
pub struct Signed {
    pub negative: bool,
    pub magnitude: Vec<u8>,
}

impl Signed {
    pub fn is_zero(&self) -> bool {
        self.magnitude.is_empty()
    }
}

#[derive(Clone, Copy, Debug, PartialEq, Eq)]
pub enum Symbol {
    Sid(u64),
    /// Quoted text. Its letters have no part in any answer.
    Text,
}

/// Local fields as the line has them: year, then as many of month, day, hour, minute and second
/// as the precision asks, so 1, 2, 3, 5 or 6.
#[derive(Clone, Debug, PartialEq, Eq)]
pub struct Timestamp {
    pub offset: Option<i32>,
    pub fields: Vec<i32>,
    pub fraction: Option<Fraction>,
}

#[derive(Clone, Copy, Debug, PartialEq, Eq)]
pub struct Fraction {
    pub digits: i32,
    pub coefficient: u64,
}

#[derive(Clone, Copy, Debug, PartialEq, Eq)]
pub enum Type {
    Null,
    Bool,
    Int,
    Float,
    Decimal,
    Timestamp,
    Symbol,
    String,
    Clob,
    Blob,
    List,
    Sexp,
    Struct,
}

impl Type {
    pub const ALL: [Type; 13] = [
        Type::Null,
        Type::Bool,
        Type::Int,
        Type::Float,
        Type::Decimal,
        Type::Timestamp,
        Type::Symbol,
        Type::String,
        Type::Clob,
        Type::Blob,
        Type::List,
        Type::Sexp,
        Type::Struct,
    ];

    pub fn name(self) -> &'static str {
        match self {
            Type::Null => "null",
            Type::Bool => "bool",
            Type::Int => "int",
            Type::Float => "float",
            Type::Decimal => "decimal",
            Type::Timestamp => "timestamp",
            Type::Symbol => "symbol",
            Type::String => "string",
            Type::Clob => "clob",
            Type::Blob => "blob",
            Type::List => "list",
            Type::Sexp => "sexp",
            Type::Struct => "struct",
        }
    }
}
