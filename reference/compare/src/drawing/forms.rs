//! The forms in which a number may be written, right and wrong.

use reference::Random;

/// What a number of a text is.
#[derive(Clone, Copy, Debug, PartialEq, Eq)]
pub enum Role {
    Size,
    Index,
    /// A weight, a bound or a price.
    Signed,
}

impl Role {
    pub const ALL: [Role; 3] = [Role::Size, Role::Index, Role::Signed];

    /// The role in words.
    pub fn words(self) -> &'static str {
        match self {
            Role::Size => "sizes",
            Role::Index => "indices",
            Role::Signed => "signed numbers",
        }
    }
}

/// A form of a number.
#[derive(Clone, Copy, Debug, PartialEq, Eq)]
pub enum Form {
    /// The one way that is taken.
    Plain,
    /// Leading zeros, nine digits at most.
    Zeros,
    /// Leading zeros, ten digits or more.
    TooManyZeros,
    /// Ten digits, the first not 0.
    TenDigits,
    Plus,
    PlusZeros,
    /// A - before the number without its sign.
    Minus,
    MinusZeros,
    /// A - and one or more zeros.
    MinusZero,
    PlusZero,
    SignAlone,
    TwoSigns,
    SignAfter,
    /// Another byte in or beside the digits.
    OtherByte,
    /// Nothing.
    LeftOut,
}

impl Form {
    pub const ALL: [Form; 15] = [
        Form::Plain,
        Form::Zeros,
        Form::TooManyZeros,
        Form::TenDigits,
        Form::Plus,
        Form::PlusZeros,
        Form::Minus,
        Form::MinusZeros,
        Form::MinusZero,
        Form::PlusZero,
        Form::SignAlone,
        Form::TwoSigns,
        Form::SignAfter,
        Form::OtherByte,
        Form::LeftOut,
    ];

    /// The form in words.
    pub fn words(self) -> &'static str {
        match self {
            Form::Plain => "plain",
            Form::Zeros => "leading zeros",
            Form::TooManyZeros => "zeros beyond nine digits",
            Form::TenDigits => "ten digits",
            Form::Plus => "+",
            Form::PlusZeros => "+ and leading zeros",
            Form::Minus => "-",
            Form::MinusZeros => "- and leading zeros",
            Form::MinusZero => "-0",
            Form::PlusZero => "+0",
            Form::SignAlone => "a sign alone",
            Form::TwoSigns => "two signs",
            Form::SignAfter => "a sign after",
            Form::OtherByte => "another byte",
            Form::LeftOut => "left out",
        }
    }

    /// A number in this form; some forms have a value of their own.
    pub fn write(self, random: &mut Random, value: i64) -> String {
        let digits = value.unsigned_abs().to_string();
        let sign = if value < 0 { "-" } else { "" };
        let room = 9u64.saturating_sub(digits.len() as u64).max(1);
        let zeros = "0".repeat(1 + random.below(room) as usize);
        match self {
            Form::Plain => format!("{sign}{digits}"),
            Form::Zeros => format!("{sign}{zeros}{digits}"),
            Form::TooManyZeros => {
                let length = random.pick(&[10, 10, 11, 40]);
                format!("{sign}{digits:0>length$}")
            }
            Form::TenDigits => {
                let number = random.pick(&[1_000_000_000, 4_294_967_297, 9_999_999_999_u64]);
                format!("{sign}{number}")
            }
            Form::Plus => format!("+{digits}"),
            Form::PlusZeros => format!("+{zeros}{digits}"),
            Form::Minus => format!("-{digits}"),
            Form::MinusZeros => format!("-{zeros}{digits}"),
            Form::MinusZero => random
                .pick(&["-0", "-0", "-00", "-000", "-000000000"])
                .into(),
            Form::PlusZero => random.pick(&["+0", "+0", "+00", "+000000000"]).into(),
            Form::SignAlone => random.pick(&["-", "+"]).into(),
            Form::TwoSigns => format!("{}{digits}", random.pick(&["--", "+-", "-+", "++"])),
            Form::SignAfter => format!("{digits}{}", random.pick(&["-", "+"])),
            Form::OtherByte => match random.below(3) {
                0 => format!(
                    "{digits}{}",
                    random.pick(&["e2", ".0", ",", "x", "\0", "\r"])
                ),
                1 => format!("{}{digits}", random.pick(&["x", "0x", ".", "/", ":"])),
                _ => random.pick(&["1e2", "1_0", "٣", "²", "nan"]).into(),
            },
            Form::LeftOut => String::new(),
        }
    }

    /// A form in which the old rules take a number, by its value and its role.
    pub fn old(random: &mut Random, value: i64, role: Role) -> Form {
        let forms: &[Form] = match (role, value) {
            (Role::Size | Role::Index, _) => &[Form::Zeros],
            (Role::Signed, 0) => &[Form::Zeros, Form::PlusZero, Form::MinusZero],
            (Role::Signed, 1..) => &[Form::Zeros, Form::Plus, Form::PlusZeros],
            (Role::Signed, _) => &[Form::Zeros],
        };
        random.pick(forms)
    }
}
