//! The declarations of the exported calls, in C and in Rust, and what differs between them.

use std::collections::BTreeMap;

/// A type of a parameter or a result.
#[derive(Clone, Debug, PartialEq, Eq)]
pub enum Type {
    /// A number or a truth value, by its name in Rust.
    Plain(&'static str),
    /// A pointer to numbers, of which it may be said how many there are.
    Pointer {
        written: bool,
        to: &'static str,
        count: Option<usize>,
    },
}

/// A call: its name, the names and types of its parameters, and the type of its result.
#[derive(Clone, Debug, PartialEq, Eq)]
pub struct Call {
    pub name: String,
    pub parameters: Vec<(String, Type)>,
    pub result: Type,
}

/// The types in C, and what they are in Rust.
const TYPES: [(&str, &str); 7] = [
    ("bool", "bool"),
    ("uint8_t", "u8"),
    ("uint32_t", "u32"),
    ("uint64_t", "u64"),
    ("int32_t", "i32"),
    ("int64_t", "i64"),
    ("size_t", "usize"),
];

type Parsed<T> = Result<T, String>;

/// The words and signs of a text.
pub fn tokens(text: &str) -> Vec<&str> {
    let mut tokens = Vec::new();
    let mut rest = text.trim_start();
    while let Some(first) = rest.chars().next() {
        let is_word = |c: char| c.is_ascii_alphanumeric() || c == '_';
        let length = match rest.find(|c| !is_word(c)).unwrap_or(rest.len()) {
            0 if rest.starts_with("->") => 2,
            0 => first.len_utf8(),
            length => length,
        };
        tokens.push(&rest[..length]);
        rest = rest[length..].trim_start();
    }
    tokens
}

/// The name and the parameters, still as text, of what is called so: `NAME(PARAMETERS)`.
fn called(text: &str) -> Parsed<(&str, Vec<&str>)> {
    let inner = text.strip_suffix(')').and_then(|text| text.split_once('('));
    let (name, inner) = inner.ok_or_else(|| format!("no call: {text}"))?;
    let inner = inner.trim().trim_end_matches(',');
    let parameters = inner.split(',').filter(|_| !inner.is_empty());
    Ok((name.trim(), parameters.collect()))
}

fn c_type(word: &str) -> Parsed<&'static str> {
    let found = TYPES.iter().find(|(c, _)| *c == word);
    found
        .map(|(_, rust)| *rust)
        .ok_or(format!("no type: {word}"))
}

fn rust_type(word: &str) -> Parsed<&'static str> {
    let found = TYPES.iter().find(|(_, rust)| *rust == word);
    found
        .map(|(_, rust)| *rust)
        .ok_or(format!("no type: {word}"))
}

fn number(word: &str) -> Parsed<usize> {
    word.parse().map_err(|_| format!("no number: {word}"))
}

fn c_parameter(text: &str) -> Parsed<(String, Type)> {
    let pointer = |written, to, count| -> Parsed<Type> {
        let to = c_type(to)?;
        Ok(Type::Pointer { written, to, count })
    };
    let (name, kind) = match tokens(text)[..] {
        [plain, name] => (name, Type::Plain(c_type(plain)?)),
        [to, "*", name] => (name, pointer(true, to, None)?),
        ["const", to, "*", name] => (name, pointer(false, to, None)?),
        [to, name, "[", count, "]"] => (name, pointer(true, to, Some(number(count)?))?),
        ["const", to, name, "[", count, "]"] => (name, pointer(false, to, Some(number(count)?))?),
        _ => return Err(format!("no parameter: {text}")),
    };
    Ok((name.into(), kind))
}

/// A declaration in C: `TYPE NAME(PARAMETERS)`.
fn c_call(text: &str) -> Parsed<Call> {
    let (head, parameters) = called(text)?;
    let [result, name] = tokens(head)[..] else {
        return Err(format!("no result and name: {head}"));
    };
    let parameters = parameters.into_iter().map(c_parameter);
    Ok(Call {
        name: name.into(),
        parameters: parameters.collect::<Parsed<_>>()?,
        result: Type::Plain(c_type(result)?),
    })
}

fn rust_parameter(text: &str) -> Parsed<(String, Type)> {
    let pointer = |access, to, count| -> Parsed<Type> {
        let written = match access {
            "const" => false,
            "mut" => true,
            _ => return Err(format!("no pointer: {text}")),
        };
        let to = rust_type(to)?;
        Ok(Type::Pointer { written, to, count })
    };
    let (name, kind) = match tokens(text)[..] {
        [name, ":", plain] => (name, Type::Plain(rust_type(plain)?)),
        [name, ":", "*", access, to] => (name, pointer(access, to, None)?),
        [name, ":", "*", access, "[", to, ";", count, "]"] => {
            (name, pointer(access, to, Some(number(count)?))?)
        }
        _ => return Err(format!("no parameter: {text}")),
    };
    Ok((name.into(), kind))
}

/// A declaration in Rust: `fn NAME(PARAMETERS) -> TYPE`.
fn rust_call(text: &str) -> Parsed<Call> {
    let (head, result) = text
        .rsplit_once("->")
        .ok_or_else(|| format!("no result: {text}"))?;
    let (head, parameters) = called(head.trim())?;
    let (["fn", name] | ["pub", "fn", name]) = tokens(head)[..] else {
        return Err(format!("no name: {head}"));
    };
    let parameters = parameters.into_iter().map(rust_parameter);
    Ok(Call {
        name: name.into(),
        parameters: parameters.collect::<Parsed<_>>()?,
        result: Type::Plain(rust_type(result.trim())?),
    })
}

/// A header in C, without comments: what `#define` says of each name, and the rest as it stands for C.
struct Header {
    defined: Vec<(String, String)>,
    rest: String,
}

impl Header {
    fn of(text: &str) -> Parsed<Header> {
        let mut plain = String::new();
        let mut commented = text.replace("\\\n", " ");
        while let Some((before, after)) = commented.split_once("/*") {
            let (_, after) = after.split_once("*/").ok_or("an open comment")?;
            plain += before;
            plain.push(' ');
            commented = after.into();
        }
        plain += &commented;
        let (mut defined, mut rest) = (Vec::new(), String::new());
        let mut for_cpp = false;
        for line in plain.lines().map(str::trim) {
            match line.strip_prefix('#') {
                Some("ifdef __cplusplus") => for_cpp = true,
                Some("endif") => for_cpp = false,
                Some(directive) => {
                    if let Some(definition) = directive.strip_prefix("define ") {
                        let (name, value) = definition.split_once(' ').unwrap_or((definition, ""));
                        defined.push((name.into(), value.trim().into()));
                    }
                }
                None if for_cpp => {}
                None => rest = rest + line + "\n",
            }
        }
        Ok(Header { defined, rest })
    }

    /// What stands there outside of braces, in order: declarations, definitions of types and functions.
    fn items(&self) -> Vec<String> {
        let (mut items, mut item, mut depth) = (Vec::<String>::new(), String::new(), 0);
        for c in self.rest.chars() {
            item.push(c);
            match c {
                '{' => depth += 1,
                '}' => depth -= 1,
                _ => {}
            }
            let is_function = item.trim_start().starts_with("static inline ");
            if depth == 0 && (c == ';' || c == '}' && is_function) {
                items.push(std::mem::take(&mut item).trim().into());
            }
        }
        items.push(item.trim().into());
        items.retain(|item| !item.is_empty());
        items
    }
}

/// The calls that a header declares; everything else in it is an enumeration, a structure or an inline function.
pub fn c_calls(header: &str) -> Parsed<Vec<Call>> {
    let items = Header::of(header)?.items();
    let others = ["enum ", "typedef struct ", "static inline "];
    let calls = items
        .iter()
        .filter(|item| !others.iter().any(|other| item.starts_with(other)));
    calls
        .map(|item| match item.strip_suffix(';') {
            Some(declaration) => c_call(declaration),
            None => Err(format!("no declaration: {item}")),
        })
        .collect()
}

/// The calls that all blocks `extern "C"` of a Rust text declare.
pub fn rust_calls(text: &str) -> Parsed<Vec<Call>> {
    let lines = text.lines().map(|line| line.split("//").next().unwrap());
    let plain: Vec<_> = lines.collect();
    let plain = plain.join("\n");
    let mut calls = Vec::new();
    for block in plain.split("extern \"C\" {").skip(1) {
        let (block, _) = block.split_once('}').ok_or("an open block")?;
        // A semicolon that ends a declaration follows its result; one in an array does not.
        let declarations = block.split_inclusive(';').map(str::to_string);
        let mut open = String::new();
        for part in declarations {
            open += &part;
            if open.matches('[').count() == open.matches(']').count() {
                let declaration = std::mem::take(&mut open);
                match declaration.trim().strip_suffix(';') {
                    Some(declaration) => calls.push(rust_call(declaration)?),
                    None if declaration.trim().is_empty() => {}
                    None => return Err(format!("no declaration: {declaration}")),
                }
            }
        }
    }
    Ok(calls)
}

/// The whole numbers that a Rust text gives names to: `pub const NAME: TYPE = NUMBER;`.
pub fn rust_constants(text: &str) -> Parsed<Vec<(String, i64)>> {
    let lines = text.lines().map(|line| line.split("//").next().unwrap());
    let lines = lines.filter(|line| line.trim_start().starts_with("pub const "));
    lines
        .map(|line| match tokens(line)[..] {
            ["pub", "const", name, ":", kind, "=", value, ";"] => {
                rust_type(kind)?;
                Ok((name.into(), number(&value.replace('_', ""))? as i64))
            }
            _ => Err(format!("no constant: {line}")),
        })
        .collect()
}

/// What differs between the numbers that are named in C, with this prefix, and in Rust, without it.
pub fn constant_differences(
    prefix: &str,
    c: &[(String, i64)],
    rust: &[(String, i64)],
) -> Vec<String> {
    let prefixed = |name: &String| format!("{prefix}{name}");
    let mut told = Vec::new();
    for (name, value) in c {
        let named = rust.iter().filter(|(other, _)| prefixed(other) == *name);
        match named.map(|(_, value)| value).collect::<Vec<_>>()[..] {
            [] => told.push(format!("{name}: not in Rust")),
            [other] if other == value => {}
            [other] => told.push(format!("{name}: {value} and {other}")),
            _ => told.push(format!("{name}: twice")),
        }
    }
    let only_rust = rust.iter().map(|(name, _)| prefixed(name));
    let only_rust = only_rust.filter(|name| !c.iter().any(|(other, _)| other == name));
    told.extend(only_rust.map(|name| format!("{name}: not in C")));
    told
}

/// The whole numbers that a header gives names to, by `#define` and in enumerations; a text in quotes is none.
pub fn constants(header: &str) -> Parsed<Vec<(String, i64)>> {
    let header = Header::of(header)?;
    let mut constants = Vec::new();
    for (name, value) in &header.defined {
        let is_macro = name.contains('(');
        let is_text = value.len() > 1 && value.starts_with('"') && value.ends_with('"');
        if !is_macro && !is_text && !value.is_empty() {
            constants.push((name.clone(), number(value)? as i64));
        }
    }
    for item in header.items() {
        if !item.starts_with("enum ") {
            continue;
        }
        let inner = item
            .split_once('{')
            .and_then(|(_, inner)| inner.split_once('}'));
        let (inner, _) = inner.ok_or_else(|| format!("no enumeration: {item}"))?;
        let mut next = 0;
        for name in inner
            .split(',')
            .map(str::trim)
            .filter(|name| !name.is_empty())
        {
            let (name, value) = match tokens(name)[..] {
                [name] => (name, next),
                [name, "=", value] => (name, number(value)? as i64),
                _ => return Err(format!("no name of a number: {name}")),
            };
            constants.push((name.into(), value));
            next = value + 1;
        }
    }
    Ok(constants)
}

/// Whether a type in Rust is one in C: where C says how many numbers there are, Rust may leave it out.
fn is_same_type(c: &Type, rust: &Type) -> bool {
    let uncounted = |kind: &Type| match *kind {
        Type::Pointer { written, to, .. } => Type::Pointer {
            written,
            to,
            count: None,
        },
        Type::Plain(_) => kind.clone(),
    };
    rust == c || *rust == uncounted(c)
}

/// What differs between a call in C and in Rust.
fn differences_of(c: &Call, rust: &Call) -> Vec<String> {
    let name = &c.name;
    let mut differences = Vec::new();
    if !is_same_type(&c.result, &rust.result) {
        differences.push(format!("{name}: {:?} and {:?}", c.result, rust.result));
    }
    let counts = (c.parameters.len(), rust.parameters.len());
    if counts.0 != counts.1 {
        differences.push(format!("{name}: {} and {} parameters", counts.0, counts.1));
    }
    for (c, rust) in c.parameters.iter().zip(&rust.parameters) {
        if c.0 != rust.0 || !is_same_type(&c.1, &rust.1) {
            differences.push(format!("{name}: {c:?} and {rust:?}"));
        }
    }
    differences
}

/// The calls by their names; a name that stands there twice is told.
fn by_name<'a>(calls: &'a [Call], told: &mut Vec<String>) -> BTreeMap<&'a str, &'a Call> {
    let mut named = BTreeMap::new();
    for call in calls {
        if named.insert(call.name.as_str(), call).is_some() {
            told.push(format!("{}: twice", call.name));
        }
    }
    named
}

/// What differs between the calls that are declared in C and in Rust.
pub fn differences(c: &[Call], rust: &[Call]) -> Vec<String> {
    let mut told = Vec::new();
    let (c, rust) = (by_name(c, &mut told), by_name(rust, &mut told));
    for (name, call) in &c {
        match rust.get(name) {
            Some(other) => told.extend(differences_of(call, other)),
            None => told.push(format!("{name}: not in Rust")),
        }
    }
    let only_rust = rust.keys().filter(|name| !c.contains_key(*name));
    told.extend(only_rust.map(|name| format!("{name}: not in C")));
    told
}
