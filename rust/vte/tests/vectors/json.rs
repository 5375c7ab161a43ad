//! The vectors of `vectors/*.json`, which docs/JUDGE.md describes, and private ones; and ways to
//! cut a stream.

use std::iter::{from_fn, once, Peekable};
use std::str::Chars;

const FILES: [&str; 3] = [
    include_str!("../../../../vectors/events.json"),
    include_str!("../../../../vectors/calls.json"),
    include_str!("../../../../tools/lib/generating/private_vectors.json"),
];
/// Streams with more bytes than this aren't cut at every position.
pub const MAX_CUT: usize = 2048;

/// A value of JSON: a vector is an object.
pub enum Value {
    /// A number, `true`, `false` or `null`.
    Word(String),
    Text(String),
    List(Vec<Value>),
    Object(Vec<(String, Value)>),
}

/// The vectors of all files, each of which is a list or an object with lists of vectors alone.
pub fn vectors() -> impl Iterator<Item = Value> {
    let values = FILES.map(|file| read_value(&mut file.chars().peekable()).expect("a value"));
    let lists = values.into_iter().flat_map(|value| match value {
        Value::Object(fields) => fields.into_iter().map(|(_, value)| value).collect(),
        list => vec![list],
    });
    lists.flat_map(|value| match value {
        Value::List(vectors) => vectors,
        _ => vec![],
    })
}

impl Value {
    pub fn get(&self, name: &str) -> Option<&Value> {
        match self {
            Value::Object(fields) => fields.iter().find(|it| it.0 == name).map(|it| &it.1),
            _ => None,
        }
    }

    /// The text of a field.
    pub fn text(&self, name: &str) -> &str {
        match self.get(name) {
            Some(Value::Text(text)) => text,
            _ => panic!("no text {name}"),
        }
    }

    /// The number of a field, unless it is another word.
    pub fn number(&self, name: &str) -> Option<usize> {
        match self.get(name) {
            Some(Value::Word(word)) => word.parse().ok(),
            _ => None,
        }
    }

    /// The items of a field, if it is there.
    pub fn items(&self, name: &str) -> &[Value] {
        match self.get(name) {
            Some(Value::List(items)) => items,
            _ => &[],
        }
    }

    /// The chunks of a stream.
    pub fn chunks(&self) -> Vec<Vec<u8>> {
        let of_steps = self.items("steps").iter();
        let of_steps =
            of_steps.filter_map(|step| step.get("advance").or_else(|| step.get("bytes")));
        let chunks = self.items("chunks").iter().chain(self.get("before"));
        chunks.chain(of_steps).map(Value::bytes).collect()
    }

    /// The bytes that this gives in hex.
    pub fn bytes(&self) -> Vec<u8> {
        let text = self.written("");
        let byte_at = |at| u8::from_str_radix(&text[at..at + 2], 16).expect("hex digits");
        (0..text.len()).step_by(2).map(byte_at).collect()
    }

    /// The lines of a field with events or calls.
    pub fn lines(&self, name: &str) -> String {
        self.items(name).iter().map(|it| it.written("\n")).collect()
    }

    /// The parts of a text, its repetitions written out, with an end after each line.
    pub fn written(&self, end: &str) -> String {
        match self {
            Value::Text(text) => format!("{text}{end}"),
            Value::List(items) => items.iter().map(|item| item.written(end)).collect(),
            Value::Object(_) => match (self.get("line"), self.number("times")) {
                (Some(line), _) => line.written("") + end,
                (None, times) => {
                    format!("{}{end}", self.text("repeat")).repeat(times.expect("a number"))
                }
            },
            Value::Word(word) => word.clone(),
        }
    }
}

/// Reads the next value, or none at the end of a list or object. What stands between values goes.
fn read_value(rest: &mut Peekable<Chars<'_>>) -> Option<Value> {
    while rest.next_if(|it| " \n,:".contains(*it)).is_some() {}
    Some(match rest.next()? {
        ']' | '}' => return None,
        '[' => Value::List(from_fn(|| read_value(rest)).collect()),
        '{' => {
            let field = || Some((read_value(rest)?.written(""), read_value(rest)?));
            Value::Object(from_fn(field).collect())
        }
        '"' => Value::Text(from_fn(|| read_character(rest)).collect()),
        first => {
            let others = from_fn(|| rest.next_if(char::is_ascii_alphanumeric));
            Value::Word(once(first).chain(others).collect())
        }
    })
}

/// Reads the next character of a text, whose escapes are those of `"`, a backslash and LF.
fn read_character(rest: &mut Peekable<Chars<'_>>) -> Option<char> {
    match rest.next()? {
        '"' => None,
        '\\' => match rest.next()? {
            'n' => Some('\n'),
            escaped @ ('"' | '\\') => Some(escaped),
            escaped => panic!("no such escape: {escaped}"),
        },
        c => Some(c),
    }
}

/// The ways to cut a stream: byte by byte, and in two at every position, before it at first.
pub fn cuttings(stream: &[u8]) -> impl Iterator<Item = Vec<&[u8]>> {
    let is_short = stream.len() <= MAX_CUT;
    let places = 0..=if is_short { stream.len() } else { 0 };
    let in_two = places.map(move |at| vec![&stream[..at], &stream[at..]]);
    once(stream.chunks(1).collect()).chain(in_two)
}
