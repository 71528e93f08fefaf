//! The recipes, tables, walks back, companions and sizes that are proved of the definitions, read from the files that the prover reads.
//! Of antt this evaluates definitions by one equation, over numbers, names in quotes, and lists.

use crate::bandrolt::{Answer, FactorsAnswer, Origin, Size};
use crate::other::{Refusal, Route, Verdict, FIELD, NAME};
use std::collections::HashMap;
use std::iter::Peekable;
use std::str::SplitWhitespace;
use Value::*;

const SAMPLES: &str = concat!(
    include_str!("../../../crates/samples/specs/Samples.antt"),
    include_str!("../../../crates/samples/specs/Walks.antt"),
    include_str!("../../../crates/samples/specs/Companions.antt"),
    include_str!("../../../crates/samples/specs/Sizes.antt"),
);
const PROOFS: &str = concat!(
    include_str!("../../../crates/samples/proofs/Starred.antt"),
    include_str!("../../../crates/samples/proofs/Walks.antt"),
    include_str!("../../../crates/samples/proofs/Companions.antt"),
    include_str!("../../../crates/samples/proofs/Sizes.antt"),
);

/// A recipe, the length of the output, the verdict, and the flat table.
pub struct Sample {
    pub recipe: Vec<u8>,
    pub room: usize,
    pub verdict: Verdict,
    pub table: Vec<u8>,
}

/// A table, and the table check's verdict.
pub struct TableSample {
    pub table: Vec<u8>,
    pub verdict: Verdict,
}

/// A recipe, a name, and what the walk back answers.
pub struct WalkSample {
    pub recipe: Vec<u8>,
    pub name: Vec<u8>,
    pub origin: Origin,
}

/// A recipe, the lengths of table and companion, and what flattening with factors answers and writes into them.
pub struct CompanionSample {
    pub recipe: Vec<u8>,
    pub rooms: [usize; 2],
    pub answer: FactorsAnswer,
    pub written: [Vec<u8>; 2],
}

/// A recipe, and its size.
pub struct SizeSample {
    pub recipe: Vec<u8>,
    pub size: Size,
}

/// What is in the lists of which a proved statement says `every holds_of`.
pub fn recipes() -> Vec<Sample> {
    stated("holds_of", |made, of| match (made, of) {
        ("refuses", [recipe, room, number, place]) => Sample {
            recipe: recipe.bytes(),
            room: room.number(),
            verdict: Err(refusal(number, place)),
            table: Vec::new(),
        },
        ("gives", [recipe, room, count, table]) => Sample {
            recipe: recipe.bytes(),
            room: room.number(),
            verdict: Ok(count.number()),
            table: table.bytes(),
        },
        _ => panic!("{made} makes no recipe's sample"),
    })
}

/// What is in the lists of which a proved statement says `every table_holds_of`.
pub fn tables() -> Vec<TableSample> {
    stated("table_holds_of", |made, of| match (made, of) {
        ("unclosed", [table, number, place]) => TableSample {
            table: table.bytes(),
            verdict: Err(refusal(number, place)),
        },
        ("closed", [table, count]) => TableSample {
            table: table.bytes(),
            verdict: Ok(count.number()),
        },
        _ => panic!("{made} makes no table's sample"),
    })
}

/// What is in the lists of which a proved statement says `every walk_holds_of`.
pub fn walks() -> Vec<WalkSample> {
    stated("walk_holds_of", |made, of| match (made, of) {
        ("walked", [recipe, name, submodels, element]) => WalkSample {
            recipe: recipe.bytes(),
            name: name.bytes(),
            origin: Origin::from(Ok(Route {
                submodels: submodels.numbers(),
                element: element.number(),
            })),
        },
        ("unwalked", [recipe, name, number, place]) => WalkSample {
            recipe: recipe.bytes(),
            name: name.bytes(),
            origin: Origin::from(Err(refusal(number, place))),
        },
        _ => panic!("{made} makes no walk's sample"),
    })
}

/// What is in the lists of which a proved statement says `every companion_holds_of`.
pub fn companions() -> Vec<CompanionSample> {
    stated("companion_holds_of", |made, of| match (made, of) {
        ("entered", [recipe, room, companion_room, count, table, entries, companion]) => {
            CompanionSample {
                recipe: recipe.bytes(),
                rooms: [room, companion_room].map(Value::number),
                answer: Ok((count.number(), entries.number())).into(),
                written: [table, companion].map(Value::bytes),
            }
        }
        ("unentered", [recipe, room, companion_room, number, place]) => CompanionSample {
            recipe: recipe.bytes(),
            rooms: [room, companion_room].map(Value::number),
            answer: Err(refusal(number, place)).into(),
            written: Default::default(),
        },
        _ => panic!("{made} makes no companion's sample"),
    })
}

/// What is in the lists of which a proved statement says `every size_holds_of`.
pub fn sizes() -> Vec<SizeSample> {
    stated("size_holds_of", |made, of| match (made, of) {
        ("measured", [recipe, count, bytes, longest]) => {
            let [count, bytes, longest] = [count, bytes, longest].map(|n| n.number() as u64);
            let flat = Answer {
                number: 0,
                place: 0,
                count,
                bytes,
            };
            SizeSample {
                recipe: recipe.bytes(),
                size: Size { flat, longest },
            }
        }
        ("unmeasured", [recipe, number, place]) => SizeSample {
            recipe: recipe.bytes(),
            size: Err(refusal(number, place)).into(),
        },
        _ => panic!("{made} makes no size's sample"),
    })
}

fn refusal(number: &Value, place: &Value) -> Refusal {
    let number = number.number() as u64;
    let place = place.number();
    Refusal { number, place }
}

/// The samples of which a proved statement says that every one passes a test.
fn stated<T>(test: &str, sample: fn(&str, &[Value]) -> T) -> Vec<T> {
    let file = File::read(SAMPLES);
    let mut samples = Vec::new();
    let proved = PROOFS
        .lines()
        .filter_map(|line| line.strip_suffix(" ≡ true"));
    for statement in proved.filter_map(|line| line.split(' ').next_back()) {
        let words: Vec<&str> = file.0[statement].body.split_whitespace().collect();
        let lists = words.windows(3).filter(|said| said[..2] == ["every", test]);
        for made in lists.flat_map(|said| file.call(said[2], &[]).list()) {
            match made {
                Made(name, of) => samples.push(sample(&name, &of)),
                _ => panic!("a sample is wanted"),
            }
        }
    }
    samples
}

#[derive(Clone)]
enum Value {
    Number(usize),
    Name(String),
    List(Vec<Value>),
    /// A sample: what makes it, and of what.
    Made(String, Vec<Value>),
}

impl Value {
    fn number(&self) -> usize {
        match self {
            Number(number) => *number,
            _ => panic!("a number is wanted"),
        }
    }

    fn list(self) -> Vec<Value> {
        match self {
            List(list) => list,
            _ => panic!("a list is wanted"),
        }
    }

    fn numbers(&self) -> Vec<usize> {
        self.clone().list().iter().map(Value::number).collect()
    }

    fn bytes(&self) -> Vec<u8> {
        let byte = |number| u8::try_from(number).expect("a byte");
        self.numbers().into_iter().map(byte).collect()
    }

    fn of_bytes(bytes: &[u8]) -> Self {
        List(bytes.iter().map(|&byte| Number(byte.into())).collect())
    }
}

/// What the file takes from elsewhere, and what makes a sample.
fn primitive(name: &str, of: &[Value]) -> Option<Value> {
    Some(match (name, of) {
        ("[]", []) => List(Vec::new()),
        ("name_width", []) => Number(NAME),
        ("flat_width", [_]) => Number(FIELD),
        ("characters", [Name(name)]) => Value::of_bytes(name.as_bytes()),
        ("replicate", [Number(count), value]) => List(vec![value.clone(); *count]),
        ("padded", [Number(width), List(list)]) => {
            let mut list = list.clone();
            list.resize(list.len().max(*width), Number(0));
            List(list)
        }
        (
            "refuses" | "gives" | "unclosed" | "closed" | "walked" | "unwalked" | "entered"
            | "unentered" | "measured" | "unmeasured",
            _,
        ) => Made(name.into(), of.to_vec()),
        _ => return None,
    })
}

struct Definition<'a> {
    parameters: Vec<&'a str>,
    /// Its words, apart.
    body: String,
}

struct File<'a>(HashMap<&'a str, Definition<'a>>);

impl<'a> File<'a> {
    /// An equation begins at a line's start, and goes on in the indented lines behind it.
    fn read(text: &'a str) -> Self {
        let mut definitions: HashMap<&str, Definition> = HashMap::new();
        let mut last = "";
        let is_comment = |line: &&str| line.trim_start().starts_with("--");
        for line in text.lines().filter(|line| !is_comment(line)) {
            let apart = |body: &str| body.replace('(', " ( ").replace(')', " ) ");
            if line.starts_with(' ') {
                if let Some(definition) = definitions.get_mut(last) {
                    definition.body += &apart(line);
                }
            } else if let Some((head, body)) = line.split_once(" =") {
                let mut words = head.split(' ');
                last = words.next().unwrap_or_default();
                let parameters = words.collect();
                let body = apart(body);
                definitions.insert(last, Definition { parameters, body });
            } else {
                last = "";
            }
        }
        File(definitions)
    }

    fn call(&self, name: &str, of: &[Value]) -> Value {
        if let Some(value) = primitive(name, of) {
            return value;
        }
        let Some(Definition { parameters, body }) = self.0.get(name) else {
            panic!("what is {name}?");
        };
        assert_eq!(parameters.len(), of.len(), "the arguments of {name}");
        let mut expression = Expression {
            file: self,
            known: parameters.iter().copied().zip(of).collect(),
            words: body.split_whitespace().peekable(),
        };
        let value = expression.value();
        assert_eq!(expression.words.next(), None, "behind {name}");
        value
    }
}

/// What is left of an expression, and the values of the parameters.
struct Expression<'a> {
    file: &'a File<'a>,
    known: HashMap<&'a str, &'a Value>,
    words: Peekable<SplitWhitespace<'a>>,
}

impl Expression<'_> {
    /// Terms with `∷` and `++` between them, which bind alike and to the right.
    fn value(&mut self) -> Value {
        let first = self.term();
        let mut list = match self.words.next_if(|word| ["∷", "++"].contains(word)) {
            None => return first,
            Some("∷") => vec![first],
            Some(_) => first.list(),
        };
        list.extend(self.value().list());
        List(list)
    }

    /// A name with its arguments, or what could be one of them.
    fn term(&mut self) -> Value {
        if self.words.peek() == Some(&"(") {
            return self.argument();
        }
        let word = self.words.next().expect("a word");
        let mut of = Vec::new();
        let goes_on = |word: &&str| !["∷", "++", ")"].contains(word);
        while self.words.peek().is_some_and(goes_on) {
            of.push(self.argument());
        }
        self.word(word, &of)
    }

    fn argument(&mut self) -> Value {
        let word = self.words.next().expect("an argument");
        if word != "(" {
            return self.word(word, &[]);
        }
        let value = self.value();
        assert_eq!(self.words.next(), Some(")"));
        value
    }

    fn word(&self, word: &str, of: &[Value]) -> Value {
        if let Some(&value) = self.known.get(word) {
            value.clone()
        } else if let Ok(number) = word.parse() {
            Number(number)
        } else if let Some(name) = word.strip_prefix('"') {
            Name(name.strip_suffix('"').expect("a name's end").into())
        } else {
            self.file.call(word, of)
        }
    }
}
