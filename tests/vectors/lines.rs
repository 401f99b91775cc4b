//! The lines of a file of vectors: a kit, and what another implementation answers for it. The tests of the
//! reference and those of the archive (tests/rust) both include this file; it reads as much JSON as the
//! lines have.

/// The one name of the file. The next request that has a file puts its own in this place.
macro_rules! name {
    () => {
        "a.jsonl"
    };
}
pub const NAME: &str = name!();
const TEXT: &str = include_str!(name!());

pub struct Vector {
    pub costs: Vec<u16>,
    /// Starts, ends and widths.
    pub wires: [Vec<u16>; 3],
    pub k: u32,
    pub limit: u32,
    want: Value,
}

/// What a split has to answer and to leave.
#[derive(Debug, PartialEq)]
pub struct Wanted {
    pub number: u32,
    /// The cut, rounds, rung and moves; of a refusal the place.
    pub values: Vec<u64>,
    pub table: Vec<u16>,
    pub ladder: Vec<u16>,
}

/// Every line of the file, at least one.
pub fn vectors() -> Vec<Vector> {
    let vectors: Vec<Vector> = TEXT.lines().map(|line| vector(&parse(line))).collect();
    assert!(!vectors.is_empty(), "{NAME} has no line");
    vectors
}

fn vector(line: &Value) -> Vector {
    Vector {
        costs: line.at("costs").entries(),
        wires: ["starts", "ends", "widths"].map(|name| line.at(name).entries()),
        k: line.at("k").number() as u32,
        limit: line.at("limit").number() as u32,
        want: line.at("want").clone(),
    }
}

impl Vector {
    /// With a table and a ladder of full size, all of whose entries were `guard` before.
    /// `tried` and `spent` belong to a later request's answer and are not looked at.
    pub fn wanted(&self, guard: u16) -> Wanted {
        let (n, want) = (self.costs.len(), &self.want);
        let number = want.at("number").number() as u32;
        let names: &[&str] = if number == 0 { &["cut", "rounds", "rung", "moves"] } else { &["place"] };
        let row = |row: &Value| row.entries();
        let mut ladder = want.find("rows").map_or(vec![], |rows| rows.list().iter().flat_map(row).collect());
        ladder.resize(9 * n, guard);
        Wanted {
            number,
            values: names.iter().map(|name| want.at(name).number()).collect(),
            table: want.find("table").map_or(vec![guard; n], Value::entries),
            ladder,
        }
    }
}

#[derive(Clone, Debug)]
enum Value {
    Null,
    Bool,
    Number(u64),
    List(Vec<Value>),
    Object(Vec<(String, Value)>),
}

impl Value {
    fn find(&self, name: &str) -> Option<&Value> {
        let Value::Object(members) = self else { panic!("not an object: {self:?}") };
        members.iter().find(|member| member.0 == name).map(|member| &member.1)
    }

    fn at(&self, name: &str) -> &Value {
        self.find(name).unwrap_or_else(|| panic!("no {name} in {self:?}"))
    }

    fn number(&self) -> u64 {
        let Value::Number(number) = self else { panic!("not a number: {self:?}") };
        *number
    }

    fn list(&self) -> &[Value] {
        let Value::List(items) = self else { panic!("not a list: {self:?}") };
        items
    }

    /// A list of 16-bit numbers.
    fn entries(&self) -> Vec<u16> {
        self.list().iter().map(|item| item.number().try_into().expect("16 bits")).collect()
    }
}

fn parse(line: &str) -> Value {
    let mut reader = Reader(line.trim_end());
    let value = reader.value();
    assert!(reader.0.is_empty(), "past the end of a line: {}", reader.0);
    value
}

/// What is left of a line that has no spaces between its words.
struct Reader<'a>(&'a str);

impl<'a> Reader<'a> {
    fn value(&mut self) -> Value {
        match self.0.as_bytes()[0] {
            b'{' => Value::Object(self.items('}', |r| {
                let name = r.name();
                (name, r.value())
            })),
            b'[' => Value::List(self.items(']', Reader::value)),
            b'0'..=b'9' => Value::Number(self.word(|c| c.is_ascii_digit()).parse().expect("64 bits")),
            _ => match self.word(|c| c.is_ascii_lowercase()) {
                "null" => Value::Null,
                "true" | "false" => Value::Bool,
                _ => panic!("no value: {}", self.0),
            },
        }
    }

    /// Items with commas between them, after an opening bracket and up to the closing one.
    fn items<T>(&mut self, close: char, item: impl Fn(&mut Self) -> T) -> Vec<T> {
        self.0 = &self.0[1..];
        let mut items = Vec::new();
        while !self.takes(close) {
            assert!(items.is_empty() || self.takes(','), "no comma: {}", self.0);
            items.push(item(self));
        }
        items
    }

    /// A member's name and the colon. Names have no escapes.
    fn name(&mut self) -> String {
        assert!(self.takes('"'), "no name: {}", self.0);
        let name = self.word(|c| c != '"').to_string();
        assert!(self.takes('"') && self.takes(':'), "no colon: {}", self.0);
        name
    }

    fn takes(&mut self, sign: char) -> bool {
        let rest = self.0.strip_prefix(sign);
        self.0 = rest.unwrap_or(self.0);
        rest.is_some()
    }

    fn word(&mut self, part: impl Fn(char) -> bool) -> &'a str {
        let end = self.0.find(|c| !part(c)).unwrap_or(self.0.len());
        let (word, rest) = self.0.split_at(end);
        self.0 = rest;
        word
    }
}
