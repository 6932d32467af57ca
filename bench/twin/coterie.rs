//! Coteries: their TOML text, and the shapes `majority` and `wheel`.
use std::collections::HashMap;
use std::fmt::Write;

pub struct Coterie {
    pub names: Vec<String>,
    /// A quorum's members are the bits of its word.
    pub quorums: Vec<u64>,
}

pub fn members(quorum: u64) -> impl Iterator<Item = usize> {
    let mut rest = quorum;
    std::iter::from_fn(move || {
        if rest == 0 {
            return None;
        }
        let voter = rest.trailing_zeros() as usize;
        rest &= rest - 1;
        Some(voter)
    })
}

/// A value of the TOML that coteries are written in: words and lists.
enum Value<'a> {
    Word(&'a str),
    List(Vec<Value<'a>>),
}

struct Reader<'a> {
    text: &'a str,
    place: usize,
}

impl<'a> Reader<'a> {
    fn skip(&mut self) {
        let bytes = self.text.as_bytes();
        while let Some(byte) = bytes.get(self.place) {
            match byte {
                b' ' | b'\t' | b'\n' | b'\r' => self.place += 1,
                b'#' => {
                    while bytes.get(self.place).is_some_and(|b| *b != b'\n') {
                        self.place += 1;
                    }
                }
                _ => break,
            }
        }
    }

    /// Whether the mark stands here; it is then behind it.
    fn mark(&mut self, mark: u8) -> bool {
        self.skip();
        let here = self.text.as_bytes().get(self.place) == Some(&mark);
        self.place += usize::from(here);
        here
    }

    fn value(&mut self) -> Option<Value<'a>> {
        if self.mark(b'"') {
            let rest = &self.text[self.place..];
            let end = rest.find('"')?;
            self.place += end + 1;
            return Some(Value::Word(&rest[..end]));
        }
        if !self.mark(b'[') {
            return None;
        }
        let mut list = Vec::new();
        while !self.mark(b']') {
            list.push(self.value()?);
            if !self.mark(b',') {
                return self.mark(b']').then_some(Value::List(list));
            }
        }
        Some(Value::List(list))
    }

    fn key(&mut self) -> Option<&'a str> {
        self.skip();
        let rest = &self.text[self.place..];
        let end = rest.find(|c: char| !c.is_ascii_alphabetic()).unwrap_or(rest.len());
        self.place += end;
        (end > 0).then_some(&rest[..end])
    }
}

fn words<'a>(value: &Value<'a>) -> Option<Vec<&'a str>> {
    match value {
        Value::Word(_) => None,
        Value::List(list) => list
            .iter()
            .map(|item| match item {
                Value::Word(word) => Some(*word),
                Value::List(_) => None,
            })
            .collect(),
    }
}

/// Whether any two quorums meet and none is within another.
fn is_coterie(quorums: &[u64]) -> bool {
    quorums.iter().enumerate().all(|(k, b)| {
        *b != 0
            && quorums[..k]
                .iter()
                .all(|a| a & b != 0 && a & b != *a && a & b != *b)
    })
}

impl Coterie {
    pub fn read(text: &str) -> Option<Coterie> {
        let mut reader = Reader { text, place: 0 };
        let mut names = None;
        let mut lists = None;
        while let Some(key) = reader.key() {
            if !reader.mark(b'=') {
                return None;
            }
            let value = reader.value()?;
            match (key, value) {
                ("voters", value) => names = Some(words(&value)?),
                ("quorums", Value::List(list)) => lists = Some(list),
                _ => return None,
            }
        }
        let names = names?;
        let numbers: HashMap<&str, usize> = names.iter().enumerate().map(|(i, name)| (*name, i)).collect();
        if numbers.len() != names.len() || names.len() > 64 || reader.place != text.len() {
            return None;
        }
        let mut quorums = Vec::new();
        for list in &lists? {
            let mut quorum = 0u64;
            for name in words(list)? {
                quorum |= 1 << numbers.get(name)?;
            }
            quorums.push(quorum);
        }
        let coterie = Coterie {
            names: names.iter().map(|name| name.to_string()).collect(),
            quorums,
        };
        is_coterie(&coterie.quorums).then_some(coterie)
    }

    pub fn write(&self) -> String {
        let mut text = String::new();
        let quoted: Vec<String> = self.names.iter().map(|name| format!("\"{name}\"")).collect();
        let _ = writeln!(text, "voters = [{}]\nquorums = [", quoted.join(", "));
        for quorum in &self.quorums {
            text.push_str("  [");
            for (place, voter) in members(*quorum).enumerate() {
                if place > 0 {
                    text.push_str(", ");
                }
                text.push_str(&quoted[voter]);
            }
            text.push_str("],\n");
        }
        text.push_str("]\n");
        text
    }

    fn numbered(voters: usize, quorums: Vec<u64>) -> Option<Coterie> {
        is_coterie(&quorums).then(|| Coterie {
            names: (0..voters).map(|voter| format!("v{voter}")).collect(),
            quorums,
        })
    }

    /// All sets of more than half of the voters, and no larger ones, by their lists of members.
    pub fn majority(voters: usize) -> Option<Coterie> {
        let size = voters / 2 + 1;
        let mut quorums = Vec::new();
        let mut set: Vec<usize> = (0..size).collect();
        loop {
            quorums.push(set.iter().fold(0, |word, voter| word | 1 << voter));
            let Some(place) = (0..size).rev().find(|i| set[*i] < voters - size + i) else {
                return Coterie::numbered(voters, quorums);
            };
            set[place] += 1;
            for i in place + 1..size {
                set[i] = set[i - 1] + 1;
            }
        }
    }

    /// The hub with each voter of the rim, and the rim.
    pub fn wheel(rims: usize) -> Option<Coterie> {
        let mut quorums: Vec<u64> = (1..=rims).map(|rim| 1 | 1 << rim).collect();
        quorums.push((1..=rims).fold(0, |word, rim| word | 1 << rim));
        Coterie::numbered(rims + 1, quorums)
    }
}
