//! The floor of an opening: an index read from the file `head` and built as lists and ordered maps of the standard library,
//! with nothing checked that its reader doesn't need. `bench/sessions` compiles it and stands it beside an opening.
use std::collections::BTreeMap;
use std::rc::Rc;

type Text = Rc<str>;

/// What one mail is known by.
#[allow(dead_code)]
struct Facts {
    id: Text,
    links: Vec<Text>,
    date: i64,
    from: Vec<(Text, Text)>,
    to: Vec<(Text, Text)>,
    subject: Text,
    lists: Vec<(u8, Vec<Text>)>,
    types: Vec<Text>,
    marks: u8,
}

/// The bytes that are left of a record.
struct Reader<'a>(&'a [u8]);

impl<'a> Reader<'a> {
    fn take(&mut self, count: usize) -> &'a [u8] {
        let (front, rest) = self.0.split_at(count);
        self.0 = rest;
        front
    }

    fn byte(&mut self) -> u8 {
        self.take(1)[0]
    }

    fn length(&mut self) -> usize {
        u32::from_be_bytes(self.take(4).try_into().unwrap()) as usize
    }

    fn text(&mut self) -> Text {
        let length = self.length();
        std::str::from_utf8(self.take(length)).expect("a text").into()
    }

    fn list<T>(&mut self, item: impl Fn(&mut Self) -> T) -> Vec<T> {
        (0..self.length()).map(|_| item(self)).collect()
    }

    fn facts(&mut self) -> Facts {
        Facts {
            id: self.text(),
            links: self.list(Self::text),
            date: i64::from_be_bytes(self.take(8).try_into().unwrap()),
            from: self.list(|it| (it.text(), it.text())),
            to: self.list(|it| (it.text(), it.text())),
            subject: self.text(),
            lists: self.list(|it| (it.byte(), it.list(Self::text))),
            types: self.list(Self::text),
            marks: self.byte(),
        }
    }
}

/// The lists and maps that a snapshot has. A thread is named by its least number, and the smaller one is named anew.
#[derive(Default)]
struct Index {
    files: BTreeMap<u64, (Text, Rc<Facts>)>,
    places: BTreeMap<Text, u64>,
    messages: BTreeMap<Text, Vec<u64>>,
    tags: BTreeMap<Text, Vec<Text>>,
    numbers: BTreeMap<Text, u64>,
    threads: BTreeMap<u64, u64>,
    members: BTreeMap<u64, Vec<u64>>,
    arrived: u64,
}

impl Index {
    fn number(&mut self, id: &Text) -> u64 {
        let next = self.numbers.len() as u64 + 1;
        let number = *self.numbers.entry(id.clone()).or_insert(next);
        if number == next {
            self.threads.insert(number, number);
            self.members.insert(number, vec![number]);
        }
        number
    }

    fn join(&mut self, one: u64, other: u64) {
        let (one, other) = (self.threads[&one], self.threads[&other]);
        if one == other {
            return;
        }
        let (least, greater) = (one.min(other), one.max(other));
        let moved = self.members.remove(&greater).unwrap();
        for number in &moved {
            self.threads.insert(*number, least);
        }
        self.members.get_mut(&least).unwrap().extend(moved);
    }

    fn add(&mut self, path: Text, facts: Facts) {
        let number = self.number(&facts.id);
        for link in &facts.links {
            let other = self.number(link);
            self.join(number, other);
        }
        let place = self.arrived;
        self.arrived += 1;
        self.places.insert(path.clone(), place);
        self.messages.entry(facts.id.clone()).or_default().push(place);
        self.tags.entry(facts.id.clone()).or_insert_with(|| vec!["inbox".into(), "unread".into()]);
        self.files.insert(place, (path, Rc::new(facts)));
    }
}

fn main() {
    let bytes = std::fs::read(std::env::args().nth(1).expect("a file")).expect("its bytes");
    let mut index = Index::default();
    let mut left = Reader(&bytes);
    while left.byte() == 1 {
        let length = left.length();
        let mut body = Reader(left.take(length));
        for _ in 0..body.length() {
            match body.byte() {
                1 => {
                    let path = body.text();
                    let facts = body.facts();
                    index.add(path, facts);
                }
                4 => {
                    let id = body.text();
                    let tags = (0..body.length()).map(|_| body.text()).collect();
                    index.tags.insert(id, tags);
                }
                kind => panic!("only mails that come and tags are read here, not a change {kind}"),
            }
        }
    }
    println!("{} {} {}", index.files.len(), index.messages.len(), index.members.len());
}
