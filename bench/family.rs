//! Objects below one another, with properties and verbs that are found along ancestors by names whose case does not count.
use std::collections::{BTreeMap, HashMap};
use std::hint::black_box;
use std::sync::LazyLock;

const OBJECTS: i32 = 10_000;
const VERBS: usize = 30;
/// The first object of a line of ancestors.
const TOP: i32 = 10;
/// The first class of a line of classes, how many they are, and how many verbs each has that nobody calls.
const CLASSES: i32 = 40;
const LEVELS: i32 = 6;
const OTHERS: i32 = 40;
const WIZARD: i32 = 2;

struct Object {
    parent: i32,
    is_wizard: bool,
    slots: HashMap<String, Slot>,
    verbs: Vec<Verb>,
}

struct Slot {
    /// None where the value is that of an ancestor.
    value: Option<i64>,
    owner: i32,
    is_readable: bool,
}

struct Verb {
    names: String,
    is_callable: bool,
    run: fn(i32) -> i64,
}

struct Family {
    objects: BTreeMap<i32, Object>,
}

static FAMILY: LazyLock<Family> = LazyLock::new(Family::new);

impl Family {
    fn new() -> Family {
        let mut objects = BTreeMap::new();
        for number in 0..OBJECTS {
            let is_in_line = (TOP..=TOP + 16).contains(&number);
            let mut slots = HashMap::new();
            if is_in_line {
                let value = (number == TOP).then_some(7);
                slots.insert("p".to_string(), Slot { value, owner: WIZARD, is_readable: true });
            }
            let is_below = is_in_line && number > TOP || (CLASSES + 1..=CLASSES + LEVELS).contains(&number);
            let parent = if is_below { number - 1 } else { 1 };
            let parent = if number == 1 { -1 } else { parent };
            let verbs = match number {
                TOP => verbs(),
                CLASSES.. if number < CLASSES + LEVELS => others(number - CLASSES),
                _ => Vec::new(),
            };
            objects.insert(number, Object { parent, is_wizard: number == WIZARD, slots, verbs });
        }
        Family { objects }
    }

    /// The value of a property that the programmer may read. Its name in lower case is put into `folded`.
    fn property(&self, programmer: i32, object: i32, name: &str, folded: &mut String) -> Option<i64> {
        folded.clear();
        folded.push_str(name);
        folded.make_ascii_lowercase();
        let mut object = self.objects.get(&object)?;
        let mut slot = object.slots.get(folded)?;
        if !slot.is_readable && slot.owner != programmer && !self.objects.get(&programmer)?.is_wizard {
            return None;
        }
        while slot.value.is_none() {
            object = self.objects.get(&object.parent)?;
            slot = object.slots.get(folded)?;
        }
        slot.value
    }

    fn verb(&self, object: i32, word: &str) -> Option<&Verb> {
        let mut at = object;
        loop {
            let object = self.objects.get(&at)?;
            let found = object.verbs.iter().find(|verb| verb.is_callable && verb.names.split(' ').any(|name| spells(name, word)));
            if found.is_some() {
                return found;
            }
            at = object.parent;
        }
    }
}

fn verbs() -> Vec<Verb> {
    let others = (0..VERBS - 2).map(|number| format!("verb{number}"));
    let names = others.chain(["lo*ngest".to_string(), "last".to_string()]);
    names.map(|names| Verb { names, is_callable: true, run }).collect()
}

/// The verbs of a class; the first class has the verb `last` behind them.
fn others(level: i32) -> Vec<Verb> {
    let letter = |number: i32| char::from(b'a' + (number % 26) as u8);
    let names = (0..OTHERS).map(|number| format!("{}{}*method{number} other{number}", letter(number), letter(5 * number + level)));
    let last = (level == 0).then(|| "last".to_string());
    names.chain(last).map(|names| Verb { names, is_callable: true, run }).collect()
}

#[inline(never)]
fn run(this: i32) -> i64 {
    black_box(this) as i64
}

/// Whether a verb's name, perhaps with a star, spells a word.
fn spells(name: &str, word: &str) -> bool {
    let Some((least, rest)) = name.split_once('*') else {
        return name.eq_ignore_ascii_case(word);
    };
    if word.len() < least.len() || !word[..least.len()].eq_ignore_ascii_case(least) {
        return false;
    }
    let more = &word[least.len()..];
    rest.is_empty() || more.len() <= rest.len() && more.eq_ignore_ascii_case(&rest[..more.len()])
}

/// Reads a property that an object so many levels above defines.
pub fn inherit(level: i32, turns: usize) -> i64 {
    let mut folded = String::new();
    let mut value = 0;
    for _ in 0..10 * turns {
        value = FAMILY.property(black_box(WIZARD), black_box(TOP + level), black_box("p"), &mut folded).expect("a property");
    }
    value
}

/// Calls a verb that an object so many levels above has.
pub fn find(level: i32, word: &str, turns: usize) -> i64 {
    for _ in 0..10 * turns {
        let object = black_box(TOP + level);
        let verb = FAMILY.verb(object, black_box(word)).expect("a verb");
        black_box((verb.run)(object));
    }
    turns as i64
}

/// Calls a verb that the first of several classes has.
pub fn find_above_classes(turns: usize) -> i64 {
    find(CLASSES - TOP + LEVELS, "last", turns)
}
