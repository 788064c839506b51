//! The benchmarks' loops in plain Rust, a server of lines, and a cutter of programs. `bench/run` compiles it where there is a `rustc`.
//!
//! `twin NAME STEPS TURNS` runs a loop, so many turns of it in each step, and prints what the last step gave; `nothing` does nothing. `twin serve PORT`
//! answers lines as the server's fixture does. `twin tokens FILE` counts the tokens of a program, and adds up what they are worth.
mod family;
mod tokens;

use family::{find, find_above_classes, inherit};
use std::collections::BTreeMap;
use std::hint::black_box;
use std::io::{BufRead, BufReader, Write};
use std::net::{TcpListener, TcpStream};
use tokens::{Fault, Token, tokens};

fn main() {
    let words: Vec<String> = std::env::args().skip(1).collect();
    let number = |at: usize| words.get(at).and_then(|word| word.parse::<usize>().ok());
    match (words.first().map(String::as_str), number(1), number(2)) {
        (Some("serve"), Some(port), None) => serve(port),
        (Some("tokens"), None, None) if words.len() == 2 => count_tokens(&words[1]),
        (Some(name), Some(steps), Some(turns)) => run(name, steps, turns),
        _ => refuse(),
    }
}

fn refuse() -> ! {
    eprintln!("twin: the words are NAME STEPS TURNS, serve PORT, or tokens FILE");
    std::process::exit(2);
}

fn count_tokens(file: &str) {
    let text = std::fs::read_to_string(file).unwrap_or_default();
    match tokens(black_box(&text)) {
        Ok(found) => println!("{} {}", found.len(), found.iter().map(Token::worth).sum::<i64>()),
        Err((fault, line)) => println!("line {line}: {}", told(&fault)),
    }
}

fn told(fault: &Fault) -> &'static str {
    match fault {
        Fault::Character => "Character",
        Fault::Unclosed => "Unclosed",
        Fault::Number => "Number",
    }
}

fn run(name: &str, steps: usize, turns: usize) {
    let step: fn(usize) -> i64 = match name {
        "nothing" => |_| 0,
        "add" => add,
        "count" => count,
        "read" => read,
        "write" => write,
        "update" => update,
        "append" => append,
        "join" => join,
        "put" => put,
        "call" => call,
        "next" => next,
        "fib" => |n| fib(n as i64),
        "length" => length,
        "inherit1" => |turns| inherit(1, turns),
        "inherit4" => |turns| inherit(4, turns),
        "inherit16" => |turns| inherit(16, turns),
        "find1" => |turns| find(0, "last", turns),
        "starred" => |turns| find(0, "long", turns),
        "find8" => |turns| find(8, "last", turns),
        "classes" => find_above_classes,
        _ => refuse(),
    };
    let mut given = 0;
    for _ in 0..steps {
        given = step(black_box(turns));
    }
    println!("{given}");
}

/// Objects by number, each with its properties by name.
type World = BTreeMap<i32, BTreeMap<&'static str, i64>>;

fn world() -> World {
    (0..8).map(|number| (number, BTreeMap::from([("n", 0)]))).collect()
}

fn property<'a>(world: &'a mut World, object: i32, name: &str) -> &'a mut i64 {
    world.get_mut(&object).and_then(|slots| slots.get_mut(name)).expect("a property")
}

fn add(turns: usize) -> i64 {
    for _ in 0..20 * turns {
        black_box(black_box(1) + black_box(1));
    }
    turns as i64
}

fn count(turns: usize) -> i64 {
    let mut i = 0;
    while i < black_box(turns as i64) {
        i = black_box(i + 1);
    }
    i
}

fn read(turns: usize) -> i64 {
    let mut world = world();
    let mut n = 0;
    for _ in 0..10 * turns {
        n = *property(black_box(&mut world), black_box(3), black_box("n"));
    }
    n
}

fn write(turns: usize) -> i64 {
    let mut world = world();
    for i in 0..10 * turns {
        *property(black_box(&mut world), black_box(3), black_box("n")) = (i / 10 + 1) as i64;
    }
    *property(&mut world, 3, "n")
}

fn update(turns: usize) -> i64 {
    let mut world = world();
    for _ in 0..10 * turns {
        *property(black_box(&mut world), black_box(3), black_box("n")) += 1;
    }
    *property(&mut world, 3, "n")
}

fn append(turns: usize) -> i64 {
    let mut list = Vec::new();
    for i in 0..turns {
        list.push(black_box(i));
    }
    list.len() as i64
}

fn join(turns: usize) -> i64 {
    let mut text = String::new();
    for _ in 0..turns / 1000 {
        text = String::new();
        for _ in 0..1000 {
            text = black_box([text.as_str(), "x"].concat());
        }
    }
    text.len() as i64
}

fn put(turns: usize) -> i64 {
    let mut list = vec![0; 1000];
    for _ in 0..turns / 1000 {
        for i in 1..=1000 {
            black_box(&mut list)[i - 1] = i;
        }
    }
    list[999] as i64
}

#[inline(never)]
fn leaf(this: i32) {
    black_box(this);
}

fn call(turns: usize) -> i64 {
    for _ in 0..10 * turns {
        leaf(black_box(3));
    }
    turns as i64
}

#[inline(never)]
fn next_of(this: i32, number: i64) -> i64 {
    black_box(this);
    number + 1
}

fn next(turns: usize) -> i64 {
    for i in 0..turns as i64 {
        for _ in 0..10 {
            black_box(next_of(black_box(3), black_box(i)));
        }
    }
    turns as i64
}

#[inline(never)]
fn fib(n: i64) -> i64 {
    if n < 2 { n } else { fib(black_box(n - 1)) + fib(black_box(n - 2)) }
}

fn length(turns: usize) -> i64 {
    let list = vec![0; 1000];
    for _ in 0..10 * turns {
        black_box(black_box(&list).len());
    }
    list.len() as i64
}

/// Answers each line of each link, on a thread of its own.
fn serve(port: usize) {
    let listener = TcpListener::bind(("127.0.0.1", port as u16)).unwrap_or_else(|error| {
        eprintln!("twin: {error}");
        std::process::exit(2);
    });
    eprintln!("twin: listening");
    for link in listener.incoming().flatten() {
        std::thread::spawn(move || answer(link));
    }
}

// The answers are those of the fixture to a link on which nobody has logged in, and to a player's line that is no command.
fn answer(link: TcpStream) -> std::io::Result<()> {
    link.set_nodelay(true)?;
    let mut lines = BufReader::new(link.try_clone()?);
    let mut out = std::io::BufWriter::new(link);
    let mut line = Vec::new();
    let mut is_known = false;
    out.write_all(b"Type connect #n\r\n")?;
    loop {
        if lines.buffer().is_empty() {
            out.flush()?;
        }
        line.clear();
        if lines.read_until(b'\n', &mut line)? == 0 {
            return Ok(());
        }
        if is_known {
            out.write_all(b"I couldn't understand that.\r\n")?;
        } else if line.starts_with(b"connect ") {
            is_known = true;
            out.write_all(b"*** Connected ***\r\n")?;
        } else {
            out.write_all(b"Type connect #n\r\n")?;
        }
    }
}
