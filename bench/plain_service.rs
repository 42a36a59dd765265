//! A plain server of ledger lines, to measure `farm serve` beside it: a thread for each connection, one mutex, no searches and no proofs.
//! `plain_service serve --config F --port P --sessions K` prints `port P`, answers `@NAME ledger` on K connections, and prints `settled`.
//! What the configuration grants is left out: each tenant is granted 1,000,000,000,000 quanta.
use std::collections::HashMap;
use std::env;
use std::io::{self, BufRead, BufReader, BufWriter, Write};
use std::net::{TcpListener, TcpStream};
use std::sync::Mutex;
use std::thread;

/// What a tenant was granted, and what of it is free, held and spent.
#[derive(Clone, Copy)]
struct Book {
    granted: u64,
    free: u64,
    held: u64,
    spent: u64,
}

const FULL: Book = Book { granted: 1_000_000_000_000, free: 1_000_000_000_000, held: 0, spent: 0 };

/// Answers one connection's lines. Replies leave once no further request is at hand.
fn answer(stream: TcpStream, books: &Mutex<HashMap<String, Book>>) -> io::Result<()> {
    stream.set_nodelay(true)?;
    let mut reader = BufReader::new(stream.try_clone()?);
    let mut writer = BufWriter::new(stream);
    let mut line = String::new();
    while reader.read_line(&mut line)? > 0 {
        let mut words = line.split_ascii_whitespace();
        match (words.next().and_then(|word| word.strip_prefix('@')), words.next(), words.next()) {
            (Some(name), Some("ledger"), None) => {
                let book = *books.lock().unwrap().entry(name.to_string()).or_insert(FULL);
                writeln!(writer, "@{name} ledger granted {} free {} held {} spent {}", book.granted, book.free, book.held, book.spent)?;
            }
            _ => writeln!(writer, "@? no syntax")?,
        }
        line.clear();
        if reader.buffer().is_empty() {
            writer.flush()?;
        }
    }
    writer.flush()
}

/// The word behind this one.
fn option(name: &str) -> String {
    env::args().skip_while(|word| word != name).nth(1).expect(name)
}

fn main() -> io::Result<()> {
    let listener = TcpListener::bind(("127.0.0.1", option("--port").parse().expect("a port")))?;
    let sessions: usize = option("--sessions").parse().expect("a number");
    println!("port {}", listener.local_addr()?.port());
    let books = Mutex::new(HashMap::new());
    thread::scope(|scope| {
        for _ in 0..sessions {
            let (stream, _) = listener.accept()?;
            let books = &books;
            scope.spawn(move || answer(stream, books));
        }
        io::Result::Ok(())
    })?;
    println!("settled");
    Ok(())
}
