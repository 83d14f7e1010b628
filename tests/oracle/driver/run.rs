//! Answers commands, one a line.

use std::fs;
use std::io::{self, BufRead, Write};
use std::rc::Rc;

use harness::{capacity, By, Constant, Heap, Node, Oracle, Order, Pages, Panic, Verdict, Which, MAX_VALUE, NONE};

use crate::recording::digest;
use crate::text::{
    parse_batch, parse_bytes, parse_datom, parse_number, parse_page_id, show_all, show_datom, show_page_id,
};

const COMMANDS: &str = "oracle plain|patched, by noblit|rule, order eavt|aevt|avet, size 256|568|4096|8192, new, initialise D.., \
    insert ROOT D.., grow ROOT D.., list ROOT LO HI, lists ROOT D.., check ROOT, height ROOT, page N, node N, count, digest, \
    poke PAGE OFFSET BYTE, save FILE, load FILE, compare D D, span CHILD.., inline NUMBER|\"BYTES\", append NUMBER|\"BYTES\", heap, \
    spoil OFFSET BYTE";

/// The most datoms of a batch, by document 01.
const LARGEST_BATCH: usize = 128;

/// Answers every line of standard input. With `echo` each line is repeated before its answer, so
/// that the output is a transcript; blank lines and lines starting with # are passed on.
pub fn run(echo: bool) -> Result<(), String> {
    let mut session = Session::new();
    let mut out = io::BufWriter::new(io::stdout().lock());
    let mut misunderstood = 0;
    for line in io::stdin().lock().lines() {
        let line = line.map_err(|error| format!("standard input: {}", error))?;
        let words: Vec<&str> = line.split_whitespace().collect();
        let is_command = words.first().map_or(false, |word| !word.starts_with('#'));
        let mut answer = String::new();
        if echo {
            answer.push_str(if is_command { "> " } else { "" });
            answer.push_str(&line);
            answer.push('\n');
        }
        if is_command {
            answer.push_str(&session.answer(&words).unwrap_or_else(|problem| {
                misunderstood += 1;
                format!("error: {}", problem)
            }));
            answer.push('\n');
        }
        out.write_all(answer.as_bytes()).and_then(|()| out.flush()).map_err(|error| format!("standard output: {}", error))?;
    }
    if misunderstood > 0 {
        return Err(format!("{} lines were no commands; the commands are: {}", misunderstood, COMMANDS));
    }
    Ok(())
}

struct Session {
    oracle: Oracle,
    pages: Pages,
    /// What `last` stands for: the root that the last initialise or insert gave.
    last_root: u64,
}

impl Session {
    fn new() -> Session {
        Session {
            oracle: Oracle { which: Which::Patched, by: By::Noblit },
            pages: Pages::new(256, Order::Eavt),
            last_root: NONE,
        }
    }

    /// The answer to a command, or what is wrong with the command.
    fn answer(&mut self, words: &[&str]) -> Result<String, String> {
        match *words {
            ["oracle", "plain"] => self.choose(Which::Plain),
            ["oracle", "patched"] => self.choose(Which::Patched),
            ["by", "noblit"] => self.compare_by(By::Noblit),
            ["by", "rule"] => self.compare_by(By::Rule),
            ["order", name] => self.order(name),
            ["size", size] => self.start(parse_number(size)? as usize),
            ["new"] => self.start(self.pages.page_size()),
            ["initialise", ref batch @ ..] => self.initialise(batch),
            ["insert", root, ref batch @ ..] => self.insert(root, batch),
            ["grow", root, ref datoms @ ..] => self.grow(root, datoms),
            ["list", root, lower, upper] => self.list(root, lower, upper),
            ["lists", root, ref datoms @ ..] => self.lists(root, datoms),
            ["check", root] => self.check(root),
            ["height", root] => self.height(root),
            ["page", page] => Ok(hex(self.page(page)?)),
            ["node", page] => self.node(page),
            ["count"] => Ok(format!("pages {}", self.pages.count())),
            ["digest"] => Ok(format!("digest {}", digest(self.pages.bytes()))),
            ["poke", page, offset, byte] => self.poke(page, offset, byte),
            ["save", file] => self.save(file),
            ["load", file] => self.load(file),
            ["compare", left, right] => self.compare(left, right),
            ["span", ref children @ ..] => self.span(children),
            ["inline", value] => self.inline(value),
            ["append", value] => self.append(value),
            ["heap"] => Ok(format!("heap {} bytes, digest {}", self.pages.heap().bytes().len(), digest(self.pages.heap().bytes()))),
            ["spoil", offset, byte] => self.spoil(offset, byte),
            _ => Err(format!("`{}` is no command", words.join(" "))),
        }
    }

    fn choose(&mut self, which: Which) -> Result<String, String> {
        self.oracle.which = which;
        Ok("ok".to_string())
    }

    fn compare_by(&mut self, by: By) -> Result<String, String> {
        self.oracle.by = by;
        Ok("ok".to_string())
    }

    /// The store stays as it is, and is read in this order from here on.
    fn order(&mut self, name: &str) -> Result<String, String> {
        let order = Order::ALL.into_iter().find(|order| order.name() == name).ok_or_else(|| format!("there is no order {}", name))?;
        self.pages.set_order(order);
        Ok("ok".to_string())
    }

    fn start(&mut self, page_size: usize) -> Result<String, String> {
        let datoms = capacity(page_size).ok_or_else(|| format!("there is no page size {}", page_size))?;
        self.pages = Pages::new(page_size, self.pages.order());
        self.last_root = NONE;
        Ok(format!("new store, {} datoms a page", datoms))
    }

    fn initialise(&mut self, batch: &[&str]) -> Result<String, String> {
        let batch = parse_batch(batch)?;
        let before = self.pages.count();
        let outcome = self.oracle.initialise(&mut self.pages, &batch);
        Ok(self.written(before, outcome))
    }

    fn insert(&mut self, root: &str, batch: &[&str]) -> Result<String, String> {
        let (root, batch) = (self.root(root)?, parse_batch(batch)?);
        let before = self.pages.count();
        let outcome = self.oracle.insert(&mut self.pages, root, &batch);
        Ok(self.written(before, outcome))
    }

    /// Inserts any number of datoms, in batches of the largest size, each at the root that the one before it led to.
    fn grow(&mut self, root: &str, datoms: &[&str]) -> Result<String, String> {
        let (root, datoms) = (self.root(root)?, parse_batch(datoms)?);
        let before = self.pages.count();
        let outcome = datoms.chunks(LARGEST_BATCH).try_fold(root, |root, batch| self.oracle.insert(&mut self.pages, root, batch));
        Ok(self.written(before, outcome))
    }

    /// The answer to a call that writes. What a panicking call wrote is dropped again.
    fn written(&mut self, before: u64, outcome: Result<u64, Panic>) -> String {
        let count = self.pages.count() - before;
        match outcome {
            Ok(root) => {
                self.last_root = root;
                format!("root {}, pages written {}", show_page_id(root), count)
            }
            Err(panic) => {
                self.pages.truncate(before);
                format!("{} (pages written before it, and dropped: {})", refusal(&panic.message), count)
            }
        }
    }

    fn list(&self, root: &str, lower: &str, upper: &str) -> Result<String, String> {
        let (root, lower, upper) = (self.root(root)?, parse_datom(lower)?, parse_datom(upper)?);
        let mut listed = Vec::new();
        let outcome = self.oracle.list(&self.pages, root, &lower, &upper, &mut listed);
        let listing = format!("listed {}:{}", listed.len(), show_all(&listed, show_datom));
        Ok(match outcome {
            Ok(()) => listing,
            Err(panic) => format!("{}, having {}", refusal(&panic.message), listing),
        })
    }

    /// Whether a listing of everything gives these datoms and no other.
    fn lists(&self, root: &str, datoms: &[&str]) -> Result<String, String> {
        let (root, datoms) = (self.root(root)?, parse_batch(datoms)?);
        let mut listed = Vec::new();
        let above_all = [u64::MAX, u64::MAX, MAX_VALUE, u64::MAX];
        Ok(match self.oracle.list(&self.pages, root, &[0; 4], &above_all, &mut listed) {
            Ok(()) if listed == datoms => format!("lists these {}", listed.len()),
            Ok(()) => format!("lists {} others", listed.len()),
            Err(panic) => refusal(&panic.message),
        })
    }

    fn check(&self, root: &str) -> Result<String, String> {
        Ok(match self.oracle.check(&self.pages, self.root(root)?) {
            Verdict::Sound => "sound".to_string(),
            Verdict::Unsound(page, message) => format!("unsound at page {}, {}", show_page_id(page), refusal(&message)),
        })
    }

    fn height(&self, root: &str) -> Result<String, String> {
        Ok(match self.oracle.height(&self.pages, self.root(root)?) {
            Ok(height) => format!("height {}", height),
            Err(panic) => refusal(&panic.message),
        })
    }

    fn node(&self, page: &str) -> Result<String, String> {
        let node = Node::decode(self.page(page)?).ok_or_else(|| format!("the count of page {} is over the capacity", page))?;
        Ok(format!(
            "level {}; datoms{}; children{}",
            node.level,
            show_all(&node.datoms, show_datom),
            show_all(&node.children, |&child| show_page_id(child)),
        ))
    }

    fn poke(&mut self, page: &str, offset: &str, byte: &str) -> Result<String, String> {
        let mut bytes = self.page(page)?.to_vec();
        put_byte(&mut bytes, parse_number(offset)?, parse_number(byte)?, "a page")?;
        self.pages.replace(parse_page_id(page)?, &bytes);
        Ok("ok".to_string())
    }

    fn save(&self, file: &str) -> Result<String, String> {
        fs::write(file, self.pages.bytes()).map_err(|error| format!("{}: {}", file, error))?;
        Ok(format!("pages saved {}", self.pages.count()))
    }

    fn load(&mut self, file: &str) -> Result<String, String> {
        let bytes = fs::read(file).map_err(|error| format!("{}: {}", file, error))?;
        if bytes.len() % self.pages.page_size() != 0 {
            return Err(format!("{} is no whole number of pages of {} bytes", file, self.pages.page_size()));
        }
        self.pages.truncate(0);
        self.pages.append(&bytes);
        Ok(format!("pages loaded {}", self.pages.count()))
    }

    fn compare(&self, left: &str, right: &str) -> Result<String, String> {
        Ok(match self.oracle.compare(self.pages.order(), self.pages.heap(), &parse_datom(left)?, &parse_datom(right)?) {
            Ok(order) => format!("{:?}", order).to_lowercase(),
            Err(message) => refusal(&message),
        })
    }

    fn span(&self, children: &[&str]) -> Result<String, String> {
        let children = children.iter().map(|child| parse_page_id(child)).collect::<Result<Vec<_>, _>>()?;
        let (start, end) = self.oracle.longest_pending_span(&children);
        Ok(if start == end { "empty".to_string() } else { format!("{} to {}", start, end) })
    }

    fn inline(&self, value: &str) -> Result<String, String> {
        let word = if value.starts_with('"') {
            self.oracle.inline_bytes(&parse_bytes(value)?)
        } else {
            self.oracle.inline_integer(parse_number(value)?)
        };
        Ok(word.map_or("no inline form".to_string(), |word| format!("{:#018x}", word)))
    }

    /// Has the Rust append a constant to the heap.
    fn append(&mut self, value: &str) -> Result<String, String> {
        let constant = if value.starts_with('"') { Constant::Bytes(parse_bytes(value)?) } else { Constant::Integer(parse_number(value)?) };
        Ok(match self.oracle.append(self.pages.heap(), &[constant]) {
            Ok(appended) => {
                let more = appended.bytes.len() - self.pages.heap().bytes().len();
                self.pages.set_heap(&Rc::new(Heap::of_bytes(&appended.bytes)));
                format!("{:#018x}, {} bytes appended", appended.words[0], more)
            }
            Err(message) => refusal(&message),
        })
    }

    fn spoil(&mut self, offset: &str, byte: &str) -> Result<String, String> {
        let mut bytes = self.pages.heap().bytes().to_vec();
        put_byte(&mut bytes, parse_number(offset)?, parse_number(byte)?, "the heap")?;
        self.pages.set_heap(&Rc::new(Heap::of_bytes(&bytes)));
        Ok("ok".to_string())
    }

    fn root(&self, text: &str) -> Result<u64, String> {
        if text == "last" { Ok(self.last_root) } else { parse_page_id(text) }
    }

    fn page(&self, text: &str) -> Result<&[u8], String> {
        self.pages.page(parse_page_id(text)?).ok_or_else(|| format!("the store has no page {}", text))
    }
}

fn put_byte(bytes: &mut [u8], offset: u64, value: u64, of: &str) -> Result<(), String> {
    let place = bytes.get_mut(offset as usize).ok_or_else(|| format!("{} has no byte {}", of, offset))?;
    *place = value.try_into().map_err(|_| format!("{} is no byte", value))?;
    Ok(())
}

/// A panic on one line.
fn refusal(message: &str) -> String {
    let lines: Vec<&str> = message.lines().map(str::trim).collect();
    format!("panic: {}", lines.join("; "))
}

/// A page as words, four a line, each line with the offset of its first byte.
fn hex(page: &[u8]) -> String {
    let lines: Vec<String> = page.chunks(32).enumerate().map(|(i, line)| {
        let words: String = line.chunks(8).map(|word| {
            let digits: String = word.iter().map(|byte| format!("{:02x}", byte)).collect();
            format!(" {}", digits)
        }).collect();
        format!("{:4}:{}", 32 * i, words)
    }).collect();
    lines.join("\n")
}
