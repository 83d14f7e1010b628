//! Pages that cannot be read: each rule of document 01's "Readable" is the first to be broken about as often.

use harness::{bad_value, capacity, relevel, Datom, Node, Pages, Random, Rule, NONE};

/// How often another level is tried for a page that is to stay readable.
const ATTEMPTS: usize = 8;

/// A page that cannot be read.
pub struct Broken {
    pub bytes: Vec<u8>,
    /// How many rules it breaks.
    pub rules: usize,
    /// Whether it has another level besides, one that a page may have.
    pub is_elsewhere: bool,
}

impl Broken {
    /// A rule of a readable page is broken, now and then some of those behind it too, and now and then the level is another besides.
    pub fn of(pages: &Pages, id: u64, random: &mut Random) -> Broken {
        let old = pages.page(id).expect("a page in use");
        let mut node = Node::decode(old).expect("a readable page");
        let level = node.level;
        if random.one_in(4) {
            node.level = random.below(8) as u8;
        }
        let first = random.below(Rule::ALL.len());
        let is_alone = random.one_in(2);
        // The first rule comes last: what it needs of the page is not undone.
        let chosen: Vec<Rule> = Rule::ALL[first + 1..].iter().copied().filter(|_| !is_alone && random.one_in(3)).collect();
        for &rule in chosen.iter().rev().chain([&Rule::ALL[first]]) {
            break_rule(&mut node, id, rule, pages, random);
        }
        let is_elsewhere = node.level != level;
        let mut bytes = old.to_vec();
        node.encode_over(&mut bytes);
        let in_header = [Rule::ALL[first]].into_iter().chain(chosen).filter(|&rule| break_header(&mut bytes, rule, random)).count();
        Broken { bytes, rules: in_header + broken_rules(&node, id, pages), is_elsewhere }
    }
}

/// How many of the rules about datoms and children are broken; the order of malformed datoms is not asked.
fn broken_rules(node: &Node, id: u64, pages: &Pages) -> usize {
    let is_broken = |rule: Rule| node.breaks(rule, id, pages.order(), pages.heap());
    let is_malformed = is_broken(Rule::Form);
    Rule::ALL.into_iter().filter(|&rule| (rule != Rule::Order || !is_malformed) && is_broken(rule)).count()
}

/// Whether it is one of the two rules about the header, which is then broken.
fn break_header(page: &mut [u8], rule: Rule, random: &mut Random) -> bool {
    let capacity = capacity(page.len()).expect("a known page size");
    let header = 40 * capacity + 8;
    match rule {
        Rule::Level => page[header] = random.pick(&[8, 9, 255]),
        Rule::Count => page[header + 1] = random.pick(&[capacity as u8 + 1, 255]),
        _ => return false,
    }
    true
}

/// Breaks a rule about datoms or children. A page of which it asks nothing is made one of which it does.
fn break_rule(node: &mut Node, id: u64, rule: Rule, pages: &Pages, random: &mut Random) {
    match rule {
        Rule::Level | Rule::Count => {}
        Rule::Form => {
            at_least(node, 1);
            let place = random.below(node.datoms.len());
            node.datoms[place][2] = bad_value(pages.heap(), random);
        }
        Rule::Order => {
            at_least(node, 2);
            let place = 1 + random.below(node.datoms.len() - 1);
            if random.one_in(2) {
                node.datoms[place] = node.datoms[place - 1];
            } else {
                node.datoms.swap(place - 1, place);
            }
        }
        Rule::LeafChild => {
            node.level = 0;
            let place = random.below(node.children.len());
            node.children[place] = random.pick(&[0, id.saturating_sub(1), id, NONE - 1]);
        }
        Rule::LastChild => {
            node.level = node.level.max(1);
            *node.children.last_mut().expect("a last child") = NONE;
        }
        Rule::ChildId => {
            node.level = node.level.max(1);
            let last = node.children.len() - 1;
            let place = if node.children[last] == NONE { last } else { random.below(last + 1) };
            node.children[place] = random.pick(&[id, id + 1, NONE - 1]);
        }
    }
}

/// Datoms that are in no order to one another, where there are fewer.
fn at_least(node: &mut Node, count: usize) {
    const EQUAL: Datom = [1, 1, 1, 1];
    while node.datoms.len() < count {
        let datom = node.datoms.first().copied().unwrap_or(EQUAL);
        node.datoms.insert(0, datom);
        node.children.insert(0, NONE);
    }
}

/// A page of another level that can be read; nothing where none is found, as of page 0, which can have no child.
pub fn misplaced(pages: &Pages, id: u64, random: &mut Random) -> Option<Vec<u8>> {
    let old = pages.page(id)?;
    let level = Node::decode(old)?.level;
    (0..ATTEMPTS).find_map(|_| {
        let mut node = Node::decode(old)?;
        relevel(&mut node, id, random);
        let mut bytes = old.to_vec();
        node.encode_over(&mut bytes);
        if node.level != level && node.is_readable(id, pages.order(), pages.heap()) { Some(bytes) } else { None }
    })
}
