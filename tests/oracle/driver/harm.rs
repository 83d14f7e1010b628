//! Pages for histories that show the names of faults: what is to be wrong with a page of a tree, and the bytes that it then has.

use harness::{capacity, readable_damage, Datom, Node, Pages, Random, Rule, Supply, NONE};

use crate::breaking::{misplaced, Broken};
use crate::model::Model;
use crate::names::Fault;

/// Damage is made at random until there is some of the kind that is asked for.
const ATTEMPTS: usize = 4000;

/// What is to be wrong.
#[derive(Clone, Copy, Debug)]
pub enum Harm {
    /// This rule of a readable page is broken and no other; where the rule lets it, the page has its own level.
    One(Rule),
    /// This rule is broken, and this one, which comes behind it.
    Two(Rule, Rule),
    /// This rule is broken, and the level is another that a page may have.
    Elsewhere(Rule),
    /// The page is readable, and has another level.
    Misplaced,
}

/// A page and its new bytes.
pub type Harmed = (u64, Vec<u8>);

impl Harm {
    /// The bytes that the page is to have; nothing where there are none of the kind, as page 0 cannot have a level over 0.
    pub fn of(self, pages: &Pages, page: u64, random: &mut Random) -> Option<Harmed> {
        let bytes = (0..ATTEMPTS).find_map(|_| match self {
            Harm::Misplaced => misplaced(pages, page, random),
            _ => Some(Broken::of(pages, page, random)).filter(|broken| self.is_in(broken, page, pages)).map(|broken| broken.bytes),
        })?;
        Some((page, bytes))
    }

    fn is_in(self, broken: &Broken, page: u64, pages: &Pages) -> bool {
        let first = Node::read(&broken.bytes, page, pages.order(), pages.heap()).expect_err("a page that cannot be read");
        match self {
            Harm::One(rule) => first == rule && broken.rules == 1 && (needs_level(rule) || !broken.is_elsewhere),
            Harm::Two(rule, behind) => first == rule && is_broken_too(broken, behind, page, pages),
            Harm::Elsewhere(rule) => first == rule && broken.is_elsewhere,
            Harm::Misplaced => false,
        }
    }
}

/// Pairs of rules, the first of which is to be named. Whether malformed datoms are in order is not asked.
pub const PAIRS: [(Rule, Rule); 6] = [
    (Rule::Level, Rule::Count),
    (Rule::Count, Rule::Form),
    (Rule::Form, Rule::LastChild),
    (Rule::Order, Rule::ChildId),
    (Rule::LeafChild, Rule::ChildId),
    (Rule::LastChild, Rule::ChildId),
];

/// Whether a page breaks a rule behind its first. What a page with a count over C holds is known only where it was broken.
fn is_broken_too(broken: &Broken, rule: Rule, page: u64, pages: &Pages) -> bool {
    match Node::decode(&broken.bytes) {
        Some(node) => node.breaks(rule, page, pages.order(), pages.heap()),
        None => rule == Rule::Count || broken.rules > 1,
    }
}

/// Whether only pages of some levels can break the rule.
fn needs_level(rule: Rule) -> bool {
    matches!(rule, Rule::LeafChild | Rule::LastChild | Rule::ChildId)
}

/// A readable page in which the check finds a datom that is not between its bounds; nothing for a tree of one page.
pub fn out_of_bounds(pages: &Pages, root: u64, supply: &Supply, random: &mut Random) -> Option<Harmed> {
    (0..ATTEMPTS).find_map(|_| {
        let (page, bytes) = readable_damage(pages, root, supply, random)?;
        let mut damaged = pages.clone();
        damaged.replace(page, &bytes);
        let found = Model { pages: &damaged }.check(root)?;
        if found.fault == Fault::OutOfBounds { Some((page, bytes)) } else { None }
    })
}

/// A page with a datom that is pending right above it: a step at it meets an equal datom.
pub fn doubled(pages: &Pages, root: u64, random: &mut Random) -> Option<Harmed> {
    let capacity = capacity(pages.page_size())?;
    let mut sent = pending_below(pages, root);
    sent.retain(|&(_, page)| read(pages, page).datoms.len() < capacity);
    let (datom, page) = if sent.is_empty() { return None } else { random.pick(&sent) };
    let mut child = read(pages, page);
    let at = child.datoms.iter().take_while(|held| pages.compare(held, &datom).is_lt()).count();
    child.datoms.insert(at, datom);
    child.children.insert(at, NONE);
    let mut bytes = pages.page(page)?.to_vec();
    child.encode_over(&mut bytes);
    Some((page, bytes))
}

/// The pending datoms of the pages from a root down, each with the child that it is to go to.
fn pending_below(pages: &Pages, page: u64) -> Vec<(Datom, u64)> {
    let node = read(pages, page);
    if node.level == 0 {
        return Vec::new();
    }
    let child_from = |i: usize| node.children[i..].iter().copied().find(|&child| child != NONE).expect("a last child");
    let is_pending = |&i: &usize| node.children[i] == NONE;
    let here = (0..node.datoms.len()).filter(is_pending).map(|i| (node.datoms[i], child_from(i)));
    let below = real_children(&node).into_iter().flat_map(|child| pending_below(pages, child));
    here.chain(below).collect()
}

pub fn real_children(node: &Node) -> Vec<u64> {
    node.children.iter().copied().filter(|&child| child != NONE).collect()
}

/// A page of a tree that is sound.
pub fn read(pages: &Pages, page: u64) -> Node {
    Node::decode(pages.page(page).expect("a page of the tree")).expect("a readable page")
}
