//! Both builds of noblit's tree and heap, behind one type that takes and gives words.

use std::cmp::Ordering;
use std::rc::Rc;

use crate::datom::{Datom, Order};
use crate::heap::{Constant, Heap};
use crate::pages::Pages;
use crate::panics::{catching, Panic};

/// Which build of the Rust answers.
#[derive(Clone, Copy, Debug, PartialEq)]
pub enum Which {
    /// The Rust unchanged, whose split drops the remainder.
    Plain,
    /// The Rust with document 01's split.
    Patched,
}

/// Whose comparator the Rust's tree is given. In which order it compares is the store's matter.
#[derive(Clone, Copy, Debug, PartialEq)]
pub enum By {
    /// Noblit's own: Eavt, Aevt or Avet.
    Noblit,
    /// The one written to the documents.
    Rule,
}

/// What the invariant check says.
#[derive(Clone, Debug, PartialEq)]
pub enum Verdict {
    Sound,
    /// The page at fault, and the Rust's message.
    Unsound(u64, String),
}

/// What the Rust's heap makes of constants: the words that name them, and all of its bytes behind the last.
#[derive(Clone, Debug, PartialEq)]
pub struct Appended {
    pub words: Vec<u64>,
    pub bytes: Vec<u8>,
}

impl Appended {
    /// Whether the heap is this one, and the words name these constants of it.
    pub fn is_in(&self, heap: &Heap, constants: &[Constant]) -> bool {
        let named: Vec<Constant> = self.words.iter().filter_map(|&word| heap.constant(word)).collect();
        self.bytes == heap.bytes() && named == constants
    }
}

/// The Rust's tree over a store of any known page size, and over its heap.
///
/// Every call answers a panic of the Rust as an error. A store that a panicking insert has written
/// to keeps those pages; the caller truncates it if it wants to go on.
#[derive(Clone, Copy)]
pub struct Oracle {
    pub which: Which,
    pub by: By,
}

/// Calls an operation of one of the modules below, at the build this oracle stands for.
macro_rules! at_build {
    ($oracle:expr, $operation:ident($($argument:expr),*)) => {
        match $oracle.which {
            Which::Plain => plain::$operation($($argument),*),
            Which::Patched => patched::$operation($($argument),*),
        }
    };
}

impl Oracle {
    /// The root of a new tree with these datoms, appended to the store.
    pub fn initialise(self, pages: &mut Pages, batch: &[Datom]) -> Result<u64, Panic> {
        pages.forget_last_read();
        let outcome = catching(|| at_build!(self, initialise(self.by, pages, batch)));
        with_page_read(pages, outcome)
    }

    /// The root of the tree at `root` with these datoms added, appended to the store.
    pub fn insert(self, pages: &mut Pages, root: u64, batch: &[Datom]) -> Result<u64, Panic> {
        pages.forget_last_read();
        let outcome = catching(|| at_build!(self, insert(self.by, pages, root, batch)));
        with_page_read(pages, outcome)
    }

    /// Appends to `listed` the datoms from `lower` on and before `upper`, as far as the Rust gets.
    pub fn list(self, pages: &Pages, root: u64, lower: &Datom, upper: &Datom, listed: &mut Vec<Datom>) -> Result<(), Panic> {
        pages.forget_last_read();
        let outcome = catching(|| at_build!(self, list(self.by, pages, root, lower, upper, listed)));
        with_page_read(pages, outcome)
    }

    /// One more than the level of the root page.
    pub fn height(self, pages: &Pages, root: u64) -> Result<u8, Panic> {
        pages.forget_last_read();
        let outcome = catching(|| at_build!(self, height(self.by, pages, root)));
        with_page_read(pages, outcome)
    }

    /// The invariant check. The page at fault is the one its message names; where the message names
    /// none, the fault lies in the page just read (its level, or that it cannot be read at all).
    pub fn check(self, pages: &Pages, root: u64) -> Verdict {
        pages.forget_last_read();
        let outcome = catching(|| at_build!(self, check(self.by, pages, root)));
        match with_page_read(pages, outcome) {
            Ok(()) => Verdict::Sound,
            Err(panic) => Verdict::Unsound(page_named(&panic.message).unwrap_or(panic.last_read), panic.message),
        }
    }

    /// How two datoms compare in an order, their constants on this heap.
    pub fn compare(self, order: Order, heap: &Rc<Heap>, left: &Datom, right: &Datom) -> Result<Ordering, String> {
        catching(|| at_build!(self, compare_datoms(self.by, order, heap, left, right)))
    }

    /// Constants appended to a heap, one after the other.
    pub fn append(self, heap: &Heap, constants: &[Constant]) -> Result<Appended, String> {
        catching(|| at_build!(self, append(heap, constants)))
    }

    /// The longest pending span of a node with these children, as start and end.
    pub fn longest_pending_span(self, children: &[u64]) -> (usize, usize) {
        at_build!(self, longest_pending_span(children))
    }

    /// The word of an integer that has an inline form.
    pub fn inline_integer(self, number: u64) -> Option<u64> {
        at_build!(self, inline_integer(number))
    }

    /// The word of a byte string that has an inline form.
    pub fn inline_bytes(self, bytes: &[u8]) -> Option<u64> {
        at_build!(self, inline_bytes(bytes))
    }
}

fn with_page_read<T>(pages: &Pages, outcome: Result<T, String>) -> Result<T, Panic> {
    outcome.map_err(|message| Panic { message, last_read: pages.last_read() })
}

/// The number in "Violation at page PageId(NUMBER)".
fn page_named(message: &str) -> Option<u64> {
    let (_, rest) = message.split_once("Violation at page PageId(")?;
    let (number, _) = rest.split_once(')')?;
    number.parse().ok()
}

/// Calls an operation below with a comparator, and with the page size as a type.
macro_rules! at_size {
    ($pages:expr, $operation:ident($($argument:expr),*)) => {
        match $pages.page_size() {
            256 => $operation::<_, PageSize256>($($argument),*),
            568 => $operation::<_, PageSize568>($($argument),*),
            4096 => $operation::<_, PageSize4096>($($argument),*),
            8192 => $operation::<_, PageSize8192>($($argument),*),
            size => panic!("noblit has no page size {}", size),
        }
    };
}

/// Calls an operation below with the comparator of the store's order and its page size as types.
macro_rules! at_order_and_size {
    ($by:expr, $pages:expr, $operation:ident($($argument:expr),*)) => {
        match ($by, $pages.order()) {
            (By::Noblit, Order::Eavt) => at_size!($pages, $operation(Eavt, $($argument),*)),
            (By::Noblit, Order::Aevt) => at_size!($pages, $operation(Aevt, $($argument),*)),
            (By::Noblit, Order::Avet) => at_size!($pages, $operation(Avet, $($argument),*)),
            (By::Rule, order) => {
                let rule = ByRule { order, heap: Rc::clone($pages.heap()) };
                at_size!($pages, $operation(rule, $($argument),*))
            }
        }
    };
}

/// The operations over one build of noblit, whose types differ from those of the other build.
macro_rules! build_of_noblit {
    ($name:ident, $noblit:ident) => {
        mod $name {
            use std::cell::RefCell;
            use std::cmp::Ordering;
            use std::io;
            use std::marker::PhantomData;
            use std::mem::{offset_of, size_of};
            use std::ops::{Deref, DerefMut};
            use std::rc::Rc;

            use $noblit::datom::{Aid, Datom as Fact, Eid, Operation, Tid, Value};
            use $noblit::heap::{Heap, HeapMut, SizedHeap};
            use $noblit::htree::{HTree, Node};
            use $noblit::index::{Aevt, Avet, DatomOrd, Eavt};
            use $noblit::memory_store::MemoryHeap;
            use $noblit::store::{PageId, PageSize, PageSize256, PageSize4096, PageSize568, Store, StoreMut};

            use super::{Appended, By, Constant, Datom, Heap as Constants, Order, Pages};

            include!("page_size_8192.rs");

            // The Rust fixes no layout for its datoms; the oracle stands for the declared order.
            const _: () = assert!(
                size_of::<Fact>() == 32
                    && offset_of!(Fact, entity) == 0
                    && offset_of!(Fact, attribute) == 8
                    && offset_of!(Fact, value) == 16
                    && offset_of!(Fact, transaction_operation) == 24
            );

            fn fact(datom: &Datom) -> Fact {
                let operation = if datom[3] % 2 == 1 { Operation::Assert } else { Operation::Retract };
                Fact::new(Eid(datom[0]), Aid(datom[1]), Value(datom[2]), Tid(datom[3] & !1), operation)
            }

            fn words(fact: &Fact) -> Datom {
                let last = fact.transaction_operation;
                let operation = match last.operation() {
                    Operation::Assert => 1,
                    Operation::Retract => 0,
                };
                [fact.entity.0, fact.attribute.0, fact.value.0, last.transaction().0 | operation]
            }

            fn facts(batch: &[Datom]) -> Vec<Fact> {
                batch.iter().map(fact).collect()
            }

            thread_local! {
                static LAST_HEAP: RefCell<Option<(Rc<Constants>, Rc<MemoryHeap>)>> = const { RefCell::new(None) };
            }

            /// Noblit's own heap, of these bytes. The one of the call before is used again where the bytes are the same: they are shared,
            /// so that nobody changes them.
            fn memory_heap(heap: &Rc<Constants>) -> Rc<MemoryHeap> {
                LAST_HEAP.with_borrow_mut(|last| match last {
                    Some((of, by_noblit)) if Rc::ptr_eq(of, heap) => Rc::clone(by_noblit),
                    _ => {
                        let by_noblit = Rc::new(MemoryHeap::from_vec(heap.bytes().to_vec()));
                        *last = Some((Rc::clone(heap), Rc::clone(&by_noblit)));
                        by_noblit
                    }
                })
            }

            /// The comparator written to documents 01 and 02, which reads the heap by itself.
            struct ByRule {
                order: Order,
                heap: Rc<Constants>,
            }

            impl DatomOrd for ByRule {
                fn cmp(&self, left: &Fact, right: &Fact, _heap: &dyn Heap) -> Ordering {
                    self.heap.compare(self.order, &words(left), &words(right))
                }
            }

            /// Pages, lent to the Rust as a store of one page size.
            struct Lent<P, Size> {
                pages: P,
                size: PhantomData<Size>,
            }

            impl<P, Size> Lent<P, Size> {
                fn new(pages: P) -> Lent<P, Size> {
                    Lent { pages, size: PhantomData }
                }
            }

            impl<P: Deref<Target = Pages>, Size: PageSize> Store for Lent<P, Size> {
                type Size = Size;

                fn get(&self, page: PageId) -> &[u8] {
                    self.pages.read(page.0)
                }

                fn dump(&self, out: &mut dyn io::Write) -> io::Result<()> {
                    out.write_all(self.pages.bytes())
                }
            }

            impl<P: DerefMut<Target = Pages>, Size: PageSize> StoreMut for Lent<P, Size> {
                fn write_page(&mut self, page: &[u8]) -> io::Result<PageId> {
                    Ok(PageId(self.pages.append(page)))
                }
            }

            const IN_MEMORY: &str = "a store in memory gives no input or output error";

            fn initialise_at<Cmp: DatomOrd, Size: PageSize>(order: Cmp, pages: &mut Pages, batch: &[Datom]) -> u64 {
                let heap = memory_heap(pages.heap());
                let store = Lent::<_, Size>::new(pages);
                HTree::initialize(order, store, &*heap, &facts(batch)).expect(IN_MEMORY).root_page.0
            }

            fn insert_at<Cmp: DatomOrd, Size: PageSize>(order: Cmp, pages: &mut Pages, root: u64, batch: &[Datom]) -> u64 {
                let heap = memory_heap(pages.heap());
                let store = Lent::<_, Size>::new(pages);
                let mut tree = HTree::new(PageId(root), order, store, &*heap);
                tree.insert(&facts(batch)).expect(IN_MEMORY).0
            }

            fn list_at<Cmp: DatomOrd, Size: PageSize>(
                order: Cmp,
                pages: &Pages,
                root: u64,
                lower: &Datom,
                upper: &Datom,
                listed: &mut Vec<Datom>,
            ) {
                let (store, heap) = (Lent::<_, Size>::new(pages), memory_heap(pages.heap()));
                let tree = HTree::new(PageId(root), order, &store, &*heap);
                for found in tree.into_iter(&fact(lower), &fact(upper)) {
                    listed.push(words(found));
                }
            }

            fn check_at<Cmp: DatomOrd, Size: PageSize>(order: Cmp, pages: &Pages, root: u64) {
                let (store, heap) = (Lent::<_, Size>::new(pages), memory_heap(pages.heap()));
                HTree::new(PageId(root), order, store, &*heap).check_invariants().expect(IN_MEMORY)
            }

            fn height_at<Cmp: DatomOrd, Size: PageSize>(order: Cmp, pages: &Pages, root: u64) -> u8 {
                let (store, heap) = (Lent::<_, Size>::new(pages), memory_heap(pages.heap()));
                HTree::new(PageId(root), order, store, &*heap).height()
            }

            pub fn initialise(by: By, pages: &mut Pages, batch: &[Datom]) -> u64 {
                at_order_and_size!(by, pages, initialise_at(pages, batch))
            }

            pub fn insert(by: By, pages: &mut Pages, root: u64, batch: &[Datom]) -> u64 {
                at_order_and_size!(by, pages, insert_at(pages, root, batch))
            }

            pub fn list(by: By, pages: &Pages, root: u64, lower: &Datom, upper: &Datom, listed: &mut Vec<Datom>) {
                at_order_and_size!(by, pages, list_at(pages, root, lower, upper, listed))
            }

            pub fn check(by: By, pages: &Pages, root: u64) {
                at_order_and_size!(by, pages, check_at(pages, root))
            }

            pub fn height(by: By, pages: &Pages, root: u64) -> u8 {
                at_order_and_size!(by, pages, height_at(pages, root))
            }

            pub fn compare_datoms(by: By, order: Order, heap: &Rc<Constants>, left: &Datom, right: &Datom) -> Ordering {
                let (by_noblit, left, right) = (memory_heap(heap), fact(left), fact(right));
                match (by, order) {
                    (By::Noblit, Order::Eavt) => Eavt.cmp(&left, &right, &*by_noblit),
                    (By::Noblit, Order::Aevt) => Aevt.cmp(&left, &right, &*by_noblit),
                    (By::Noblit, Order::Avet) => Avet.cmp(&left, &right, &*by_noblit),
                    (By::Rule, order) => ByRule { order, heap: Rc::clone(heap) }.cmp(&left, &right, &*by_noblit),
                }
            }

            pub fn append(heap: &Constants, constants: &[Constant]) -> Appended {
                let mut heap = MemoryHeap::from_vec(heap.bytes().to_vec());
                let words = constants.iter().map(|constant| match constant {
                    Constant::Integer(number) => Value::from_const_u64(heap.append_u64(*number).expect(IN_MEMORY)).0,
                    Constant::Bytes(bytes) => Value::from_const_bytes(heap.append_bytes(bytes).expect(IN_MEMORY)).0,
                }).collect();
                let mut bytes = Vec::new();
                heap.dump(&mut bytes).expect(IN_MEMORY);
                Appended { words, bytes }
            }

            pub fn longest_pending_span(children: &[u64]) -> (usize, usize) {
                let ids: Vec<PageId> = children.iter().map(|&child| PageId(child)).collect();
                let span = Node { level: 1, datoms: &[], children: &ids }.longest_pending_span();
                (span.start, span.end)
            }

            pub fn inline_integer(number: u64) -> Option<u64> {
                Value::try_from_u64_inline(number).map(|value| value.0)
            }

            pub fn inline_bytes(bytes: &[u8]) -> Option<u64> {
                Value::try_from_bytes_inline(bytes).map(|value| value.0)
            }
        }
    };
}

build_of_noblit!(plain, noblit_plain);
build_of_noblit!(patched, noblit_patched);
