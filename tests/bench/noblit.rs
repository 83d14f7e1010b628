//! The Rust, patched so that it keeps every datom, over the same memory.

use std::io;
use std::marker::PhantomData;
use std::ops::{Deref, DerefMut};

use noblit_patched::datom::{Aid, Datom as Fact, Eid, Operation, Tid, Value};
use noblit_patched::heap::{HeapMut, SizedHeap};
use noblit_patched::htree::HTree;
use noblit_patched::index::{Aevt, Avet, DatomOrd, Eavt};
use noblit_patched::memory_store::MemoryHeap;
use noblit_patched::store::{PageId, PageSize, PageSize4096, Store, StoreMut};

use crate::feed::{Datom, Order};
use crate::slab::Slab;

include!("../oracle/harness/page_size_8192.rs");

/// Calls a method below with a comparator, and with the page size as a type.
macro_rules! at_size {
    ($self:ident.$operation:ident($($argument:expr),*)) => {
        match $self.slab.page_size {
            4096 => $self.$operation::<_, PageSize4096>($($argument),*),
            8192 => $self.$operation::<_, PageSize8192>($($argument),*),
            size => panic!("no page size {} here", size),
        }
    };
}

/// Calls a method below with noblit's own comparator and the page size as types.
macro_rules! at_order_and_size {
    ($self:ident.$operation:ident($($argument:expr),*)) => {
        match $self.order {
            Order::Eavt => at_size!($self.$operation(Eavt $(, $argument)*)),
            Order::Aevt => at_size!($self.$operation(Aevt $(, $argument)*)),
            Order::Avet => at_size!($self.$operation(Avet $(, $argument)*)),
        }
    };
}

struct Lent<S, Size>(S, PhantomData<Size>);

impl<S: Deref<Target = Slab>, Size: PageSize> Store for Lent<S, Size> {
    type Size = Size;

    fn get(&self, page: PageId) -> &[u8] {
        self.0.page(page.0)
    }

    fn dump(&self, out: &mut dyn io::Write) -> io::Result<()> {
        out.write_all(self.0.bytes())
    }
}

impl<S: DerefMut<Target = Slab>, Size: PageSize> StoreMut for Lent<S, Size> {
    fn write_page(&mut self, page: &[u8]) -> io::Result<PageId> {
        Ok(PageId(self.0.append(page)))
    }
}

pub fn fact(datom: &Datom) -> Fact {
    Fact::new(Eid(datom[0]), Aid(datom[1]), Value(datom[2]), Tid(datom[3] & !1), Operation::Assert)
}

pub struct Noblit {
    pub slab: Slab,
    pub root: u64,
    pub order: Order,
    pub heap: MemoryHeap,
}

impl Noblit {
    pub fn insert(&mut self, batch: &[Fact]) {
        at_order_and_size!(self.insert_at(batch))
    }

    pub fn list(&self) -> (u64, u64) {
        at_order_and_size!(self.list_at())
    }

    pub fn check(&self) {
        at_order_and_size!(self.check_at())
    }

    fn insert_at<Cmp: DatomOrd, Size: PageSize>(&mut self, order: Cmp, batch: &[Fact]) {
        let mut tree = HTree::new(PageId(self.root), order, Lent::<_, Size>(&mut self.slab, PhantomData), &self.heap);
        self.root = tree.insert(batch).expect("a store in memory").0;
    }

    fn list_at<Cmp: DatomOrd, Size: PageSize>(&self, order: Cmp) -> (u64, u64) {
        let store = Lent::<_, Size>(&self.slab, PhantomData);
        let (lower, upper) = (Fact::new(Eid(0), Aid(0), Value(0), Tid(0), Operation::Retract), Fact::new(
            Eid(u64::MAX), Aid(u64::MAX), Value(u64::MAX), Tid(u64::MAX - 1), Operation::Assert,
        ));
        let tree = HTree::new(PageId(self.root), order, &store, &self.heap);
        let (mut listed, mut sum) = (0, 0u64);
        for found in tree.into_iter(&lower, &upper) {
            listed += 1;
            sum = sum.wrapping_add(found.entity.0);
        }
        (listed, sum)
    }

    fn check_at<Cmp: DatomOrd, Size: PageSize>(&self, order: Cmp) {
        let store = Lent::<_, Size>(&self.slab, PhantomData);
        HTree::new(PageId(self.root), order, store, &self.heap).check_invariants().expect("a store in memory");
    }
}

/// Texts one behind the other on a heap that begins empty and has room for them: its bytes in use afterwards.
pub fn append(heap: &mut MemoryHeap, texts: &[Vec<u8>]) -> usize {
    for text in texts {
        heap.append_bytes(text).expect("a heap in memory");
    }
    heap.len() as usize
}

pub fn bytes_of(heap: &MemoryHeap) -> Vec<u8> {
    let mut bytes = Vec::new();
    heap.dump(&mut bytes).expect("a heap in memory");
    bytes
}
