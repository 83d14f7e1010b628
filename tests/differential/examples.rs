//! Document 01's examples k and l, the one of 8192-byte pages beside them, the scratch need, and the bytes of two constants, by number.

use harness::{Answer, Constant, Datom, Node, Order, Random};

use crate::library::{append, bytes_of, call, scratch_need, Beside, Call, Entry, Lent};

/// A page, its level, and which datoms it has where that is said.
type Content = (u64, u8, Option<Vec<u64>>);

struct Example {
    page_size: usize,
    /// The first batch is d(0) up to but not including the d of the first number, and is initialised. The next goes on to the second, ..
    ends: &'static [u64],
    /// The last batch's answer, and what some pages then hold.
    answer: Answer,
    pages: Vec<Content>,
}

pub fn run(random: &mut Random) -> Result<String, String> {
    let needs = [(256, 62_016), (568, 81_728), (4096, 332_352), (8192, 619_584), (0, 0), (512, 0), (8191, 0), (16384, 0)];
    for (size, need) in needs {
        if scratch_need(size) != need {
            return Err(format!("the scratch need of page size {} is {}, and must be {}", size, scratch_need(size), need));
        }
    }
    constants(random)?;
    let examples = examples();
    for example in &examples {
        // Their datoms rise in every order alike.
        for order in Order::ALL {
            let told = |fault| format!("batches up to {:?} with page size {}, {}: {}", example.ends, example.page_size, order.name(), fault);
            example.run(order, random).map_err(told)?;
        }
    }
    Ok(format!(
        "document 01's examples k and l, the one of 8192 bytes and two constants: {} as written there, in every order", examples.len() + 2,
    ))
}

/// "In example j, 2^62 then names offset 0." Behind it nine bytes: their length, themselves, and zeros to a multiple of 8.
fn constants(random: &mut Random) -> Result<(), String> {
    let mut heap = [0xaa; 40];
    let first = append(&mut heap, 0, &Constant::Integer(1 << 62), 32, random)?;
    let second = append(&mut heap, 8, &Constant::Bytes(b"abcdefghi".to_vec()), 32, random)?;
    let expected = [
        Answer { number: 0, root: 1 << 62, pages: 8, detail: 0 }, Answer { number: 0, root: (3 << 62) + 8, pages: 24, detail: 0 },
    ];
    let bytes = *b"\0\0\0\0\0\0\0\x40\x09\0\0\0\0\0\0\0abcdefghi\0\0\0\0\0\0\0\xaa\xaa\xaa\xaa\xaa\xaa\xaa\xaa";
    if [first, second] != expected || heap != bytes {
        return Err(format!("two appends: {:?} and {:?}, and the heap is {:x?}", first, second, heap));
    }
    Ok(())
}

fn examples() -> Vec<Example> {
    // Two leaves from a page on, and the page above them with the datom between.
    let parts = |page: u64, first: u64, count: u64| vec![
        (page, 0, Some((0..first).collect())), (page + 1, 0, Some((first + 1..count).collect())), (page + 2, 1, Some(vec![first])),
    ];
    let too_many = Entry::Initialise.refused(2, 0);
    vec![
        Example { page_size: 256, ends: &[128], answer: Answer::done(26, 27), pages: vec![(26, 2, None)] },
        Example { page_size: 256, ends: &[129], answer: too_many, pages: vec![] },
        Example { page_size: 568, ends: &[14], answer: Answer::done(2, 3), pages: parts(0, 7, 14) },
        Example { page_size: 4096, ends: &[103], answer: Answer::done(2, 3), pages: parts(0, 51, 103) },
        Example { page_size: 4096, ends: &[104], answer: Answer::done(2, 3), pages: parts(0, 52, 104) },
        Example { page_size: 8192, ends: &[128, 204], answer: Answer::done(1, 1), pages: vec![(1, 0, Some((0..204).collect()))] },
        Example { page_size: 8192, ends: &[128, 205], answer: Answer::done(3, 3), pages: parts(1, 102, 205) },
        Example { page_size: 8192, ends: &[128, 206], answer: Answer::done(3, 3), pages: parts(1, 103, 206) },
    ]
}

impl Example {
    fn run(&self, order: Order, random: &mut Random) -> Result<(), String> {
        let mut store = vec![0xaa; 32 * self.page_size];
        let need = scratch_need(self.page_size);
        let mut scratch = Lent::of_length(need, random);
        let (mut from, mut count, mut answer) = (0, 0, self.answer);
        for &end in self.ends {
            let batch: Vec<Datom> = (from..end).map(d).collect();
            let entry = if from == 0 { Entry::Initialise } else { Entry::Insert(answer.root) };
            let beside = Beside::no_heap(&[0x55; 16], self.page_size as u64, count, order);
            let given = Call { entry, beside, batch: &bytes_of(&batch), scratch: need, area: 32 };
            answer = call(&mut store, &given, &mut scratch, random)?;
            (from, count) = (end, count + answer.pages);
        }
        if answer != self.answer {
            return Err(format!("the answer is {:?}, and must be {:?}", answer, self.answer));
        }
        if store[count as usize * self.page_size..].iter().any(|&byte| byte != 0xaa) {
            return Err("bytes past the pages written were changed".to_string());
        }
        self.pages.iter().try_for_each(|content| self.holds(&store, content))
    }

    fn holds(&self, store: &[u8], (page, level, datoms): &Content) -> Result<(), String> {
        let at = *page as usize * self.page_size;
        let node = Node::decode(&store[at..at + self.page_size]).ok_or("a page with too many datoms")?;
        let held = datoms.as_ref().map(|ks| ks.iter().map(|&k| d(k)).collect::<Vec<Datom>>());
        if node.level != *level || held.map_or(false, |held| held != node.datoms) {
            return Err(format!("page {} is {:?}", page, node));
        }
        Ok(())
    }
}

fn d(k: u64) -> Datom {
    [k, 1, k, 3]
}
