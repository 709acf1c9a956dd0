//! Ours: the door to the original heap, for the program and for tests.
use crate::cell::Cell;
use crate::vm::Vm;
use crate::vm::gc::State;
use crate::vm::heap::Heap;
use crate::vm::vcell::VCell;
use std::cell::Cell as Field;
use std::collections::{HashMap, HashSet};
use std::ops::Deref;
use std::panic::{AssertUnwindSafe, catch_unwind, resume_unwind};

/// Stack lent to a call that may go deep.
pub const STACK: usize = 256 << 20;
/// How much of it a comparison may use.
pub const STACK_ROOM: usize = 240 << 20;
/// How often a comparison may look at the heap.
pub const STEPS: u64 = 20_000_000;

/// Why a comparison was given up.
#[derive(Debug, Clone, Copy, Eq, PartialEq)]
pub enum Stop {
    Steps,
    Stack,
}

/// A heap that counts how often the original comparison looks at it.
///
/// `compare.rs` reaches the heap only through `self.heap`, so this is a place
/// from which a comparison without end can be left, by unwinding, with the
/// original text untouched. It changes no answer.
pub struct Watched {
    heap: Heap,
    watching: Field<bool>,
    steps: Field<u64>,
    limit: Field<u64>,
    base: Field<usize>,
}

#[inline(never)]
fn stack_place() -> usize {
    let mark = 0u8;
    std::hint::black_box(&raw const mark) as usize
}

impl Watched {
    pub fn new(heap: Heap) -> Watched {
        Watched {
            heap,
            watching: Field::new(false),
            steps: Field::new(0),
            limit: Field::new(STEPS),
            base: Field::new(0),
        }
    }
}

impl Deref for Watched {
    type Target = Heap;

    fn deref(&self) -> &Heap {
        if self.watching.get() {
            self.steps.set(self.steps.get() + 1);
            if self.steps.get() > self.limit.get() {
                resume_unwind(Box::new(Stop::Steps));
            }
            if self.base.get().saturating_sub(stack_place()) > STACK_ROOM {
                resume_unwind(Box::new(Stop::Stack));
            }
        }
        &self.heap
    }
}

thread_local! {
    static ROOMY: Field<bool> = const { Field::new(false) };
}

struct Lent<T>(T);
// The lender waits until the borrower has ended, so only one of the two ever
// touches what is lent.
unsafe impl<T> Send for Lent<T> {}
impl<T> Lent<T> {
    fn take(self) -> T {
        self.0
    }
}

/// Run something on a thread with an ample stack, unless this is one already.
pub fn with_stack<T, F: FnOnce() -> T>(work: F) -> T {
    if ROOMY.get() {
        return work();
    }
    let work = Lent(work);
    let done = std::thread::scope(|scope| {
        std::thread::Builder::new()
            .stack_size(STACK)
            .spawn_scoped(scope, move || {
                ROOMY.set(true);
                let work = work.take();
                Lent(catch_unwind(AssertUnwindSafe(work)))
            })
            .expect("no thread")
            .join()
            .expect("no answer")
    });
    match done.take() {
        Ok(answer) => answer,
        Err(payload) => resume_unwind(payload),
    }
}

/// One heap and what is done to it.
pub struct History {
    vm: Vm,
}

impl History {
    /// A fresh heap of one chunk.
    pub fn new(chunk: usize) -> History {
        History { vm: Vm::new(chunk) }
    }

    /// The most times one comparison may look at the heap.
    pub fn set_steps(&mut self, steps: u64) {
        self.vm.heap.limit.set(steps);
    }

    fn heap(&self) -> &Heap {
        &self.vm.heap.heap
    }

    /// Put a datum; the answer is its slot.
    pub fn put(&mut self, datum: &Cell) -> usize {
        let heap = &mut self.vm.heap.heap;
        with_stack(|| match heap.put_cell(datum) {
            VCell::Ptr(slot) => slot,
            other => panic!("put answered {:?}", other),
        })
    }

    /// Write a scalar or a pair into a slot in use that holds no symbol.
    pub fn cell_store(&mut self, slot: usize, value: VCell) {
        self.must_be_used(slot);
        match &value {
            VCell::Pair(car, cdr) => {
                self.must_be_used(*car);
                self.must_be_used(*cdr);
            }
            other => assert!(is_scalar(other), "cell store of {:?}", other),
        }
        let cell = self.vm.heap.heap.get_at_index_mut(slot);
        assert!(!cell.is_symbol(), "cell store into a symbol, slot {}", slot);
        *cell = value;
    }

    /// Write a scalar or a slot into an element of a vector.
    pub fn element_store(&mut self, slot: usize, index: usize, value: VCell) {
        self.must_be_used(slot);
        self.must_be_value(&value);
        let vector = self.heap().get_at_index(slot).as_vector().expect("vector");
        assert!(index < vector.len(), "no element {}", index);
        vector.put(index, value);
    }

    /// Keep what the roots reach, free the rest.
    pub fn collect(&mut self, roots: &[usize]) {
        roots.iter().for_each(|it| self.must_be_used(*it));
        let heap = &mut self.vm.heap.heap;
        with_stack(|| {
            roots.iter().for_each(|it| heap.mark(*it));
            heap.sweep();
        })
    }

    /// Read a value back. Sharing is written out in full, so a small heap can
    /// ask for more memory than there is: see `read_within`.
    pub fn read(&self, value: &VCell) -> Cell {
        self.must_be_value(value);
        with_stack(|| self.heap().get_as_cell(value))
    }

    /// Read a value back if that makes no more than so many nodes.
    pub fn read_within(&self, value: &VCell, nodes: usize) -> Option<Cell> {
        self.must_be_value(value);
        with_stack(|| {
            let count = self.count_nodes(value, nodes)?;
            let cell = self.heap().get_as_cell(value);
            assert_eq!(count, node_count(&cell), "our count of nodes is wrong");
            Some(cell)
        })
    }

    pub fn eqv(&self, left: &VCell, right: &VCell) -> bool {
        self.must_be_value(left);
        self.must_be_value(right);
        self.vm.eqv(left, right).expect("eqv")
    }

    /// The original's `equal`, or why it was given up.
    pub fn equal(&self, left: &VCell, right: &VCell) -> Result<bool, Stop> {
        self.must_be_value(left);
        self.must_be_value(right);
        with_stack(|| {
            let watched = &self.vm.heap;
            watched.steps.set(0);
            watched.base.set(stack_place());
            watched.watching.set(true);
            let answer = catch_unwind(AssertUnwindSafe(|| self.vm.equal(left, right)));
            watched.watching.set(false);
            match answer {
                Ok(answer) => Ok(answer.expect("equal")),
                Err(payload) => match payload.downcast::<Stop>() {
                    Ok(stop) => Err(*stop),
                    Err(payload) => resume_unwind(payload),
                },
            }
        })
    }

    pub fn capacity(&self) -> usize {
        self.heap().capacity()
    }

    pub fn free_count(&self) -> usize {
        self.heap().free_size()
    }

    pub fn used_count(&self) -> usize {
        self.heap().used_size()
    }

    /// The free list, next slot first.
    pub fn free_list(&self) -> Vec<usize> {
        self.heap().look_free_list().iter().rev().copied().collect()
    }

    /// The state of each slot: Free 0, Allocated 1, Used 2.
    pub fn states(&self) -> Vec<u8> {
        let map = self.heap().look_map();
        (0..self.capacity())
            .map(|it| map.get(it).expect("state").bits())
            .collect()
    }

    /// The bytes of the state map.
    pub fn map_bytes(&self) -> &[u8] {
        self.heap().look_map().bytes()
    }

    pub fn cells(&self) -> &[VCell] {
        self.heap().look_cells()
    }

    pub fn cell(&self, slot: usize) -> &VCell {
        self.heap().get_at_index(slot)
    }

    pub fn is_used(&self, slot: usize) -> bool {
        slot < self.capacity() && self.heap().look_map().get(slot) != Some(State::Free)
    }

    /// The slots in use, rising.
    pub fn used(&self) -> Vec<usize> {
        (0..self.capacity())
            .filter(|it| self.is_used(*it))
            .collect()
    }

    /// The symbol table by slot: name, scope, slot.
    pub fn symbols(&self) -> Vec<(String, u32, usize)> {
        let mut all: Vec<_> = self
            .heap()
            .look_symbols()
            .iter()
            .map(|((name, scope), slot)| (name.clone(), *scope, *slot))
            .collect();
        all.sort_by(|a, b| (a.2, a.1, &a.0).cmp(&(b.2, b.1, &b.0)));
        all
    }

    /// Panic unless the heap keeps what the rules say of every heap.
    pub fn check(&self) {
        let states = self.states();
        let free = self.free_list();
        assert!(states.iter().all(|it| *it < 2), "a state is Used");
        let ones: u32 = self
            .map_bytes()
            .iter()
            .map(|it| (it & 0x55).count_ones())
            .sum();
        assert_eq!(ones as usize, self.used_count(), "used counts differ");
        assert_eq!(free.iter().collect::<HashSet<_>>().len(), free.len());
        for slot in &free {
            assert_eq!(states[*slot], 0, "slot {} is on the list and in use", slot);
            assert_eq!(*self.cell(*slot), VCell::Undefined);
        }
        for slot in self.used() {
            match self.cell(slot) {
                VCell::Pair(car, cdr) => {
                    self.must_be_used(*car);
                    self.must_be_used(*cdr);
                }
                VCell::Vector(vector) => {
                    (0..vector.len()).for_each(|it| self.must_be_value(&vector.get(it).unwrap()))
                }
                VCell::Symbol(_) | VCell::String(_) => {}
                other => assert!(is_scalar(other), "slot {} holds {:?}", slot, other),
            }
        }
        let symbols = self.symbols();
        for (name, _, slot) in &symbols {
            self.must_be_used(*slot);
            assert_eq!(self.cell(*slot).as_symbol().expect("symbol"), name);
        }
        assert!(symbols.windows(2).all(|it| it[0].2 != it[1].2));
    }

    fn must_be_used(&self, slot: usize) {
        assert!(self.is_used(slot), "slot {} is not in use", slot);
    }

    fn must_be_value(&self, value: &VCell) {
        match value {
            VCell::Ptr(slot) => self.must_be_used(*slot),
            other => assert!(is_scalar(other), "no value: {:?}", other),
        }
    }

    /// How many nodes reading would make; None past the limit. Only a guard:
    /// the original does the reading, and `read_within` holds the two together.
    fn count_nodes(&self, value: &VCell, limit: usize) -> Option<usize> {
        let mut path = HashSet::new();
        let mut seen = HashSet::new();
        let mut labels = HashMap::new();
        self.find_labels(value, &mut path, &mut seen, &mut labels);
        let mut left = limit;
        let mut begun = HashSet::new();
        self.spend_nodes(value, &labels, &mut begun, &mut left)?;
        Some(limit - left)
    }

    fn children(&self, value: &VCell) -> Option<Vec<VCell>> {
        let cell = match value {
            VCell::Ptr(slot) => self.cell(*slot),
            other => other,
        };
        match cell {
            VCell::Pair(car, cdr) => Some(vec![VCell::Ptr(*car), VCell::Ptr(*cdr)]),
            VCell::Vector(v) => Some((0..v.len()).map(|it| v.get(it).unwrap()).collect()),
            _ => None,
        }
    }

    fn find_labels(
        &self,
        value: &VCell,
        path: &mut HashSet<usize>,
        seen: &mut HashSet<usize>,
        labels: &mut HashMap<usize, usize>,
    ) {
        let (Ok(slot), Some(children)) = (value.as_ptr(), self.children(value)) else {
            return;
        };
        if path.contains(&slot) {
            let next = labels.len();
            labels.entry(slot).or_insert(next);
        } else if seen.insert(slot) {
            path.insert(slot);
            for child in children {
                self.find_labels(&child, path, seen, labels);
            }
            path.remove(&slot);
        }
    }

    fn spend_nodes(
        &self,
        value: &VCell,
        labels: &HashMap<usize, usize>,
        begun: &mut HashSet<usize>,
        left: &mut usize,
    ) -> Option<()> {
        *left = left.checked_sub(1)?;
        if let VCell::Ptr(slot) = value
            && labels.contains_key(slot)
        {
            if !begun.insert(*slot) {
                return Some(());
            }
            *left = left.checked_sub(1)?;
        }
        for child in self.children(value).unwrap_or_default() {
            self.spend_nodes(&child, labels, begun, left)?;
        }
        Some(())
    }
}

pub fn is_scalar(cell: &VCell) -> bool {
    matches!(
        cell,
        VCell::Bool(_)
            | VCell::Char(_)
            | VCell::Nil
            | VCell::Number(_)
            | VCell::Eof
            | VCell::Undefined
            | VCell::Void
    )
}

/// The nodes of a datum; a definition and a reference are each one.
pub fn node_count(cell: &Cell) -> usize {
    let mut todo = vec![cell];
    let mut count = 0;
    while let Some(cell) = todo.pop() {
        count += 1;
        match cell {
            Cell::Pair(car, cdr) => todo.extend([car.as_ref(), cdr.as_ref()]),
            Cell::Vector(all) => todo.extend(all.iter()),
            Cell::DatumDef(_, inner) => todo.push(inner),
            _ => {}
        }
    }
    count
}

/// The distinct labels of a datum, in references too.
pub fn label_count(cell: &Cell) -> usize {
    let mut todo = vec![cell];
    let mut labels = HashSet::new();
    while let Some(cell) = todo.pop() {
        match cell {
            Cell::Pair(car, cdr) => todo.extend([car.as_ref(), cdr.as_ref()]),
            Cell::Vector(all) => todo.extend(all.iter()),
            Cell::DatumDef(label, inner) => {
                labels.insert(*label);
                todo.push(inner);
            }
            Cell::DatumRef(label) => {
                labels.insert(*label);
            }
            _ => {}
        }
    }
    labels.len()
}
