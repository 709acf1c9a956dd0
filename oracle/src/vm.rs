//! The original modules in their place, and a cut-down `Vm` around them.

#[allow(warnings)]
pub mod compare {
    include!(concat!(env!("MARWOOD"), "/vm/compare.rs"));
}

#[allow(warnings)]
pub mod continuation {
    include!(concat!(env!("MARWOOD"), "/vm/continuation.rs"));
}

#[allow(warnings)]
pub mod environment {
    include!(concat!(env!("MARWOOD"), "/vm/environment.rs"));
}

#[allow(warnings)]
pub mod gc {
    include!(concat!(env!("MARWOOD"), "/vm/gc.rs"));

    // Ours: a look at the private bytes.
    impl Map {
        pub fn bytes(&self) -> &[u8] {
            &self.map
        }
    }
}

#[allow(warnings)]
pub mod heap {
    include!(concat!(env!("MARWOOD"), "/vm/heap.rs"));

    // Ours: a look at the private fields. Nothing here changes a heap.
    impl Heap {
        pub fn look_free_list(&self) -> &[usize] {
            &self.free_list
        }

        pub fn look_cells(&self) -> &[VCell] {
            &self.heap
        }

        pub fn look_map(&self) -> &gc::Map {
            &self.heap_map
        }

        pub fn look_symbols(&self) -> &HashMap<(String, u32), usize> {
            &self.symbol_table
        }
    }
}

#[allow(warnings)]
pub mod lambda {
    include!(concat!(env!("MARWOOD"), "/vm/lambda.rs"));
}

#[allow(warnings)]
pub mod stack {
    include!(concat!(env!("MARWOOD"), "/vm/stack.rs"));
}

#[allow(warnings)]
pub mod vcell {
    include!(concat!(env!("MARWOOD"), "/vm/vcell.rs"));
}

#[allow(warnings)]
pub mod vector {
    include!(concat!(env!("MARWOOD"), "/vm/vector.rs"));
}

/// Ours: there is no bytecode here, so no operation either.
pub mod opcode {
    #[derive(Debug, Clone, Eq, PartialEq)]
    pub enum OpCode {}
}

/// Ours: there are no macros here.
pub mod transform {
    #[derive(Debug, Clone, Eq, PartialEq)]
    pub enum Transform {}
}

/// Ours: the fields that `compare.rs` and `continuation.rs` name.
pub struct Vm {
    pub heap: crate::history::Watched,
    pub(crate) stack: stack::Stack,
    pub(crate) ep: usize,
    pub(crate) ip: (usize, usize),
    pub(crate) bp: usize,
    pub(crate) acc: vcell::VCell,
}

impl Vm {
    pub fn new(chunk: usize) -> Vm {
        Vm {
            heap: crate::history::Watched::new(heap::Heap::new(chunk)),
            stack: stack::Stack::new(),
            ep: 0,
            ip: (0, 0),
            bp: 0,
            acc: vcell::VCell::Undefined,
        }
    }
}
