//! The library from an ordinary test thread, with its small stack.
use oracle::{Cell, History, Stop, VCell};

fn nest(depth: usize) -> Cell {
    (0..depth).fold(Cell::Nil, |inner, _| Cell::new_pair(inner, Cell::Nil))
}

#[test]
fn deep_data() {
    let mut history = History::new(64);
    let left = history.put(&nest(2000));
    let right = history.put(&nest(2000));
    assert_ne!(left, right);
    let (left, right) = (VCell::Ptr(left), VCell::Ptr(right));
    assert!(!history.eqv(&left, &right));
    assert_eq!(history.equal(&left, &right), Ok(true));
    assert_eq!(history.read(&left), nest(2000));
    assert_eq!(history.read_within(&left, 4001), Some(nest(2000)));
    assert_eq!(history.read_within(&left, 4000), None);
    history.collect(&[]);
    assert_eq!(history.used_count(), 0);
    history.check();
}

#[test]
fn comparisons_end() {
    let mut history = History::new(128);
    let mut tops = vec![];
    for _ in 0..2 {
        let mut below = history.put(&Cell::Nil);
        for _ in 0..40 {
            let slot = history.put(&Cell::Nil);
            history.cell_store(slot, VCell::Pair(below, below));
            below = slot;
        }
        tops.push(VCell::Ptr(below));
    }
    history.set_steps(1000);
    assert_eq!(history.equal(&tops[0], &tops[1]), Err(Stop::Steps));
    assert_eq!(history.equal(&tops[0], &tops[0]), Ok(true));
    assert_eq!(history.read_within(&tops[0], 4096), None);
}

#[test]
fn accessors() {
    let mut history = History::new(4);
    let slot = history.put(&Cell::DatumDef(0, Box::new(Cell::new_symbol("foo"))));
    assert_eq!(slot, 0);
    assert_eq!(history.symbols(), vec![("foo".to_string(), 0, 1)]);
    assert_eq!(history.free_list(), vec![2, 3]);
    assert_eq!(history.states(), vec![1, 1, 0, 0]);
    assert_eq!(history.map_bytes(), &[5]);
    assert_eq!(history.capacity(), 4);
    assert_eq!(history.cells().len(), 4);
    assert!(history.cell(0).is_symbol());
}
