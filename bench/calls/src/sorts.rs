//! Sorts of the indices of paths.
use crate::corpora::Corpus;
use crate::random::Random;
use crate::rows::{path, std_path};
use crate::timing::{Measure, Timer};
use std::cmp::Ordering;

/// Sorts the indices. Returns a digest of the new order.
fn sorted(order: &[usize], by: impl Fn(usize, usize) -> Ordering) -> u64 {
    let mut order = order.to_vec();
    order.sort_by(|a, b| by(*a, *b));
    order
        .iter()
        .fold(0, |sum: u64, place| sum.rotate_left(7) ^ *place as u64)
}

/// Returns the ratio of a sort of each slice of the corpus, by our comparison and by std's.
pub fn of_paths(corpus: &Corpus, timer: &Timer) -> Measure {
    let mut random = Random(5);
    let mut orders: Vec<Vec<usize>> = corpus.slices().into_iter().map(Iterator::collect).collect();
    for order in &mut orders {
        random.shuffle(order);
    }
    let paths = &corpus.paths;
    timer.compare(
        orders.len(),
        &|slice| sorted(&orders[slice], |a, b| path(&paths[a]).cmp(path(&paths[b]))),
        &|slice| {
            sorted(&orders[slice], |a, b| {
                std_path(&paths[a]).cmp(std_path(&paths[b]))
            })
        },
    )
}

/// Returns the ratios of a sort of keys, which are made before, and of a sort of paths: in order,
/// and shuffled.
pub fn of_keys(corpus: &Corpus, timer: &Timer) -> [Measure; 2] {
    let paths = &corpus.paths;
    let keys: Vec<Vec<u8>> = paths.iter().map(|it| path(it).key()).collect();
    let in_order: Vec<usize> = (0..keys.len()).collect();
    let mut shuffled = in_order.clone();
    Random(9).shuffle(&mut shuffled);
    [in_order, shuffled].map(|order| {
        timer.compare(
            1,
            &|_| sorted(&order, |a, b| keys[a].cmp(&keys[b])),
            &|_| sorted(&order, |a, b| std_path(&paths[a]).cmp(std_path(&paths[b]))),
        )
    })
}
