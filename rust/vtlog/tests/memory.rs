//! The lists of the program if memory is refused: a list without an argument would ask for
//! something else.

#[allow(dead_code)]
#[path = "../../vte/tests/support/allocator.rs"]
mod allocator;
#[allow(dead_code, unused_imports, unused_macros)]
#[path = "../src/prelude.rs"]
mod prelude;

use allocator::refused;
use prelude::{Global, Items};

#[test]
fn a_list_has_all_words_or_is_refused() {
    let words: Vec<usize> = (0..100).collect();
    let all = || Items(words.iter());
    let collect = |first| all().skip(first).map(|it| *it).collect(Global);
    for first in 0..100 {
        assert_eq!(*collect(first).unwrap(), words[first..]);
        assert!(refused(|| collect(first)).is_err());
    }
    // an empty one doesn't allocate
    assert!(refused(|| collect(100)).unwrap().is_empty());
}
