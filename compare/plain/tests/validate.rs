//! Reading a layout without a tree refuses what reading it into one refuses, with the same number.

use plain::form;
use plain::generate;
use plain::random::Random;
use plain::validate;

/// The layouts of generated cases, whole, cut off, and with a byte changed.
#[test]
fn agrees_with_the_tree() {
    let mut random = Random::new(1);
    let mut refused = 0;
    for _ in 0..20_000 {
        let mut layout = generate::marked_case(&mut random).incoming;
        let at = random.below(layout.len() as u64) as usize;
        match random.below(3) {
            0 => layout.truncate(at),
            1 => layout[at] = random.next() as u8,
            _ => (),
        }
        let read = form::read_layout(&layout).map(drop);
        assert_eq!(validate::layout(&layout), read, "{layout:?}");
        refused += u32::from(read.is_err());
    }
    assert!(refused > 5_000);
}
