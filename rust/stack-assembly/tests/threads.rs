//! One script's tables can serve evaluations in many threads, and an evaluation can go to another thread.

use stack_assembly::boundary::{Lent, Tables};
use stack_assembly::{Eval, Script};

#[test]
fn all_can_be_sent_and_shared() {
    fn can_be_both<T: Send + Sync>() {}
    can_be_both::<Tables>();
    can_be_both::<Lent>();
    can_be_both::<Script>();
    can_be_both::<Eval>();
}
