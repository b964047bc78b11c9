//! A tick allocates nothing.

use twin::heap::Counting;
use twin::report::{make, pass};
use twin::workload::{CYCLE, LOADS};

#[global_allocator]
static HEAP: Counting = Counting;

#[test]
fn ticks_do_not_allocate() {
    for load in LOADS {
        let plan = load.plan(0);
        let mut engine = plan.header.engine();
        for event in &plan.events {
            pass(&mut engine, event.gap).unwrap();
            make(&mut engine, event.call).unwrap();
        }
        let before = Counting::allocations();
        pass(&mut engine, CYCLE).unwrap();
        assert_eq!(Counting::allocations(), before, "{}", load.name);
    }
}
