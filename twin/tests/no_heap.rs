//! A call needs no heap.

use std::alloc::{GlobalAlloc, Layout, System};
use std::cell::Cell;

use twin::{Call, Keeper};

struct Counting;

thread_local! {
    static ASKED: Cell<u64> = const { Cell::new(0) };
}

// SAFETY: every request goes to the system's allocator as it came.
unsafe impl GlobalAlloc for Counting {
    unsafe fn alloc(&self, layout: Layout) -> *mut u8 {
        ASKED.with(|asked| asked.set(asked.get() + 1));
        System.alloc(layout)
    }

    unsafe fn dealloc(&self, pointer: *mut u8, layout: Layout) {
        System.dealloc(pointer, layout)
    }
}

#[global_allocator]
static COUNTING: Counting = Counting;

#[test]
fn no_call_asks_for_heap() {
    let mut keeper = Keeper::fresh();
    let before = ASKED.with(Cell::get);
    for round in 0..100 {
        let (first, item) = (keeper.txns[0] + 1, round % 64);
        let (second, query, third, fourth) = (first + 1, first + 2, first + 3, first + 4);
        let (fifth, value) = (first + 5, round);
        let read = |number| Call::Read { number, item };
        let write = |number| Call::Write {
            number,
            item,
            value,
        };
        let calls = [
            Call::Update,
            Call::Update,
            Call::Query,
            read(first),
            read(second),
            write(first),
            write(second),
            Call::Abort { number: second },
            write(first),
            Call::Commit { number: first },
            read(query),
            Call::Commit { number: query },
            Call::Update,
            Call::Update,
            write(third),
            Call::Settle { number: third },
            Call::Settle { number: fourth },
            read(fourth),
            write(fourth),
            Call::Commit { number: third },
            Call::Abort { number: fourth },
            Call::Update,
            read(fifth),
            Call::Commit { number: fifth },
        ];
        let codes = [
            0, 0, 0, 0, 0, 1, 2, 0, 0, 0, 0, 0, 0, 0, 0, 0, 0, 1, 12, 0, 0, 0, 0, 0,
        ];
        for (call, code) in calls.into_iter().zip(codes) {
            assert_eq!(keeper.call(call).code, code);
        }
    }
    let number = keeper.call(Call::Update).number;
    for item in 0..33 {
        let write = Call::Write {
            number,
            item,
            value: item,
        };
        assert_eq!(keeper.call(write).code, if item < 32 { 0 } else { 11 });
    }
    keeper.txns[1] = u64::MAX;
    assert_eq!(keeper.call(Call::Query).code, 10);
    assert_eq!(ASKED.with(Cell::get), before);
}
