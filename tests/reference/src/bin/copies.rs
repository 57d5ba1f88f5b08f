//! Counts what a step in place copies: the bytes that the library passes to memcpy. The linker wraps memcpy for this program (build.rs).
//! The result is the same on every machine with the same compiled library. Copies of up to 128 bytes that the compiler expands are not counted.

#[cfg(calls)]
mod counted {
    use reference::library::calls;
    use reference::random::Random;
    use reference::words::{StateWords, TreeWords};
    use std::ffi::c_void;
    use std::sync::atomic::{AtomicBool, AtomicU64, Ordering::Relaxed};

    const STEPS: u64 = 10_000;

    static COUNTING: AtomicBool = AtomicBool::new(false);
    static COPIES: AtomicU64 = AtomicU64::new(0);
    static BYTES: AtomicU64 = AtomicU64::new(0);

    extern "C" {
        fn __real_memcpy(to: *mut c_void, from: *const c_void, length: usize) -> *mut c_void;
    }

    #[no_mangle]
    unsafe extern "C" fn __wrap_memcpy(to: *mut c_void, from: *const c_void, length: usize) -> *mut c_void {
        if COUNTING.load(Relaxed) {
            COPIES.fetch_add(1, Relaxed);
            BYTES.fetch_add(length as u64, Relaxed);
        }
        __real_memcpy(to, from, length)
    }

    /// A binary tree of at most 63 domains, with the threads spread over its leaves. Same as in the bench, except for the last domain of a full tree.
    fn tree(domains: usize, threads: usize) -> TreeWords {
        let mut tree = TreeWords { domains: domains as u32, threads: threads as u32, parents: [0; 64], thresholds: [4; 64], homes: [0; 256], ticket_root: 0 };
        for domain in 1..domains {
            tree.parents[domain] = if domain == 63 { 0 } else { ((domain - 1) / 2) as u8 };
        }
        let leaves: Vec<u8> = (0..domains as u8).filter(|leaf| !tree.parents[1..domains].contains(leaf)).collect();
        for thread in 0..threads {
            tree.homes[thread] = leaves[thread % leaves.len()];
        }
        tree
    }

    pub fn print() {
        let calls = calls().expect("a library with its calls");
        println!("copies of a step in place, as the library hands them to memcpy");
        println!("domains threads  copies   bytes");
        for (domains, threads) in [(3, 4), (15, 32), (64, 256)] {
            let tree = tree(domains, threads);
            let mut state = StateWords::fresh();
            let mut random = Random::new(1);
            (COPIES.store(0, Relaxed), BYTES.store(0, Relaxed));
            for _ in 0..STEPS {
                let thread = random.below(threads) as u16;
                COUNTING.store(true, Relaxed);
                let answer = (calls.step_in_place)(&tree, &mut state, thread);
                COUNTING.store(false, Relaxed);
                assert_eq!(answer.number, 0);
            }
            println!("{domains:>7} {threads:>7} {:>7.1} {:>7.0}", COPIES.load(Relaxed) as f64 / STEPS as f64, BYTES.load(Relaxed) as f64 / STEPS as f64);
        }
    }
}

fn main() {
    #[cfg(calls)]
    counted::print();
    #[cfg(not(calls))]
    println!("no library with its calls was named");
}
