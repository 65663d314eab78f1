//! The clock, the lines that say what is measured, and the numbers from which values follow.
#[repr(C)]
struct Timespec {
    secs: i64,
    nanos: i64,
}

unsafe extern "C" {
    fn clock_gettime(clock: i32, time: *mut Timespec) -> i32;
}

const PROCESS_CPU_TIME: i32 = 2;

/// Returns the processor time, of user and system, that the process has used, in nanoseconds.
pub fn now() -> u64 {
    let mut time = Timespec { secs: 0, nanos: 0 };
    // SAFETY: the C library writes the time alone.
    assert_eq!(unsafe { clock_gettime(PROCESS_CPU_TIME, &mut time) }, 0);
    time.secs as u64 * 1_000_000_000 + time.nanos as u64
}

/// Calls `measure` with each line of standard input: what is measured, with how many values, and how often.
pub fn each_line(measure: impl Fn(&str, u64, u64)) {
    for line in std::io::stdin().lines() {
        let line = line.expect("a line");
        let words: Vec<&str> = line.split(' ').collect();
        let [what, many, times] = words[..] else {
            panic!("not what, how many and how often: {line}");
        };
        measure(
            what,
            many.parse().expect("a number"),
            times.parse().expect("a number"),
        );
    }
}

/// Returns a number that is different for each `i`.
pub fn mixed(i: u64) -> u64 {
    let x = i.wrapping_add(0x9e37_79b9_7f4a_7c15);
    let y = (x ^ (x >> 30)).wrapping_mul(0xbf58_476d_1ce4_e5b9);
    let z = (y ^ (y >> 27)).wrapping_mul(0x94d0_49bb_1331_11eb);
    z ^ (z >> 31)
}

/// How many different words there are, at most.
pub const WORDS: u64 = 50_000;

/// Returns the number of a word of a text, in which a few come often, and many seldom.
pub fn word(i: u64) -> u64 {
    let draw = mixed(i);
    let least = 1u64 << (draw >> 60);
    (least + draw % least) % WORDS
}
