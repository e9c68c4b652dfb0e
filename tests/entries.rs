//! The history's entries as machine code: what the archive of crate bench_c exports. Shared by the tests that link it.
#![allow(dead_code)]

// A lent slice is a pointer and a length.
extern "C" {
    pub fn bench_open(s: *mut u8, sn: usize, t: *const u8, tn: usize, e: *mut u8, en: usize) -> u8;
    pub fn bench_open_with(s: *mut u8, sn: usize, t: *const u8, tn: usize, e: *mut u8, en: usize, n: u32) -> u8;
    pub fn bench_history_len(s: *const u8, sn: usize, t: *const u8, tn: usize, e: *const u8, en: usize) -> u64;
    pub fn bench_history_at(s: *const u8, sn: usize, t: *const u8, tn: usize, e: *const u8, en: usize, pos: u32) -> u64;
    pub fn bench_arrive_all(s: *mut u8, sn: usize, t: *mut u8, tn: usize, e: *mut u8, en: usize, rows: *const u8, n: usize) -> u64;
    pub fn bench_checkout(
        s: *mut u8,
        sn: usize,
        t: *const u8,
        tn: usize,
        e: *const u8,
        en: usize,
        peers: *const u64,
        pn: usize,
        counts: *const u32,
        cn: usize,
    ) -> u8;
    pub fn bench_arrive(
        s: *mut u8,
        sn: usize,
        t: *mut u8,
        tn: usize,
        e: *mut u8,
        en: usize,
        row: *const u8,
        rn: usize,
        peers: *const u64,
        pn: usize,
        counts: *const u32,
        cn: usize,
    ) -> u8;
    pub fn bench_delta(
        s: *mut u8,
        sn: usize,
        t: *const u8,
        tn: usize,
        e: *const u8,
        en: usize,
        a_peers: *const u64,
        apn: usize,
        a_counts: *const u32,
        acn: usize,
        b_peers: *const u64,
        bpn: usize,
        b_counts: *const u32,
        bcn: usize,
        kind: *mut u8,
        kn: usize,
        x: *mut u32,
        xn: usize,
        y: *mut u32,
        yn: usize,
        peer: *mut u64,
        pn: usize,
        counter: *mut u32,
        cn: usize,
        lamport: *mut u32,
        ln: usize,
    ) -> u64;
}
