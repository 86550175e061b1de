// Times the damage pass over four columns beside the same pass over an array of rows, over no version and over 1,000: nanoseconds a pass,
// three times each. docs/DECISIONS.md says what it is for.
//     rustc -O -C target-cpu=x86-64-v2 -o target/columns bench/columns.rs
use std::hint::black_box;
use std::time::Instant;
#[derive(Clone, Copy)]
struct Cols {
    items: [u32; 1024],
    stamps: [u32; 1024],
    values: [u32; 1024],
    marks: [u32; 1024],
    count: usize,
}
#[derive(Clone, Copy)]
struct Row {
    item: u32,
    stamp: u32,
    value: u32,
    mark: u32,
}
#[derive(Clone, Copy)]
struct Rows {
    rows: [Row; 1024],
    count: usize,
}
fn row_bad(w: u32, j: u32, x: u32, k: u32, m: u32, last: u32) -> u32 {
    ((63 < x) | (k == 0) | (last < k) | (last < m) | (x < w) | ((x == w) & (k <= j))) as u32
}
#[inline(never)]
fn cols_sound(c: &Cols, last: u32) -> bool {
    let mut bad = 0;
    let (mut w, mut j) = (0, 0);
    for i in 0..c.count {
        bad |= row_bad(w, j, c.items[i], c.stamps[i], c.marks[i], last);
        w = c.items[i];
        j = c.stamps[i];
    }
    for a in [&c.items, &c.stamps, &c.values, &c.marks] {
        for i in c.count..1024 {
            bad |= a[i];
        }
    }
    bad == 0
}
#[inline(never)]
fn rows_sound(c: &Rows, last: u32) -> bool {
    let mut bad = 0;
    let (mut w, mut j) = (0, 0);
    for r in &c.rows[..c.count] {
        bad |= row_bad(w, j, r.item, r.stamp, r.mark, last);
        w = r.item;
        j = r.stamp;
    }
    for r in &c.rows[c.count..] {
        bad |= r.item | r.stamp | r.value | r.mark;
    }
    bad == 0
}
fn main() {
    for count in [0usize, 1000] {
        let mut c = Cols {
            items: [0; 1024],
            stamps: [0; 1024],
            values: [0; 1024],
            marks: [0; 1024],
            count,
        };
        let mut r = Rows {
            rows: [Row {
                item: 0,
                stamp: 0,
                value: 0,
                mark: 0,
            }; 1024],
            count,
        };
        for i in 0..count {
            let x = (i / 16) as u32;
            let k = (i % 16) as u32 + 1;
            c.items[i] = x;
            c.stamps[i] = k;
            c.values[i] = 5;
            r.rows[i] = Row {
                item: x,
                stamp: k,
                value: 5,
                mark: 0,
            };
        }
        for _ in 0..3 {
            let n = 200000;
            let t = Instant::now();
            let mut s = 0;
            for _ in 0..n {
                s += cols_sound(black_box(&c), black_box(20)) as u32;
            }
            let a = t.elapsed().as_nanos() as f64 / n as f64;
            let t = Instant::now();
            let mut u = 0;
            for _ in 0..n {
                u += rows_sound(black_box(&r), black_box(20)) as u32;
            }
            let b = t.elapsed().as_nanos() as f64 / n as f64;
            println!("{count}: columns {a:.0} ns, rows {b:.0} ns {s} {u}");
        }
    }
}
