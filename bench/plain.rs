//! (c): the same as plain.c in Rust: plain loops over the message bytes, written for speed. The checks answer as the paper says
//! and read safely; the rounds, the builder and the verdict take messages that were accepted, and check nothing; the checked verdict (g)
//! takes anything, and refuses what the library refuses.
#![no_std]

use core::slice::from_raw_parts;

#[panic_handler]
fn panic(_: &core::panic::PanicInfo) -> ! {
    loop {}
}

const INFINITE: u64 = u64::MAX;

#[inline(always)]
unsafe fn two(p: *const u8) -> u32 {
    u16::from_be((p as *const u16).read_unaligned()) as u32
}

#[inline(always)]
unsafe fn four(p: *const u8) -> u32 {
    u32::from_be((p as *const u32).read_unaligned())
}

#[inline(always)]
unsafe fn put_two(p: &mut *mut u8, v: u32) {
    (*p as *mut u16).write_unaligned((v as u16).to_be());
    *p = p.add(2);
}

#[inline(always)]
unsafe fn put_four(p: &mut *mut u8, v: u32) {
    (*p as *mut u32).write_unaligned(v.to_be());
    *p = p.add(4);
}

fn number2(s: &[u8]) -> u32 {
    u16::from_be_bytes([s[0], s[1]]) as u32
}

fn number4(s: &[u8]) -> u32 {
    u32::from_be_bytes([s[0], s[1], s[2], s[3]])
}

/// The number of the first fault of a message's start, or 0.
fn start(s: &[u8], header: usize, version: u8, kind: u8) -> u32 {
    if s.len() < header || number4(s) as usize != s.len() {
        2
    } else if s[4] != version || s[5] != kind {
        3
    } else {
        0
    }
}

fn graph_check(s: &[u8]) -> u32 {
    let fault = start(s, 14, 1, 1);
    if fault != 0 {
        return fault;
    }
    let (n, h, c) = (number2(&s[6..8]), number4(&s[8..12]), number2(&s[12..14]));
    if n < 1 || n > 4096 || h > 65535 || c > 4096 {
        return 4;
    }
    let mut rest = &s[14..];
    let (mut before, mut total) = (0, 0);
    for _ in 0..h {
        if rest.len() < 4 {
            return 2;
        }
        let (source, count) = (number2(&rest[..2]), number2(&rest[2..4]));
        rest = &rest[4..];
        if source >= n {
            return 6;
        }
        if source < before {
            return 5;
        }
        before = source;
        total += count;
        if total > 262144 {
            return 4;
        }
        let bytes = count as usize * 6;
        if rest.len() < bytes {
            return 2;
        }
        let (targets, after) = rest.split_at(bytes);
        for target in targets.chunks_exact(6) {
            if number2(&target[4..6]) >= n {
                return 6;
            }
        }
        rest = after;
    }
    before = 0;
    for _ in 0..c {
        if rest.len() < 8 {
            return 2;
        }
        let (source, target) = (number2(&rest[..2]), number2(&rest[6..8]));
        if source >= n {
            return 6;
        }
        if source < before {
            return 5;
        }
        if target >= n {
            return 6;
        }
        before = source;
        rest = &rest[8..];
    }
    if rest.is_empty() {
        0
    } else {
        2
    }
}

fn model_check(s: &[u8]) -> u32 {
    let fault = start(s, 13, 2, 2);
    if fault != 0 {
        return fault;
    }
    let (n, propositions, t) = (number2(&s[6..8]), s[8], number4(&s[9..13]));
    if n < 1 || n > 256 || propositions > 32 || t > 65535 {
        return 4;
    }
    let middle = 13 + 4 * n as usize;
    if s.len() != middle + 10 * t as usize {
        return 2;
    }
    let limit = 1u64 << propositions;
    for label in s[13..middle].chunks_exact(4) {
        if number4(label) as u64 >= limit {
            return 10;
        }
    }
    let mut before = 0;
    for transition in s[middle..].chunks_exact(10) {
        let (from, to) = (number2(&transition[..2]), number2(&transition[8..10]));
        if from >= n {
            return 6;
        }
        if from < before {
            return 5;
        }
        if to >= n {
            return 6;
        }
        before = from;
    }
    0
}

fn formula_check(s: &[u8], propositions: u32) -> u32 {
    if propositions > 32 {
        return 4;
    }
    let fault = start(s, 7, 1, 3);
    if fault != 0 {
        return fault;
    }
    let f = s[6] as usize;
    if f < 1 || f > 64 {
        return 4;
    }
    if s.len() != 7 + 8 * f {
        return 2;
    }
    let mut uses = [0u8; 64];
    for (i, row) in s[7..].chunks_exact(8).enumerate() {
        let (operator, left, right, bound) = (row[0], row[1] as usize, row[2] as usize, number4(&row[4..8]));
        if operator > 11 || row[3] != 0 {
            return 10;
        }
        match operator {
            0 | 1 => {
                if left != 0 || right != 0 || bound != 0 {
                    return 10;
                }
            }
            2 | 3 => {
                if right != 0 || bound != 0 {
                    return 10;
                }
                if left as u32 >= propositions {
                    return 6;
                }
            }
            // of 10 and 11 right is an action
            6 | 7 | 10 | 11 => {
                if operator < 10 && right != 0 {
                    return 10;
                }
                if left >= i {
                    return 6;
                }
                uses[left & 63] += 1;
            }
            _ => {
                if operator < 6 && bound != 0 {
                    return 10;
                }
                if left >= i || right >= i {
                    return 6;
                }
                uses[left & 63] += 1;
                uses[right & 63] += 1;
            }
        }
    }
    for &k in &uses[..f - 1] {
        if k != 1 {
            return 10;
        }
    }
    0
}

#[no_mangle]
pub unsafe extern "C" fn rust_graph_check(s: *const u8, length: u64) -> u32 {
    graph_check(from_raw_parts(s, length as usize))
}

#[no_mangle]
pub unsafe extern "C" fn rust_model_check(s: *const u8, length: u64) -> u32 {
    model_check(from_raw_parts(s, length as usize))
}

#[no_mangle]
pub unsafe extern "C" fn rust_formula_check(s: *const u8, length: u64, propositions: u32) -> u32 {
    formula_check(from_raw_parts(s, length as usize), propositions)
}

#[no_mangle]
pub unsafe extern "C" fn rust_rounds(s: *const u8, _length: u64, budget: u32, room: *mut u64, count: *mut u32) -> u32 {
    let (n, h, c) = (two(s.add(6)) as usize, four(s.add(8)), two(s.add(12)));
    let (mut x, mut y) = (room, room.add(n));
    for v in 0..n {
        *x.add(v) = INFINITE;
    }
    let mut i = 0;
    loop {
        for v in 0..n {
            *y.add(v) = INFINITE;
        }
        let mut p = s.add(14);
        for _ in 0..h {
            let (source, targets) = (two(p) as usize, two(p.add(2)) as usize);
            let mut worst = 0u64;
            p = p.add(4);
            let end = p.add(targets * 6);
            while p < end {
                let value = *x.add(two(p.add(4)) as usize);
                if value == INFINITE {
                    // lost
                    worst = INFINITE;
                    p = end;
                    break;
                }
                worst = worst.max(value + four(p) as u64);
                p = p.add(6);
            }
            *y.add(source) = worst.min(*y.add(source));
        }
        for _ in 0..c {
            let bound = four(p.add(2));
            let value = *x.add(two(p.add(6)) as usize);
            if if bound == u32::MAX { value != INFINITE } else { value <= bound as u64 } {
                *y.add(two(p) as usize) = 0;
            }
            p = p.add(8);
        }
        let settled = from_raw_parts(x, n) == from_raw_parts(y, n);
        if settled || i == budget {
            if x != room {
                core::ptr::swap_nonoverlapping(room, room.add(n), n);
            }
            *count = i;
            return !settled as u32;
        }
        core::mem::swap(&mut x, &mut y);
        i += 1;
    }
}

/// Where each state's transitions start.
#[inline(always)]
unsafe fn starts(model: *const u8, model_length: u64) -> [*const u8; 257] {
    let s = two(model.add(6));
    let last = model.add(model_length as usize);
    let mut t = model.add(13 + 4 * s as usize);
    let mut first = [t; 257];
    for a in 0..s {
        *first.get_unchecked_mut(a as usize) = t;
        while t < last && two(t) == a {
            t = t.add(10);
        }
    }
    *first.get_unchecked_mut(s as usize) = last;
    first
}

#[no_mangle]
pub unsafe extern "C" fn rust_build(model: *const u8, model_length: u64, formula: *const u8, _formula_length: u64, graph: *mut u8) -> u64 {
    write_graph(model, formula, &starts(model, model_length), graph)
}

unsafe fn write_graph(model: *const u8, formula: *const u8, first: &[*const u8; 257], graph: *mut u8) -> u64 {
    let (s, f) = (two(model.add(6)), *formula.add(6) as u32);
    let labels = model.add(13);
    let steps = |a: u32| (*first.get_unchecked(a as usize), *first.get_unchecked(a as usize + 1));

    let (mut u, mut h) = (0, 0);
    let mut out = graph.add(14);
    for r in 0..f {
        let row = formula.add(7 + 8 * r as usize);
        let (operator, left, right, bound) = (*row, *row.add(1) as u32, *row.add(2) as u32, four(row.add(4)));
        u += (operator == 8 || operator == 9) as u32;
        for a in 0..s {
            let node = a + s * r;
            let (mut t, end) = steps(a);
            match operator {
                0 | 2 | 3 => {
                    let bit = four(labels.add(4 * a as usize)) >> (left & 31) & 1;
                    if operator == 0 || bit != operator as u32 - 2 {
                        put_two(&mut out, node);
                        put_two(&mut out, 0);
                        h += 1;
                    }
                }
                4 => {
                    put_two(&mut out, node);
                    put_two(&mut out, 2);
                    put_four(&mut out, 0);
                    put_two(&mut out, a + s * left);
                    put_four(&mut out, 0);
                    put_two(&mut out, a + s * right);
                    h += 1;
                }
                5 => {
                    for operand in [left, right] {
                        put_two(&mut out, node);
                        put_two(&mut out, 1);
                        put_four(&mut out, 0);
                        put_two(&mut out, a + s * operand);
                        h += 1;
                    }
                }
                6 => {
                    while t < end {
                        if four(t.add(2)) <= bound {
                            put_two(&mut out, node);
                            put_two(&mut out, 1);
                            put_four(&mut out, 0);
                            put_two(&mut out, two(t.add(8)) + s * left);
                            h += 1;
                        }
                        t = t.add(10);
                    }
                }
                7 => {
                    let mut head = out;
                    let mut k = 0;
                    out = out.add(4);
                    while t < end {
                        if four(t.add(2)) <= bound {
                            put_four(&mut out, 0);
                            put_two(&mut out, two(t.add(8)) + s * left);
                            k += 1;
                        }
                        t = t.add(10);
                    }
                    put_two(&mut head, node);
                    put_two(&mut head, k);
                    h += 1;
                }
                10 => {
                    while t < end {
                        if four(t.add(2)) <= bound && two(t.add(6)) == right {
                            put_two(&mut out, node);
                            put_two(&mut out, 1);
                            put_four(&mut out, 0);
                            put_two(&mut out, two(t.add(8)) + s * left);
                            h += 1;
                        }
                        t = t.add(10);
                    }
                }
                11 => {
                    let mut head = out;
                    let mut k = 0;
                    out = out.add(4);
                    while t < end {
                        if four(t.add(2)) <= bound && two(t.add(6)) == right {
                            put_four(&mut out, 0);
                            put_two(&mut out, two(t.add(8)) + s * left);
                            k += 1;
                        }
                        t = t.add(10);
                    }
                    put_two(&mut head, node);
                    put_two(&mut head, k);
                    h += 1;
                }
                _ => {}
            }
        }
    }
    let mut helper = s * f;
    for r in 0..f {
        let row = formula.add(7 + 8 * r as usize);
        let (operator, left, right) = (*row, *row.add(1) as u32, *row.add(2) as u32);
        if operator != 8 && operator != 9 {
            continue;
        }
        for a in 0..s {
            let (mut t, end) = steps(a);
            put_two(&mut out, a + helper);
            put_two(&mut out, 1);
            put_four(&mut out, 0);
            put_two(&mut out, a + s * right);
            h += 1;
            // where nothing follows, the A helper has its first hyperedge only
            if operator == 9 && t < end {
                put_two(&mut out, a + helper);
                put_two(&mut out, 1 + (end.offset_from(t) / 10) as u32);
                put_four(&mut out, 0);
                put_two(&mut out, a + s * left);
                h += 1;
            }
            while t < end {
                if operator == 8 {
                    put_two(&mut out, a + helper);
                    put_two(&mut out, 2);
                    put_four(&mut out, 0);
                    put_two(&mut out, a + s * left);
                    h += 1;
                }
                put_four(&mut out, four(t.add(2)));
                put_two(&mut out, two(t.add(8)) + helper);
                t = t.add(10);
            }
        }
        helper += s;
    }
    helper = s * f;
    for r in 0..f {
        let row = formula.add(7 + 8 * r as usize);
        if *row == 8 || *row == 9 {
            for a in 0..s {
                put_two(&mut out, a + s * r);
                put_four(&mut out, four(row.add(4)));
                put_two(&mut out, a + helper);
            }
            helper += s;
        }
    }
    let size = out.offset_from(graph) as u64;
    out = graph;
    put_four(&mut out, size as u32);
    put_two(&mut out, 0x0101);
    put_two(&mut out, s * (f + u));
    put_four(&mut out, h);
    put_two(&mut out, s * u);
    size
}

#[no_mangle]
pub unsafe extern "C" fn rust_verdict(
    model: *const u8,
    model_length: u64,
    formula: *const u8,
    formula_length: u64,
    state: u32,
    budget: u32,
    graph: *mut u8,
    room: *mut u64,
    count: *mut u32,
    yes: *mut u32,
) -> u32 {
    let size = rust_build(model, model_length, formula, formula_length, graph);
    let number = rust_rounds(graph, size, budget, room, count);
    let root = state + two(model.add(6)) * (*formula.add(6) as u32 - 1);
    *yes = (number == 0 && *room.add(root as usize) == 0) as u32;
    number
}

/// Whether a graph passes a limit (8) or the lent memory (9); worked out before anything is written. Only an A until can have a hyperedge
/// with too many targets: 65,535 transitions and one.
unsafe fn sized(model: *const u8, formula: *const u8, first: &[*const u8; 257], bytes: u64, values: u64) -> u32 {
    let (s, f) = (two(model.add(6)) as u64, *formula.add(6) as u64);
    let labels = from_raw_parts(model.add(13), 4 * s as usize);
    let steps = from_raw_parts(first[0], 10 * four(model.add(9)) as usize);
    let (count, mut alive, mut longest) = (steps.len() as u64 / 10, 0, 0);
    for ends in first.get_unchecked(..s as usize + 1).windows(2) {
        let many = ends[1].offset_from(ends[0]) as u64 / 10;
        alive += (many != 0) as u64;
        longest = many.max(longest);
    }
    let (mut u, mut hypers, mut targets, mut most) = (0, 0, 0, 0);
    for row in from_raw_parts(formula.add(7), 8 * f as usize).chunks_exact(8) {
        let (left, right, bound) = (row[1] & 31, row[2] as u32, number4(&row[4..8]));
        let (h, t) = match row[0] {
            0 => (s, 0),
            1 => (0, 0),
            2 | 3 => {
                let own = labels.chunks_exact(4).map(|label| (number4(label) >> left & 1) as u64).sum::<u64>();
                (if row[0] == 2 { own } else { s - own }, 0)
            }
            4 => (s, 2 * s),
            5 => (2 * s, 2 * s),
            8 => {
                u += 1;
                (s + count, s + 2 * count)
            }
            9 => {
                u += 1;
                most = 1 + longest;
                (s + alive, s + alive + count)
            }
            operator => {
                let near = |step: &&[u8]| number4(&step[2..6]) <= bound;
                let asked = |step: &&[u8]| near(step) && number2(&step[6..8]) == right;
                let all = steps.chunks_exact(10);
                let own = if operator < 10 { all.filter(near).count() } else { all.filter(asked).count() } as u64;
                (if operator % 2 == 0 { own } else { s }, own)
            }
        };
        hypers += h;
        targets += t;
    }
    let nodes = s * (f + u);
    if nodes > 4096 || hypers > 65535 || targets > 262144 || most > 65535 {
        8
    } else if 14 + 4 * hypers + 6 * targets + 8 * s * u > bytes || 2 * nodes > values {
        9
    } else {
        0
    }
}

/// (g), what the library does: model, formula, state, size and rooms are checked, in this order; what was built is not.
#[no_mangle]
pub unsafe extern "C" fn rust_checked_verdict(
    model: *const u8,
    model_length: u64,
    formula: *const u8,
    formula_length: u64,
    state: u32,
    budget: u32,
    graph: *mut u8,
    bytes: u64,
    room: *mut u64,
    values: u64,
    count: *mut u32,
    yes: *mut u32,
) -> u32 {
    let fault = rust_model_check(model, model_length);
    if fault != 0 {
        return fault;
    }
    let fault = rust_formula_check(formula, formula_length, *model.add(8) as u32);
    if fault != 0 {
        return fault;
    }
    let s = two(model.add(6));
    if state >= s {
        return 6;
    }
    let first = starts(model, model_length);
    let fault = sized(model, formula, &first, bytes, values);
    if fault != 0 {
        return fault;
    }
    let size = write_graph(model, formula, &first, graph);
    let number = rust_rounds(graph, size, budget, room, count);
    let root = state + s * (*formula.add(6) as u32 - 1);
    *yes = (number == 0 && *room.add(root as usize) == 0) as u32;
    number
}
