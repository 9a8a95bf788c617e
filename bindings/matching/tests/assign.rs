//! The linked library against a search through all assignments, on made inputs, valid and damaged.
//! Expected answers come from document 01, step 5 and number 24, written here a second time.

use matching::{assign, Answer};

/// Made numbers: xorshift with a fixed start, so that each run is the same.
struct Made(u64);

impl Made {
    fn next(&mut self) -> u64 {
        self.0 ^= self.0 << 13;
        self.0 ^= self.0 >> 7;
        self.0 ^= self.0 << 17;
        self.0
    }

    fn below(&mut self, n: usize) -> usize {
        (self.next() % n as u64) as usize
    }

    /// A byte of an input: 1 in so many of 16.
    fn allowed(&mut self, of_16: usize) -> u8 {
        (self.below(16) < of_16) as u8
    }

    fn bytes(&mut self, n: usize, of_16: usize) -> Vec<u8> {
        (0..n).map(|_| self.allowed(of_16)).collect()
    }
}

/// Number 24.
fn is_refused(p: usize, y: usize, allowed: &[u8], buffer: usize) -> bool {
    p > 255
        || !(1..=32).contains(&y)
        || allowed.len() != p * y
        || allowed.iter().any(|b| *b > 1)
        || buffer < p
}

/// Whether some assignment exists of the parts from `part` on, `taken` being the yards of those before: tries all.
fn exists(p: usize, y: usize, allowed: &[u8], part: usize, taken: u64) -> bool {
    part == p
        || (0..y).any(|yard| {
            allowed[part * y + yard] == 1
                && taken >> yard & 1 == 0
                && exists(p, y, allowed, part + 1, taken | 1 << yard)
        })
}

fn check_assignment(p: usize, y: usize, allowed: &[u8], yards: &[u8]) {
    for part in 0..p {
        let yard = yards[part] as usize;
        assert!(yard < y, "part {part} has yard {yard} of {y}");
        assert_eq!(
            allowed[part * y + yard],
            1,
            "part {part} may not have yard {yard}"
        );
        assert!(
            !yards[..part].contains(&yards[part]),
            "yard {yard} stands twice"
        );
    }
}

fn check_deficient(p: usize, y: usize, allowed: &[u8], marks: &[u8]) {
    assert!(marks.iter().all(|m| *m < 2), "a mark is neither 0 nor 1");
    let parts = marks.iter().filter(|m| **m == 1).count();
    let yards = (0..y)
        .filter(|yard| (0..p).any(|part| marks[part] == 1 && allowed[part * y + yard] == 1))
        .count();
    assert!(yards < parts, "{parts} parts have {yards} yards");
}

/// Calls the library with the buffer inside a larger one, and checks the answer and every byte.
fn run(made: &mut Made, p: usize, y: usize, allowed: &[u8], room: usize) -> Answer {
    const GUARD: usize = 40;
    let before: Vec<u8> = (0..room + 2 * GUARD).map(|_| made.next() as u8).collect();
    let mut after = before.clone();
    let answer = assign(p, y, allowed, &mut after[GUARD..GUARD + room]);
    let written = if answer == Answer::Refused { 0 } else { p };
    assert_eq!(after[..GUARD], before[..GUARD], "bytes before the buffer");
    assert_eq!(
        after[GUARD + written..],
        before[GUARD + written..],
        "bytes past the first {written}"
    );
    assert_eq!(
        answer == Answer::Refused,
        is_refused(p, y, allowed, room),
        "p {p} y {y} room {room}"
    );
    match answer {
        Answer::Assigned => check_assignment(p, y, allowed, &after[GUARD..GUARD + p]),
        Answer::Deficient => check_deficient(p, y, allowed, &after[GUARD..GUARD + p]),
        Answer::Refused => {}
    }
    answer
}

#[test]
fn agrees_with_all_assignments() {
    let mut made = Made(0x9e37_79b9_7f4a_7c15);
    let mut seen = [0; 2];
    for _ in 0..30_000 {
        let p = made.below(8);
        let y = 1 + made.below(7);
        let of_16 = made.below(17);
        let allowed = made.bytes(p * y, of_16);
        let room = p + made.below(4);
        let answer = run(&mut made, p, y, &allowed, room);
        let expected = exists(p, y, &allowed, 0, 0);
        assert_eq!(
            answer == Answer::Assigned,
            expected,
            "p {p} y {y} {allowed:?}"
        );
        seen[expected as usize] += 1;
    }
    assert!(seen[0] > 5_000 && seen[1] > 5_000, "one-sided: {seen:?}");
}

#[test]
fn refuses_damaged_inputs_and_no_others() {
    let mut made = Made(0x2545_f491_4f6c_dd1d);
    let mut refused = 0;
    let total = 20_000;
    for _ in 0..total {
        let mut p = made.below(12);
        let mut y = 1 + made.below(9);
        let mut allowed = made.bytes(p * y, 8);
        let mut room = p + made.below(3);
        for _ in 0..1 + made.below(2) {
            match made.below(7) {
                0 => p = [256, 257, 1 << 32, usize::MAX, p.saturating_add(1)][made.below(5)],
                1 => y = [0, 33, 64, usize::MAX, y.saturating_add(1)][made.below(5)],
                2 => allowed.push(1),
                3 => {
                    allowed.pop();
                }
                4 if !allowed.is_empty() => {
                    let at = made.below(allowed.len());
                    allowed[at] = [2, 3, 255, 1][made.below(4)];
                }
                5 => room = room.saturating_sub(1 + made.below(4)),
                _ => {}
            }
        }
        refused += (run(&mut made, p, y, &allowed, room) == Answer::Refused) as usize;
    }
    assert!(
        refused > total / 3 && refused < total,
        "{refused} of {total} refused"
    );
}

#[test]
fn answers_at_the_limits() {
    let mut made = Made(0x1234_5678_9abc_def1);
    assert_eq!(run(&mut made, 0, 1, &[], 0), Answer::Assigned);
    assert_eq!(run(&mut made, 0, 32, &[], 9), Answer::Assigned);
    assert_eq!(run(&mut made, 0, 0, &[], 9), Answer::Refused);
    assert_eq!(run(&mut made, 0, 33, &[], 9), Answer::Refused);
    assert_eq!(run(&mut made, 1, 32, &[1; 32], 1), Answer::Assigned);
    assert_eq!(run(&mut made, 1, 33, &[1; 33], 1), Answer::Refused);
    assert_eq!(run(&mut made, 32, 32, &[1; 32 * 32], 32), Answer::Assigned);
    assert_eq!(run(&mut made, 33, 32, &[1; 33 * 32], 33), Answer::Deficient);
    assert_eq!(
        run(&mut made, 255, 32, &[1; 255 * 32], 255),
        Answer::Deficient
    );
    assert_eq!(
        run(&mut made, 255, 32, &[0; 255 * 32], 300),
        Answer::Deficient
    );
    assert_eq!(run(&mut made, 255, 1, &[1; 255], 255), Answer::Deficient);
    assert_eq!(
        run(&mut made, 256, 32, &[1; 256 * 32], 256),
        Answer::Refused
    );
    assert_eq!(
        run(&mut made, 255, 32, &[1; 255 * 32], 254),
        Answer::Refused
    );
}

/// The exported function itself, as `include/matching.h` declares it: its three numbers.
#[test]
fn answers_by_number() {
    extern "C" {
        fn matching_assign(
            p: usize,
            y: usize,
            allowed: *const u8,
            allowed_len: usize,
            buffer: *mut u8,
            buffer_len: usize,
        ) -> u32;
    }
    for (allowed, room, number, bytes) in [
        ([1, 1, 1, 0], 3, 0, [1, 0, 7]),
        ([1, 0, 1, 0], 3, 1, [1, 1, 7]),
        ([1, 0, 1, 0], 1, 24, [7, 7, 7]),
        ([1, 2, 1, 0], 3, 24, [7, 7, 7]),
    ] {
        let mut buffer = [7; 3];
        // SAFETY: both pointers are to as many bytes as their lengths say, and apart.
        let got = unsafe { matching_assign(2, 2, allowed.as_ptr(), 4, buffer.as_mut_ptr(), room) };
        assert_eq!((got, buffer), (number, bytes));
    }
}

/// Part i may have yards i and i + 1, and the last part yard 0 alone: each part before it has to move on.
#[test]
fn moves_every_part_along_the_longest_path() {
    let mut made = Made(0x0f0f_1e1e_2d2d_3c3c);
    for y in 2..=32 {
        let mut allowed = vec![0; y * y];
        for part in 0..y - 1 {
            allowed[part * y + part] = 1;
            allowed[part * y + part + 1] = 1;
        }
        allowed[(y - 1) * y] = 1;
        assert_eq!(run(&mut made, y, y, &allowed, y), Answer::Assigned);
        allowed[(y - 1) * y - 1] = 0;
        assert_eq!(run(&mut made, y, y, &allowed, y), Answer::Deficient);
    }
}

/// Whether an assignment exists, by augmenting paths in a form of their own: for inputs too large to try all.
fn augments(
    y: usize,
    allowed: &[u8],
    part: usize,
    owner: &mut [Option<usize>],
    tried: &mut [bool],
) -> bool {
    (0..y).any(|yard| {
        if allowed[part * y + yard] == 0 || std::mem::replace(&mut tried[yard], true) {
            return false;
        }
        let free = match owner[yard] {
            None => true,
            Some(other) => augments(y, allowed, other, owner, tried),
        };
        if free {
            owner[yard] = Some(part);
        }
        free
    })
}

#[test]
fn agrees_at_full_size() {
    let mut made = Made(0x0123_4567_89ab_cdef);
    let mut seen = [0; 2];
    for _ in 0..3_000 {
        let y = 24 + made.below(9);
        let p = if made.below(8) == 0 {
            33 + made.below(223)
        } else {
            20 + made.below(13)
        };
        let of_16 = 1 + made.below(4);
        let allowed = made.bytes(p * y, of_16);
        let mut owner = vec![None; y];
        let expected =
            (0..p).all(|part| augments(y, &allowed, part, &mut owner, &mut vec![false; y]));
        let room = p + made.below(5);
        assert_eq!(
            run(&mut made, p, y, &allowed, room) == Answer::Assigned,
            expected,
            "p {p} y {y}"
        );
        seen[expected as usize] += 1;
    }
    assert!(seen[0] > 200 && seen[1] > 200, "one-sided: {seen:?}");
}
