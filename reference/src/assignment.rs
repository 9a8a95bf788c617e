//! The assignment of parts to roots as a question of its own, its judge, and an exhaustive search.

/// What the assignment says of the bytes it wrote.
#[derive(Clone, Copy, Debug, PartialEq, Eq)]
pub enum Assigned {
    /// The root of each part was written.
    Roots,
    /// No assignment exists: 1 was written for each part of a set with too few allowed roots.
    Deficient,
    /// The question is refused with 24; nothing was written.
    Refused(u16),
}

/// Whether the question is refused with 24.
pub fn is_refused(p: usize, y: usize, allowed: &[u8], room: usize) -> bool {
    p > 255
        || !(1..=32).contains(&y)
        || allowed.len() != p * y
        || allowed.iter().any(|&byte| byte > 1)
        || room < p
}

/// Assigns p parts to y roots, part i being allowed root j where byte i * y + j is 1.
pub fn assign(p: usize, y: usize, allowed: &[u8], buffer: &mut [u8]) -> Assigned {
    if is_refused(p, y, allowed, buffer.len()) {
        return Assigned::Refused(24);
    }
    let mut part_of: Vec<Option<usize>> = vec![None; y];
    for part in 0..p {
        let mut seen = vec![false; y];
        if !place(part, allowed, &mut part_of, &mut seen) {
            write_deficient(part, &part_of, &seen, &mut buffer[..p]);
            return Assigned::Deficient;
        }
    }
    for (root, part) in part_of.iter().enumerate() {
        if let Some(part) = part {
            buffer[*part] = root as u8;
        }
    }
    Assigned::Roots
}

/// Finds a root for a part, moving other parts on where needed; seen roots are not tried again.
fn place(part: usize, allowed: &[u8], part_of: &mut [Option<usize>], seen: &mut [bool]) -> bool {
    let y = part_of.len();
    for root in 0..y {
        if allowed[part * y + root] == 0 || seen[root] {
            continue;
        }
        seen[root] = true;
        let free = match part_of[root] {
            None => true,
            Some(holder) => place(holder, allowed, part_of, seen),
        };
        if free {
            part_of[root] = Some(part);
            return true;
        }
    }
    false
}

/// Marks the part that found no root and the holders of every root seen on its behalf.
fn write_deficient(part: usize, part_of: &[Option<usize>], seen: &[bool], out: &mut [u8]) {
    out.fill(0);
    out[part] = 1;
    for (root, holder) in part_of.iter().enumerate() {
        if let (true, Some(holder)) = (seen[root], holder) {
            out[*holder] = 1;
        }
    }
}

/// How many roots are allowed to any of the marked parts.
pub fn roots_near(y: usize, allowed: &[u8], marked: &[bool]) -> usize {
    let near = |root: &usize| (0..marked.len()).any(|i| marked[i] && allowed[i * y + root] == 1);
    (0..y).filter(near).count()
}

/// Judges a reply on the buffer before and after; the error says what is wrong.
pub fn judge(
    p: usize,
    y: usize,
    allowed: &[u8],
    before: &[u8],
    after: &[u8],
    reply: Assigned,
) -> Result<(), String> {
    let refused = is_refused(p, y, allowed, before.len());
    if before.len() != after.len() {
        return Err("the buffer changed its length".into());
    }
    if refused != (reply == Assigned::Refused(24)) {
        return Err(format!("refusal due: {refused}, reply: {reply:?}"));
    }
    let written = if refused { 0 } else { p };
    if before[written..] != after[written..] {
        return Err(format!("a byte from {written} on changed"));
    }
    match reply {
        Assigned::Roots => judge_roots(y, allowed, &after[..p]),
        Assigned::Deficient => judge_deficient(y, allowed, &after[..p]),
        Assigned::Refused(_) => Ok(()),
    }
}

/// Every part has an allowed root, and no root has two parts.
fn judge_roots(y: usize, allowed: &[u8], roots: &[u8]) -> Result<(), String> {
    let mut taken = vec![false; y];
    for (part, &root) in roots.iter().enumerate() {
        let root = usize::from(root);
        if root >= y || allowed[part * y + root] == 0 {
            return Err(format!("part {part} may not go to root {root}"));
        }
        if std::mem::replace(&mut taken[root], true) {
            return Err(format!("root {root} has two parts"));
        }
    }
    Ok(())
}

/// The marked parts have fewer allowed roots than there are of them, so no assignment exists.
fn judge_deficient(y: usize, allowed: &[u8], marks: &[u8]) -> Result<(), String> {
    if marks.iter().any(|&mark| mark > 1) {
        return Err("a mark is neither 0 nor 1".into());
    }
    let marked: Vec<bool> = marks.iter().map(|&mark| mark == 1).collect();
    let parts = marked.iter().filter(|&&mark| mark).count();
    let roots = roots_near(y, allowed, &marked);
    if roots < parts {
        return Ok(());
    }
    Err(format!("{parts} marked parts have {roots} allowed roots"))
}

/// Whether any assignment exists, by trying all of them; for small questions.
pub fn exists_by_trying_all(p: usize, y: usize, allowed: &[u8]) -> bool {
    try_from(0, p, y, allowed, 0)
}

/// Tries every root for a part and then for the parts after it, taken roots being a set of bits.
fn try_from(part: usize, p: usize, y: usize, allowed: &[u8], taken: u64) -> bool {
    part == p
        || (0..y).any(|root| {
            let free = taken & (1 << root) == 0 && allowed[part * y + root] == 1;
            free && try_from(part + 1, p, y, allowed, taken | (1 << root))
        })
}
