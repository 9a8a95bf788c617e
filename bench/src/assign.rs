//! The assignment of parts to roots, over sets of roots as bits, by augmenting paths.

/// What is found: the root of each part, or the parts of a set with fewer allowed roots than parts.
pub enum Assigned {
    Roots(Vec<u8>),
    Deficient(Vec<usize>),
}

/// The part that has each root.
const FREE: u8 = u8::MAX;

/// Gives each part a root of its own among those allowed to it.
pub fn assign(allowed: &[u32]) -> Assigned {
    let mut owner = [FREE; 32];
    for part in 0..allowed.len() {
        let mut tried = 0;
        if !place(allowed, part, &mut owner, &mut tried) {
            // Every root tried belongs to a part reached, and a part reached may have no other root.
            let reached = owner.iter().enumerate().filter(|(root, _)| tried >> root & 1 == 1);
            let mut set: Vec<usize> = reached.map(|(_, &part)| part as usize).collect();
            set.push(part);
            return Assigned::Deficient(set);
        }
    }
    let mut roots = vec![0; allowed.len()];
    for (root, &part) in owner.iter().enumerate() {
        if part != FREE {
            roots[part as usize] = root as u8;
        }
    }
    Assigned::Roots(roots)
}

/// Whether each part can have a root of its own.
pub fn assignable(allowed: &[u32]) -> bool {
    let mut owner = [FREE; 32];
    (0..allowed.len()).all(|part| place(allowed, part, &mut owner, &mut 0))
}

/// Finds a root for a part, moving others on where need be; roots tried before are left out.
fn place(allowed: &[u32], part: usize, owner: &mut [u8; 32], tried: &mut u32) -> bool {
    loop {
        let open = allowed[part] & !*tried;
        if open == 0 {
            return false;
        }
        let root = open.trailing_zeros() as usize;
        *tried |= 1 << root;
        let holder = owner[root];
        if holder == FREE || place(allowed, holder as usize, owner, tried) {
            owner[root] = part as u8;
            return true;
        }
    }
}
