//! The bytes of a cover taken apart: t, q, t starts, q tree numbers, then q edge numbers, 2 bytes each, lowest byte first.

/// A tree of a cover: the vertex where it starts, and its edges by rising number.
#[derive(Clone, Debug, PartialEq, Eq)]
pub struct Tree {
    pub start: usize,
    pub edges: Vec<usize>,
}

/// The trees of a cover in order of their numbers, or the parts of [`Reply::TooLowParts`](crate::Reply::TooLowParts), which
/// are written alike.
#[derive(Clone, Debug, PartialEq, Eq)]
pub struct Cover {
    pub trees: Vec<Tree>,
}

impl Cover {
    /// How many of these bytes the cover at their front fills: 4 + 2t + 4q, by the t and q that they begin with. `None` where
    /// there are not so many.
    pub fn length(bytes: &[u8]) -> Option<usize> {
        let length = 4 + 2 * number(bytes, 0)? + 4 * number(bytes, 1)?;
        (length <= bytes.len()).then_some(length)
    }

    /// The cover at the front of these bytes; those behind it are not read, so that a whole buffer can be given. `None` where
    /// [`length`](Cover::length) has none, an entry's tree is not below t, or the entries do not rise strictly by tree, then by
    /// edge. Nothing is known of a graph here: [`check`](crate::check) says whether the trees are a cover of one.
    pub fn read(bytes: &[u8]) -> Option<Cover> {
        Cover::length(bytes)?;
        let (t, q) = (number(bytes, 0)?, number(bytes, 1)?);
        let start = |tree| Some(Tree { start: number(bytes, 2 + tree)?, edges: vec![] });
        let mut trees = (0..t).map(start).collect::<Option<Vec<_>>>()?;
        let mut last = None;
        for entry in 2 + t..2 + t + q {
            let (tree, edge) = (number(bytes, entry)?, number(bytes, entry + q)?);
            if last >= Some((tree, edge)) {
                return None;
            }
            last = Some((tree, edge));
            trees.get_mut(tree)?.edges.push(edge);
        }
        Some(Cover { trees })
    }
}

/// The number at a place, counted in fields of 2 bytes.
fn number(bytes: &[u8], place: usize) -> Option<usize> {
    let field = bytes.get(2 * place..2 * place + 2)?;
    Some(usize::from(u16::from_le_bytes([field[0], field[1]])))
}
