//! Summaries of template variables: a summary graph and the origins of the open gaps. Sets of templates are bits of a
//! `u32`.

/// Bit i for string i; bit 64 for all strings that are not 0-63, so that only "any string" has it.
pub type StringSet = u128;

pub const ANY_STRING: StringSet = (1 << 65) - 1;

/// Stands beside the strings where an attribute can be absent, in closed graphs alone.
pub const ABSENT: StringSet = 1 << 65;

pub type Edges = [u32; 8];
pub type Strings = [StringSet; 8];

#[derive(Clone, Default, PartialEq, Eq)]
pub struct Summary {
    pub roots: u32,
    pub origins: [u32; 8],
    pub attribute_origins: [u32; 8],
    /// By template, as far as some edge needs it; the same for strings.
    edges: Vec<Edges>,
    strings: Vec<Strings>,
}

impl Summary {
    pub fn edges(&self, template: usize) -> &Edges {
        self.edges.get(template).unwrap_or(&[0; 8])
    }

    pub fn strings(&self, template: usize) -> &Strings {
        self.strings.get(template).unwrap_or(&[0; 8])
    }

    pub fn add_edges(&mut self, template: usize, gap: usize, to: u32) {
        if to != 0 {
            row(&mut self.edges, template)[gap] |= to;
        }
    }

    pub fn add_strings(&mut self, template: usize, gap: usize, set: StringSet) {
        if set != 0 {
            row(&mut self.strings, template)[gap] |= set;
        }
    }

    /// Adds the edges and strings of another graph.
    pub fn join_graph(&mut self, other: &Summary) {
        for (template, edges) in other.edges.iter().enumerate() {
            edges.iter().enumerate().for_each(|(gap, &to)| self.add_edges(template, gap, to));
        }
        for (template, strings) in other.strings.iter().enumerate() {
            strings.iter().enumerate().for_each(|(gap, &set)| self.add_strings(template, gap, set));
        }
    }

    pub fn join(&mut self, other: &Summary) {
        self.roots |= other.roots;
        self.join_graph(other);
        for gap in 0..8 {
            self.origins[gap] |= other.origins[gap];
            self.attribute_origins[gap] |= other.attribute_origins[gap];
        }
    }

    pub fn within(&self, other: &Summary) -> bool {
        let sets = |a: &[u32; 8], b: &[u32; 8]| a.iter().zip(b).all(|(a, b)| a & !b == 0);
        self.roots & !other.roots == 0
            && sets(&self.origins, &other.origins)
            && sets(&self.attribute_origins, &other.attribute_origins)
            && self.edges.iter().enumerate().all(|(template, edges)| sets(edges, other.edges(template)))
            && self
                .strings
                .iter()
                .enumerate()
                .all(|(template, strings)| strings.iter().zip(other.strings(template)).all(|(a, b)| a & !b == 0))
    }
}

fn row<T: Copy + Default>(rows: &mut Vec<[T; 8]>, template: usize) -> &mut [T; 8] {
    if rows.len() <= template {
        rows.resize(template + 1, [T::default(); 8]);
    }
    &mut rows[template]
}

/// The templates of a set, lowest first.
pub fn members(mut set: u32) -> impl Iterator<Item = usize> {
    std::iter::from_fn(move || {
        if set == 0 {
            return None;
        }
        let member = set.trailing_zeros() as usize;
        set &= set - 1;
        Some(member)
    })
}
