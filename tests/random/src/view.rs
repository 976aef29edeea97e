//! Sets of members and views.

/// Members of a group, numbered 0 to 7.
pub const MEMBERS: usize = 8;

/// Bit n stands for member n.
#[derive(Clone, Copy, PartialEq, Eq, Default)]
pub struct Set(pub u8);

impl Set {
    pub fn only(member: usize) -> Set {
        Set(1 << member)
    }

    pub fn has(self, member: usize) -> bool {
        member < MEMBERS && self.0 >> member & 1 == 1
    }

    pub fn with(self, member: usize) -> Set {
        Set(self.0 | 1 << member)
    }

    pub fn without(self, member: usize) -> Set {
        Set(self.0 & !(1 << member))
    }

    pub fn joined(self, other: Set) -> Set {
        Set(self.0 | other.0)
    }

    pub fn common(self, other: Set) -> Set {
        Set(self.0 & other.0)
    }

    pub fn within(self, other: Set) -> bool {
        self.0 & !other.0 == 0
    }

    pub fn is_empty(self) -> bool {
        self.0 == 0
    }

    pub fn size(self) -> usize {
        self.0.count_ones() as usize
    }

    pub fn members(self) -> impl Iterator<Item = usize> {
        (0..MEMBERS).filter(move |&member| self.has(member))
    }
}

/// Two views are the same only if all three parts are.
#[derive(Clone, Copy, PartialEq, Eq)]
pub struct View {
    pub id: u32,
    pub set: Set,
    pub starts: [u32; MEMBERS],
}

impl View {
    pub fn initial(member: usize) -> View {
        View { id: 0, set: Set::only(member), starts: [0; MEMBERS] }
    }

    pub fn is_initial(&self) -> bool {
        self.id == 0
    }

    pub fn well_formed(&self) -> bool {
        if self.id == 0 {
            return self.set.size() == 1 && self.starts == [0; MEMBERS];
        }
        let numbered = (0..MEMBERS).all(|m| self.set.has(m) == (self.starts[m] >= 1));
        !self.set.is_empty() && numbered
    }
}
