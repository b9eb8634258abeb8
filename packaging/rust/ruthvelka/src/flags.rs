use crate::features::NAMES;
use std::ops::{BitAnd, BitOr, BitOrAssign, Sub};

/// A set of proposals, which modules may use.
#[derive(Clone, Copy, PartialEq, Eq, Hash)]
pub struct WasmFeatures(pub(crate) u64);

impl WasmFeatures {
    /// No proposal at all.
    pub const fn empty() -> WasmFeatures {
        WasmFeatures(0)
    }

    /// All that grant something.
    pub const fn all() -> WasmFeatures {
        WasmFeatures::ALL
    }

    /// The bits, as `ruthvelka.h` numbers them.
    pub const fn bits(&self) -> u64 {
        self.0
    }

    /// The proposal with this name, in capitals.
    pub fn from_name(name: &str) -> Option<WasmFeatures> {
        NAMES.iter().find(|it| it.0 == name).map(|it| it.1)
    }

    /// Each proposal of the set, by its name.
    pub fn iter_names(&self) -> impl Iterator<Item = (&'static str, WasmFeatures)> {
        let whole = *self;
        NAMES.iter().copied().filter(move |it| whole.contains(it.1))
    }

    /// Whether the set has all of the other one.
    pub const fn contains(&self, other: WasmFeatures) -> bool {
        self.0 & other.0 == other.0
    }

    /// Whether the set is empty.
    pub const fn is_empty(&self) -> bool {
        self.0 == 0
    }

    /// What either set has.
    pub const fn union(self, other: WasmFeatures) -> WasmFeatures {
        WasmFeatures(self.0 | other.0)
    }

    /// What both sets have.
    pub const fn intersection(self, other: WasmFeatures) -> WasmFeatures {
        WasmFeatures(self.0 & other.0)
    }

    /// What the set has and the other one hasn't.
    pub const fn difference(self, other: WasmFeatures) -> WasmFeatures {
        WasmFeatures(self.0 & !other.0)
    }

    /// Adds what the other set has.
    pub fn insert(&mut self, other: WasmFeatures) {
        self.0 |= other.0;
    }

    /// Takes away what the other set has.
    pub fn remove(&mut self, other: WasmFeatures) {
        self.0 &= !other.0;
    }

    /// Adds what the other set has, or takes it away.
    pub fn set(&mut self, other: WasmFeatures, value: bool) {
        if value {
            self.insert(other);
        } else {
            self.remove(other);
        }
    }
}

impl Default for WasmFeatures {
    fn default() -> WasmFeatures {
        WasmFeatures::STANDARD
    }
}

impl BitOr for WasmFeatures {
    type Output = WasmFeatures;
    fn bitor(self, other: WasmFeatures) -> WasmFeatures {
        self.union(other)
    }
}

impl BitOrAssign for WasmFeatures {
    fn bitor_assign(&mut self, other: WasmFeatures) {
        self.insert(other);
    }
}

impl BitAnd for WasmFeatures {
    type Output = WasmFeatures;
    fn bitand(self, other: WasmFeatures) -> WasmFeatures {
        self.intersection(other)
    }
}

impl Sub for WasmFeatures {
    type Output = WasmFeatures;
    fn sub(self, other: WasmFeatures) -> WasmFeatures {
        self.difference(other)
    }
}

impl std::fmt::Debug for WasmFeatures {
    fn fmt(&self, f: &mut std::fmt::Formatter<'_>) -> std::fmt::Result {
        let names: Vec<&str> = self.iter_names().map(|it| it.0).collect();
        write!(f, "WasmFeatures({})", names.join(" | "))
    }
}
