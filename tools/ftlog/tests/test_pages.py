"""Tests of what is compared between the pages and the crates: README.md's list of what is trusted, and the page of signatures."""
import pathlib
import tempfile
import unittest

from ftlog import runs
from ftlog.checks import page_names
from ftlog.upkeep import signatures

README = (runs.TOP / "README.md").read_text()
LIB = """mod desk;
mod laws;

pub use desk::{Desk, open};
pub use ft_base::Kind;
pub use laws::users_differ;
"""
DESK = """/// A desk.
#[derive(Debug, Drop)]
pub struct Desk {
    /// How many users.
    pub users: u32,
    ghost kept: { Unit },
}

impl Desk {
    /// The user at a place.
    pub fn user(
        &self,
        place: u32,
    ) -> Kind
        requires place { place < length
            self.now.users }
        ensures { result ≡ first self.now }
    {
        self.first()
    }

    fn first(&self) -> Kind {
        Kind::Graph
    }
}

/// A desk of no users.
pub fn open() -> Desk
    ensures { result ≡ nothing }
{
    Desk { users: 0 }
}

pub fn not_given_out(desk: &Desk) -> u32 {
    desk.users
}
"""
SECTION = """
## desk

```rust
pub use ft_base::Kind;
#[derive(Debug, Drop)]
pub struct Desk { pub users: u32, .. }
impl Desk {
    pub fn user(&self, place: u32) -> Kind;
        requires place { place < length self.now.users }
}
pub fn open() -> Desk;
```

Laws: `users_differ`.
"""


class Trusted(unittest.TestCase):
    def test_what_is_missing_or_too_much_is_found(self):
        """A crate of the kit, and a file of constants, that README.md doesn't name, or names and that isn't one."""
        names = page_names.Names(runs.TOP)
        self.assertEqual(list(page_names.trusted(README, names)), [])
        for old, new, fault in [
            ("`circular_buffer`, ", "", "circular_buffer isn't named, a crate of the kit"),
            ("`bytes`, ", "`bytes`, `serde`, ", "serde isn't a crate of the kit that is trusted"),
            (", `ft_base/src/address.rt`", "", "ft_base/src/address.rt isn't named, a file of constants"),
            ("`ft_base/src/address.rt`", "`ft_base/src/address.rt`, `ft_base/src/name.rt`", "ft_base/src/name.rt isn't a file of constants that is trusted"),
        ]:
            self.assertEqual(list(page_names.trusted(README.replace(old, new), names)), [fault])


class Signatures(unittest.TestCase):
    def test_section(self):
        """What a crate gives out and asks for, and nothing of what is private, promised or done."""
        with tempfile.TemporaryDirectory() as room:
            folder = pathlib.Path(room) / "crates" / "desk" / "src"
            folder.mkdir(parents=True)
            for name, text in (("lib", LIB), ("desk", DESK), ("laws", "pub fn users_differ()\n    ensures { ⊤ }\n{}\n")):
                (folder / f"{name}.rt").write_text(text)
            self.assertEqual(signatures.section("desk", pathlib.Path(room)), SECTION)
