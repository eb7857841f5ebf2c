//! What the library answers about the chain from one name to another, in words.

use crate::names::Names;
use crate::tree::{Bundle, Name};
use crate::words::counted;
use layout::{FollowedChain, Refusal};

/// A chain as the library gives it, and how many names edges lead to from its start.
pub struct Search {
    from: Name,
    to: Name,
    found: FollowedChain,
    /// The start is one of them.
    reached: usize,
}

impl Search {
    /// Asks about a bundle that is accepted. A search that finds nothing follows the edges of all names that there are
    /// to follow, so the library is asked for their number too, with an end that no edge has.
    pub fn new(bundle: &Bundle, bytes: &[u8], from: Name, to: Name) -> Result<Search, String> {
        let ask = |to| layout::chain_followed_vec(bytes, from, to).map_err(refused);
        let found = ask(to)?;
        let other = without_edges(bundle, from);
        let all = ask(other)?;
        let agree = match found.names.is_empty() {
            true => found.followed == all.followed,
            false => found.followed < all.followed,
        };
        if !agree || !all.names.is_empty() || all.followed == 0 {
            return Err(format!(
                "the library's answers about #{from} to #{to} and to #{other}, which no edge has, do not agree"
            ));
        }
        Ok(Search {
            from,
            to,
            found,
            reached: all.followed,
        })
    }

    pub fn words(&self, names: &Names) -> String {
        // Whole: of two long names the starts may be the same.
        let (from, to) = (names.word(self.from), names.word(self.to));
        let chain = match self.found.names.is_empty() {
            true => format!("No chain leads from `{from}` to `{to}`."),
            false => names.join(&self.found.names, " -> "),
        };
        let search = match self.found.followed {
            0 => "The search followed no edges.".to_string(),
            count => {
                let followed = counted(count, "name");
                format!("The search followed the edges of {followed}.")
            }
        };
        let all = match self.reached - 1 {
            0 => format!("No edge leads from `{from}` to another name."),
            others => {
                let others = counted(others, "other name");
                format!("Edges lead from `{from}`, directly or through others, to {others}.")
            }
        };
        format!("{chain}\n{search}\n{all}\n")
    }
}

fn refused(refusal: Refusal) -> String {
    format!("the library accepts the bundle and refuses a search in it: {refusal}")
}

/// A name that no edge has, other than the start. There are 65,536 names, and edges have 2,048 ends at most.
fn without_edges(bundle: &Bundle, from: Name) -> Name {
    let has = |name: Name| {
        let mut edges = bundle.edges.iter();
        edges.any(|edge| edge.from == name || edge.to == name)
    };
    let mut free = (0..=Name::MAX).filter(|name| *name != from && !has(*name));
    free.next().expect("fewer than 65,535 names have edges")
}
