use std::fmt;
use std::str::FromStr;

use crate::calls::{ssz_verify, ssz_verify_all, Entry, Fault, Index};
use crate::error::{ended, Error, Result, UNLIKE};

/// A chunk of a tree, after its generalized index.
type Node = (u128, [u8; 32]);

/// A proof is judged with this root where only the proof is in question.
const ANY_ROOT: [u8; 32] = [0; 32];

/// A multiproof: chunks by their generalized indices, exactly those that lead to a root.
///
/// It is printed, and parsed, as the line that `ssz prove` has. What is no such line (docs/formats.md) is
/// [`Error::BadProof`]: the library judges it, also where it comes as nodes or as a branch.
///
/// ```
/// # fn main() -> ssz::Result<()> {
/// let proof = ssz::Proof::new(&[(2, [1; 32])], &[(3, [2; 32])])?;
/// assert_eq!(proof.to_string().parse(), Ok(proof.clone()));
/// assert_eq!(proof.branch()?, (2, [1; 32], vec![[2; 32]]));
/// assert_eq!(ssz::Proof::new(&[(0, [1; 32])], &[]), Err(ssz::Error::BadProof));
/// # Ok(())
/// # }
/// ```
#[derive(Clone, Debug, PartialEq, Eq, Hash)]
pub struct Proof {
    leaves: Vec<Node>,
    nodes: Vec<Node>,
}

impl Proof {
    /// The proof of leaves, in any order, and of the nodes at their helper indices, from the greatest index down.
    pub fn new(leaves: &[(u128, [u8; 32])], nodes: &[(u128, [u8; 32])]) -> Result<Proof> {
        Line { leaves, nodes }.to_string().parse()
    }

    /// The proof that a branch is, its nodes from the leaf up. [`Error::BadProof`] where the index has another number of them.
    pub fn of_branch(index: u128, leaf: [u8; 32], nodes: &[[u8; 32]]) -> Result<Proof> {
        let nodes: Option<Vec<Node>> = (0..).zip(nodes).map(|(level, node)| Some((beside(index, level)?, *node))).collect();
        Proof::new(&[(index, leaf)], &nodes.ok_or(Error::BadProof)?)
    }

    /// What the library answered of nodes: a proof.
    pub(crate) fn of_entries(leaves: &[Entry], nodes: &[Entry]) -> Proof {
        Proof { leaves: leaves.iter().map(shown).collect(), nodes: nodes.iter().map(shown).collect() }
    }

    /// What is proved: chunks after their generalized indices, which ascend. There is one or more.
    pub fn leaves(&self) -> &[(u128, [u8; 32])] {
        &self.leaves
    }

    /// The nodes from which, together with the leaves, the root follows: chunks after their generalized indices, which descend.
    pub fn nodes(&self) -> &[(u128, [u8; 32])] {
        &self.nodes
    }

    /// Whether the proof leads to the root.
    pub fn verify(&self, root: &[u8; 32]) -> Result<bool> {
        let leaves: Vec<Entry> = self.leaves.iter().map(entry).collect();
        let nodes: Vec<Entry> = self.nodes.iter().map(entry).collect();
        verdict(unsafe { ssz_verify_all(root, leaves.as_ptr(), leaves.len(), nodes.as_ptr(), nodes.len()) })
    }

    /// Of a proof of one leaf its index, its chunk, and the nodes from the leaf up; [`Error::NoBranch`] of more leaves.
    pub fn branch(&self) -> Result<(u128, [u8; 32], Vec<[u8; 32]>)> {
        match *self.leaves.as_slice() {
            // Each level has one node, and a lower level the greater indices.
            [(index, leaf)] => Ok((index, leaf, self.nodes.iter().map(|node| node.1).collect())),
            _ => Err(Error::NoBranch),
        }
    }

    /// The leaves and nodes of a line that is one of a proof.
    fn read(line: &str) -> Option<Proof> {
        let mut words = line.split_ascii_whitespace().skip(1);
        let leaves: Option<Vec<Node>> = words.by_ref().take_while(|word| *word != "/").map(node).collect();
        let (mut leaves, mut nodes) = (leaves?, words.map(node).collect::<Option<Vec<Node>>>()?);
        leaves.sort_unstable_by_key(|leaf| leaf.0);
        leaves.shrink_to_fit();
        nodes.shrink_to_fit();
        Some(Proof { leaves, nodes })
    }
}

/// The index beside the one that is so many levels above an index.
fn beside(index: u128, level: u32) -> Option<u128> {
    index.checked_shr(level).map(|above| above ^ 1)
}

fn entry((index, chunk): &Node) -> Entry {
    Entry { index: Index::of(*index), chunk: *chunk }
}

fn shown(entry: &Entry) -> Node {
    (entry.index.number(), entry.chunk)
}

fn verdict(status: u32) -> Result<bool> {
    if status == UNLIKE {
        return Ok(false);
    }
    ended(status, &Fault::default()).map(|()| true)
}

impl fmt::Display for Proof {
    fn fmt(&self, to: &mut fmt::Formatter<'_>) -> fmt::Result {
        Line { leaves: &self.leaves, nodes: &self.nodes }.fmt(to)
    }
}

impl FromStr for Proof {
    type Err = Error;

    fn from_str(line: &str) -> Result<Proof> {
        verdict(unsafe { ssz_verify(&ANY_ROOT, line.as_ptr(), line.len()) })?;
        Proof::read(line).ok_or(Error::BadProof)
    }
}

/// Leaves and nodes as a line has them, whether they are a proof or not.
struct Line<'n> {
    leaves: &'n [Node],
    nodes: &'n [Node],
}

impl fmt::Display for Line<'_> {
    fn fmt(&self, to: &mut fmt::Formatter<'_>) -> fmt::Result {
        write!(to, "proof")?;
        self.leaves.iter().try_for_each(|leaf| write_node(to, leaf))?;
        write!(to, " /")?;
        self.nodes.iter().try_for_each(|node| write_node(to, node))
    }
}

fn write_node(to: &mut fmt::Formatter<'_>, (index, chunk): &Node) -> fmt::Result {
    write!(to, " {index}=0x")?;
    chunk.iter().try_for_each(|byte| write!(to, "{byte:02x}"))
}

/// The node that a word says.
fn node(word: &str) -> Option<Node> {
    let (index, digits) = word.split_once("=0x")?;
    let mut chunk = [0; 32];
    for (byte, pair) in chunk.iter_mut().zip(digits.as_bytes().chunks_exact(2)) {
        *byte = u8::from_str_radix(std::str::from_utf8(pair).ok()?, 16).ok()?;
    }
    Some((index.parse().ok()?, chunk))
}
