//! Which operators have operands of kinds that they do not take (document 01,
//! Kinds and values), and which of them is blamed (document 02, order 3).

use crate::arithmetic::is_comparison;
use crate::expression::Kind;
use crate::tokens::Token;
use crate::tree::{Node, NodeId, TokenId, Tree};

/// The leftmost operator that is wrong itself and has no wrong one inside its
/// operands. `kinds` are those of the tokens that are operands.
pub fn leftmost_wrong(tree: &Tree, tokens: &[Token], kinds: &[Kind]) -> Option<TokenId> {
    let mut settling = Settling {
        tree,
        tokens,
        kinds,
        wrong: Vec::new(),
    };
    settling.kind(tree.root);
    settling.wrong.into_iter().min()
}

struct Settling<'a> {
    tree: &'a Tree,
    tokens: &'a [Token],
    kinds: &'a [Kind],
    /// The wrong ones that were met, those with a wrong one inside left out.
    wrong: Vec<TokenId>,
}

impl Settling<'_> {
    /// The kind of a node, or none if something at or inside it is wrong.
    /// All operands are gone through, whether evaluation skips them or not.
    fn kind(&mut self, node: NodeId) -> Option<Kind> {
        match self.tree.nodes[node] {
            Node::Operand(token) => Some(self.kinds[token]),
            Node::Unary(operator, inner) => {
                let inner = self.kind(inner)?;
                self.suits(operator, inner == Kind::Number, Kind::Number)
            }
            Node::Binary(operator, left, right) => {
                let (left, right) = (self.kind(left), self.kind(right));
                let (left, right) = (left?, right?);
                let numbers = [left, right] == [Kind::Number; 2];
                let suits = match is_comparison(self.tokens[operator].code) {
                    true => left == right,
                    false => numbers,
                };
                self.suits(operator, suits, Kind::Number)
            }
            Node::Choice(question, test, yes, no) => {
                let (test, yes, no) = (self.kind(test), self.kind(yes), self.kind(no));
                let (test, yes, no) = (test?, yes?, no?);
                self.suits(question, test == Kind::Number && yes == no, yes)
            }
        }
    }

    /// Notes an operator that does not take its operands; else gives the kind.
    fn suits(&mut self, operator: TokenId, suits: bool, kind: Kind) -> Option<Kind> {
        if !suits {
            self.wrong.push(operator);
        }
        suits.then_some(kind)
    }
}
