//! From tokens to the tree of operators (document 01, Precedence).

use crate::tokens::{code, Token};

/// Place of a node in its tree.
pub type NodeId = usize;

/// Number of a token, counted from 0.
pub type TokenId = usize;

/// One operand or operator, by its token.
#[derive(Clone, Copy, Debug, PartialEq, Eq)]
pub enum Node {
    /// A primary that is no parenthesis.
    Operand(TokenId),
    Unary(TokenId, NodeId),
    Binary(TokenId, NodeId, NodeId),
    /// The `?`, then test, arm for true and arm for false.
    Choice(TokenId, NodeId, NodeId, NodeId),
}

/// Parentheses leave no node, since they are no operators.
#[derive(Clone, Debug, PartialEq, Eq)]
pub struct Tree {
    pub nodes: Vec<Node>,
    pub root: NodeId,
}

/// The one derivation of the whole token list, or none.
pub fn parse(tokens: &[Token]) -> Option<Tree> {
    let mut parser = Parser {
        tokens,
        next: 0,
        nodes: Vec::with_capacity(tokens.len()),
    };
    let root = parser.expression()?;
    (parser.next == tokens.len()).then_some(Tree {
        nodes: parser.nodes,
        root,
    })
}

/// The loosest level of the binary operators.
const LOOSEST: u8 = 12;

/// Level of a binary operator as document 01 numbers them; tighter is lower.
fn level(operator: u8) -> Option<u8> {
    Some(match operator {
        code::TIMES | code::DIVIDE | code::REMAINDER => 2,
        code::PLUS | code::MINUS => 3,
        code::SHIFT_LEFT | code::SHIFT_RIGHT => 4,
        code::LESS | code::LESS_EQUAL | code::GREATER | code::GREATER_EQUAL => 5,
        code::EQUAL | code::UNEQUAL => 6,
        code::BIT_AND => 7,
        code::BIT_XOR => 8,
        code::BIT_OR => 9,
        code::AND => 10,
        code::XOR => 11,
        code::OR | code::OR_BARS => LOOSEST,
        _ => return None,
    })
}

struct Parser<'a> {
    tokens: &'a [Token],
    next: usize,
    nodes: Vec<Node>,
}

impl Parser<'_> {
    fn peek(&self) -> Option<u8> {
        self.tokens.get(self.next).map(|token| token.code)
    }

    /// Steps over the next token if it is this one.
    fn take(&mut self, wanted: u8) -> Option<()> {
        (self.peek() == Some(wanted)).then(|| self.next += 1)
    }

    fn add(&mut self, node: Node) -> NodeId {
        self.nodes.push(node);
        self.nodes.len() - 1
    }

    /// Level 13. The last arm is a choice again, so it groups to the right.
    fn expression(&mut self) -> Option<NodeId> {
        let test = self.binary(LOOSEST)?;
        let question = self.next;
        if self.take(code::QUESTION).is_none() {
            return Some(test);
        }
        let yes = self.expression()?;
        self.take(code::COLON)?;
        let no = self.expression()?;
        Some(self.add(Node::Choice(question, test, yes, no)))
    }

    /// Levels 2 to 12, as far as `loosest`. The right operand of an operator
    /// stops before the operator's own level, so equals group to the left.
    fn binary(&mut self, loosest: u8) -> Option<NodeId> {
        let mut left = self.unary()?;
        while let Some(code) = self.peek() {
            let operator = self.next;
            match level(code) {
                Some(level) if level <= loosest => {
                    self.next += 1;
                    let right = self.binary(level - 1)?;
                    left = self.add(Node::Binary(operator, left, right));
                }
                _ => break,
            }
        }
        Some(left)
    }

    /// Level 1.
    fn unary(&mut self) -> Option<NodeId> {
        match self.peek()? {
            code::NOT | code::PLUS | code::MINUS | code::COMPLEMENT => {
                let operator = self.next;
                self.next += 1;
                let inner = self.unary()?;
                Some(self.add(Node::Unary(operator, inner)))
            }
            _ => self.primary(),
        }
    }

    fn primary(&mut self) -> Option<NodeId> {
        match self.peek()? {
            code::OPEN => {
                self.next += 1;
                let inner = self.expression()?;
                self.take(code::CLOSE)?;
                Some(inner)
            }
            code::NUMBER
            | code::TRUTH
            | code::TEXT
            | code::WIDE
            | code::MACRO
            | code::PCD
            | code::BARE => {
                self.next += 1;
                Some(self.add(Node::Operand(self.next - 1)))
            }
            _ => None,
        }
    }
}
