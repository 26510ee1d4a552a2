//! Lines that enter clauses, and conditions.
use crate::ast::*;
use crate::print::listing;
use crate::stop::Answer;
use crate::stop::Stop::{NoCall, Outside};
use crate::texts;
use crate::texts::{
    crate_refuses, decode, encode, encode_entity, encode_type, keeps_type_rule, sealed_slots,
};
use crate::world::{bit, World};
use std::sync::Arc;

const MOST_CLAUSES: usize = 256;
const LONGEST_TEXT: usize = 512;
const MOST_NODES: usize = 64;

/// A node of a tree line.
enum Node {
    Leaf(Expr),
    Not,
    Is(EntityType),
    And,
    Or,
    Eq,
    In,
}

impl Node {
    fn operands(&self) -> usize {
        match self {
            Node::Leaf(_) => 0,
            Node::Not | Node::Is(_) => 1,
            Node::And | Node::Or | Node::Eq | Node::In => 2,
        }
    }

    /// The node over its operands, of which there are as many as it wants.
    fn over(self, mut operands: Vec<Expr>) -> Expr {
        let last = operands.pop();
        match (self, operands.pop(), last) {
            (Node::Leaf(e), None, None) => e,
            (Node::Not, None, Some(a)) => Expr::not(a),
            (Node::Is(ty), None, Some(a)) => Expr::is_entity_type(a, ty),
            (Node::And, Some(a), Some(b)) => Expr::and(a, b),
            (Node::Or, Some(a), Some(b)) => Expr::or(a, b),
            (Node::Eq, Some(a), Some(b)) => Expr::is_eq(a, b),
            (Node::In, Some(a), Some(b)) => Expr::is_in(a, b),
            _ => unreachable!("as many operands as the node wants"),
        }
    }
}

fn is_constant(e: &Expr) -> bool {
    matches!(e.expr_kind(), ExprKind::Lit(Literal::Bool(_)))
}

/// The expression that nodes in postfix order write (7), and whether a literal stands directly under and, or, not, where
/// the Rust may fold.
fn built(nodes: Vec<Node>) -> Answer<(Expr, bool)> {
    let count = nodes.len();
    let (mut stack, mut foldable): (Vec<Expr>, bool) = (vec![], false);
    for (place, node) in nodes.into_iter().enumerate() {
        if stack.len() < node.operands() {
            return Err(Outside(7, place.to_string()));
        }
        let operands = stack.split_off(stack.len() - node.operands());
        if matches!(node, Node::Not | Node::And | Node::Or) {
            foldable |= operands
                .iter()
                .any(|e| matches!(e.expr_kind(), ExprKind::Lit(_)));
        }
        stack.push(node.over(operands));
    }
    match (stack.pop(), stack.is_empty()) {
        (Some(e), true) => Ok((e, foldable)),
        _ => Err(Outside(7, count.to_string())),
    }
}

impl World {
    /// The first `clause` or `tree` line says which kind of book it is; none comes behind a line on a set.
    fn settle(&mut self, trees: bool) -> Answer<()> {
        if self.clauses.closed {
            return Err(NoCall("clauses come before the first line on a set"));
        }
        if *self.clauses.trees.get_or_insert(trees) != trees {
            return Err(NoCall("clause and tree lines in one script"));
        }
        Ok(())
    }

    fn entered(&mut self, content: String, e: Expr) -> Answer<String> {
        self.clauses.list.push((content, e));
        Ok(format!("clause {}", self.clauses.list.len() - 1))
    }

    /// `clause TEXT`: 3, 4
    pub fn clause(&mut self, word: &str) -> Answer<String> {
        self.settle(false)?;
        let text = decode(word)?;
        if text.len() > LONGEST_TEXT {
            return Err(Outside(3, text.len().to_string()));
        }
        if self.clauses.list.len() == MOST_CLAUSES {
            return Err(Outside(4, String::new()));
        }
        let text = String::from_utf8(text).map_err(|_| Outside(0, "utf8".to_string()))?;
        let e = match text.as_str() {
            "true" => Expr::val(true),
            "false" => Expr::val(false),
            _ => Expr::sealed(text.clone(), sealed_slots(text.as_bytes())),
        };
        self.entered(text, e)
    }

    fn node(&mut self, word: &str, types: &mut Vec<String>) -> Answer<Node> {
        Ok(match word {
            "true" => Node::Leaf(Expr::val(true)),
            "false" => Node::Leaf(Expr::val(false)),
            "principal" => Node::Leaf(Expr::var(Var::Principal)),
            "action" => Node::Leaf(Expr::var(Var::Action)),
            "resource" => Node::Leaf(Expr::var(Var::Resource)),
            "?principal" => Node::Leaf(Expr::slot(SlotId::principal())),
            "?resource" => Node::Leaf(Expr::slot(SlotId::resource())),
            "not" => Node::Not,
            "and" => Node::And,
            "or" => Node::Or,
            "eq" => Node::Eq,
            "in" => Node::In,
            _ => match word.split_once(':') {
                Some(("entity", e)) => Node::Leaf(Expr::val(Arc::new(self.entity(e, types)?))),
                Some(("is", ty)) => Node::Is(self.entity_type(ty, types)?),
                _ => return Err(NoCall("no such node")),
            },
        })
    }

    /// The nodes of a tree line, and how they are printed.
    fn nodes_of(
        &mut self,
        words: &[&str],
        types: &mut Vec<String>,
    ) -> Answer<(Vec<Node>, Vec<String>)> {
        let (mut nodes, mut content) = (vec![], vec![]);
        for word in words {
            let node = self.node(word, types)?;
            match &node {
                Node::Leaf(e) if word.contains(':') => self.push_nodes(e, &mut content),
                Node::Is(ty) => content.push(format!("is:{}", encode_type(ty))),
                _ => content.push(word.to_string()),
            }
            nodes.push(node)
        }
        Ok((nodes, content))
    }

    /// `tree NODE ...`: 3, 5, 7, 4; then whether the Rust reads it so.
    pub fn tree(&mut self, words: &[&str]) -> Answer<String> {
        self.settle(true)?;
        let mut types = vec![];
        let (nodes, content) = self.nodes_of(words, &mut types)?;
        if nodes.len() > MOST_NODES {
            return Err(Outside(3, nodes.len().to_string()));
        }
        if let Some(ty) = types.iter().find(|ty| !keeps_type_rule(ty.as_bytes())) {
            return Err(Outside(5, encode(ty)));
        }
        let (e, foldable) = built(nodes)?;
        if self.clauses.list.len() == MOST_CLAUSES {
            return Err(Outside(4, String::new()));
        }
        if types.iter().any(|ty| crate_refuses(ty)) {
            return Err(Outside(0, "identifier".to_string()));
        }
        if foldable {
            return Err(Outside(0, "literal".to_string()));
        }
        self.check_tree(&content, &e);
        self.entered(content.join(" "), e)
    }

    /// An accepted tree: what docs/RULES.md reads off its nodes, against the expression, its slots and its equality.
    fn check_tree(&mut self, content: &[String], e: &Expr) {
        let slot = |word: &str, bit| {
            if content.iter().any(|node| node == word) {
                bit
            } else {
                0
            }
        };
        let wanted = slot("?principal", 1) | slot("?resource", 2);
        let found = e.slots().fold(0, |bits, slot| bits | bit(&slot.id));
        if wanted != found {
            self.fault(format!(
                "tree: slots {wanted} by the nodes, {found} by the Rust"
            ))
        }
        let mut again = vec![];
        self.push_nodes(e, &mut again);
        if again != content {
            self.fault("tree: the expression's nodes are not the line's".to_string())
        }
        if is_constant(e) != matches!(content, [only] if only == "true" || only == "false") {
            self.fault("tree: nodes and Rust disagree on the constant".to_string())
        }
        let content = content.join(" ");
        if self
            .clauses
            .list
            .iter()
            .any(|(other, x)| (*other == content) != (x == e))
        {
            self.fault("tree: nodes and Rust disagree on what is equal".to_string())
        }
    }

    /// The nodes of an expression in postfix order, a sealed clause being one node.
    fn push_nodes(&self, e: &Expr, nodes: &mut Vec<String>) {
        let (operands, last): (Vec<&Expr>, String) = match e.expr_kind() {
            ExprKind::Lit(Literal::Bool(value)) => (vec![], value.to_string()),
            ExprKind::Lit(Literal::EntityUID(e)) => {
                (vec![], format!("entity:{}", encode_entity(e)))
            }
            ExprKind::Var(var) => (vec![], var.to_string()),
            ExprKind::Slot(slot) => (vec![], slot.to_string()),
            ExprKind::Sealed { .. } => (vec![], format!("clause:{}", self.clause_word(Some(e)))),
            ExprKind::And { left, right } => (vec![left, right], "and".to_string()),
            ExprKind::Or { left, right } => (vec![left, right], "or".to_string()),
            ExprKind::UnaryApp {
                op: UnaryOp::Not,
                arg,
            } => (vec![arg], "not".to_string()),
            ExprKind::BinaryApp {
                op: BinaryOp::Eq,
                arg1,
                arg2,
            } => (vec![arg1, arg2], "eq".to_string()),
            ExprKind::BinaryApp {
                op: BinaryOp::In,
                arg1,
                arg2,
            } => (vec![arg1, arg2], "in".to_string()),
            ExprKind::Set(list) => (list.iter().collect(), format!("set:{}", list.len())),
            ExprKind::Is { expr, entity_type } => {
                (vec![expr], format!("is:{}", encode_type(entity_type)))
            }
        };
        operands
            .iter()
            .for_each(|operand| self.push_nodes(operand, nodes));
        nodes.push(last)
    }

    /// The nodes of a condition. A clause that is no constant folds nowhere, so it is the right end of three ands; it is
    /// found by that place, since a scope's part may equal it. None: the Rust gives another shape.
    fn condition_nodes(&self, t: &Template) -> Option<Vec<String>> {
        let (whole, mut nodes) = (t.condition(), vec![]);
        let Some(clause) = t
            .non_scope_constraints()
            .filter(|clause| !is_constant(clause))
        else {
            self.push_nodes(&whole, &mut nodes);
            return Some(nodes);
        };
        let mut rest = &whole;
        for _ in 0..3 {
            let ExprKind::And { left, right } = rest.expr_kind() else {
                return None;
            };
            self.push_nodes(left, &mut nodes);
            rest = right;
        }
        nodes.push(format!("clause:{}", self.clause_word(Some(rest))));
        nodes.extend(["and"; 3].map(String::from));
        (rest == clause).then_some(nodes)
    }

    /// `condition BODY [ROOM]`: 6, 2, 5, 24
    pub fn condition(&mut self, words: &[&str]) -> Answer<String> {
        let (body, room) = match words.split_at_checked(5) {
            Some((body, [])) => (body, None),
            Some((body, [room])) => (body, Some(*room)),
            _ => return Err(NoCall("wrong count of words")),
        };
        let (body, room) = (self.body(body)?, texts::room(room)?);
        let t = self.template(PolicyID::from_string("x"), &body)?;
        let nodes = self.condition_nodes(&t).unwrap_or_else(|| {
            self.fault("condition: the clause is not where it should be".to_string());
            vec![]
        });
        if nodes.len() > room {
            return Err(Outside(24, nodes.len().to_string()));
        }
        Ok(format!("ok {}", listing(nodes)))
    }
}
