// Reduced forms of what policy.rs takes from id.rs, name.rs, entity.rs and expr.rs. Short passages follow those files of
// cedar-policy-core 4.14.0 (src/ast), Copyright Cedar Contributors, Apache-2.0 (see ../../LICENSE and ../../NOTICE), with
// most of what they hold left out; README.md lists it.
use super::{PrincipalOrResource, SmolStr};
use std::sync::Arc;

// ---- id.rs ----
#[derive(Debug, PartialEq, Eq, Clone, Hash, PartialOrd, Ord)]
pub struct Id(SmolStr);
#[derive(Debug, PartialEq, Eq, Clone, Hash, PartialOrd, Ord)]
pub struct AnyId(SmolStr);
impl std::fmt::Display for Id {
    fn fmt(&self, f: &mut std::fmt::Formatter<'_>) -> std::fmt::Result {
        write!(f, "{}", self.0)
    }
}
impl std::fmt::Display for AnyId {
    fn fmt(&self, f: &mut std::fmt::Formatter<'_>) -> std::fmt::Result {
        write!(f, "{}", self.0)
    }
}

// ---- name.rs ----
#[derive(Debug, PartialEq, Eq, Clone, Hash, PartialOrd, Ord)]
pub struct Name {
    id: Id,
    path: Arc<Vec<Id>>,
}
impl Name {
    /// From a text that keeps the type-name rule of docs/RULES.md.
    pub fn of_text(s: &str) -> Self {
        let mut parts: Vec<Id> = s.split("::").map(|x| Id(x.to_string())).collect();
        let id = parts.pop().unwrap_or_else(|| Id(String::new()));
        Name {
            id,
            path: Arc::new(parts),
        }
    }
    pub fn basename(&self) -> &Id {
        &self.id
    }
}
impl std::fmt::Display for Name {
    fn fmt(&self, f: &mut std::fmt::Formatter<'_>) -> std::fmt::Result {
        for elem in self.path.as_ref() {
            write!(f, "{elem}::")?;
        }
        write!(f, "{}", self.id)?;
        Ok(())
    }
}

#[derive(Debug, Clone, Copy, Eq, PartialEq, PartialOrd, Ord, Hash)]
pub struct SlotId(pub(crate) ValidSlotId);
impl SlotId {
    pub fn principal() -> Self {
        Self(ValidSlotId::Principal)
    }
    pub fn resource() -> Self {
        Self(ValidSlotId::Resource)
    }
    pub fn is_principal(&self) -> bool {
        matches!(self, Self(ValidSlotId::Principal))
    }
}
impl From<PrincipalOrResource> for SlotId {
    fn from(v: PrincipalOrResource) -> Self {
        match v {
            PrincipalOrResource::Principal => SlotId::principal(),
            PrincipalOrResource::Resource => SlotId::resource(),
        }
    }
}
impl std::fmt::Display for SlotId {
    fn fmt(&self, f: &mut std::fmt::Formatter<'_>) -> std::fmt::Result {
        write!(f, "{}", self.0)
    }
}
#[derive(Debug, Clone, Copy, Eq, PartialEq, PartialOrd, Ord, Hash)]
pub(crate) enum ValidSlotId {
    Principal,
    Resource,
}
impl std::fmt::Display for ValidSlotId {
    fn fmt(&self, f: &mut std::fmt::Formatter<'_>) -> std::fmt::Result {
        let s = match self {
            ValidSlotId::Principal => "principal",
            ValidSlotId::Resource => "resource",
        };
        write!(f, "?{s}")
    }
}
/// Locations are always absent here, so plain equality is the Rust's.
#[derive(Debug, Clone, PartialEq, Eq, Hash)]
pub struct Slot {
    pub id: SlotId,
    pub loc: Option<crate::parser::Loc>,
}

// ---- entity.rs ----
pub static ACTION_ENTITY_TYPE: &str = "Action";
#[derive(PartialEq, Eq, Debug, Clone, Hash, PartialOrd, Ord)]
pub enum EntityType {
    EntityType(Name),
}
impl EntityType {
    pub fn is_action(&self) -> bool {
        match self {
            EntityType::EntityType(name) => name.basename() == &Id(ACTION_ENTITY_TYPE.to_string()),
        }
    }
}
impl std::fmt::Display for EntityType {
    fn fmt(&self, f: &mut std::fmt::Formatter<'_>) -> std::fmt::Result {
        match self {
            EntityType::EntityType(name) => write!(f, "{name}"),
        }
    }
}
#[derive(PartialEq, Eq, Debug, Clone, Hash, PartialOrd, Ord)]
pub enum Eid {
    Eid(SmolStr),
}
impl AsRef<str> for Eid {
    fn as_ref(&self) -> &str {
        match self {
            Eid::Eid(s) => s,
        }
    }
}
#[derive(Debug, Clone, PartialEq, Eq, Hash, PartialOrd, Ord)]
pub struct EntityUIDImpl {
    ty: EntityType,
    eid: Eid,
}
#[derive(Debug, Clone, PartialEq, Eq, Hash, PartialOrd, Ord)]
pub enum EntityUID {
    EntityUID(EntityUIDImpl),
}
impl EntityUID {
    pub fn from_components(ty: EntityType, eid: Eid) -> Self {
        Self::EntityUID(EntityUIDImpl { ty, eid })
    }
    pub fn entity_type(&self) -> &EntityType {
        match self {
            EntityUID::EntityUID(e) => &e.ty,
        }
    }
    pub fn eid(&self) -> &Eid {
        match self {
            EntityUID::EntityUID(e) => &e.eid,
        }
    }
    pub fn is_action(&self) -> bool {
        self.entity_type().is_action()
    }
}
impl std::fmt::Display for EntityUID {
    fn fmt(&self, f: &mut std::fmt::Formatter<'_>) -> std::fmt::Result {
        write!(
            f,
            "{}::\"{}\"",
            self.entity_type(),
            self.eid().as_ref().escape_debug()
        )
    }
}
/// Wanted by `Policy::unknown_entities` alone, which is never called.
impl std::str::FromStr for EntityUID {
    type Err = ();
    fn from_str(_: &str) -> Result<Self, ()> {
        Err(())
    }
}

// ---- expr.rs ----
#[derive(Debug, PartialEq, Eq, Hash, Clone, Copy, PartialOrd, Ord)]
pub enum Var {
    Principal,
    Action,
    Resource,
    Context,
}
impl From<PrincipalOrResource> for Var {
    fn from(v: PrincipalOrResource) -> Self {
        match v {
            PrincipalOrResource::Principal => Var::Principal,
            PrincipalOrResource::Resource => Var::Resource,
        }
    }
}
impl std::fmt::Display for Var {
    fn fmt(&self, f: &mut std::fmt::Formatter<'_>) -> std::fmt::Result {
        match self {
            Self::Principal => write!(f, "principal"),
            Self::Action => write!(f, "action"),
            Self::Resource => write!(f, "resource"),
            Self::Context => write!(f, "context"),
        }
    }
}
#[derive(Debug, Clone, PartialEq, Eq, Hash)]
pub enum Literal {
    Bool(bool),
    EntityUID(Arc<EntityUID>),
}
impl From<bool> for Literal {
    fn from(b: bool) -> Self {
        Literal::Bool(b)
    }
}
impl From<Arc<EntityUID>> for Literal {
    fn from(e: Arc<EntityUID>) -> Self {
        Literal::EntityUID(e)
    }
}
#[derive(Debug, Clone, Copy, PartialEq, Eq, Hash)]
pub enum UnaryOp {
    Not,
}
#[derive(Debug, Clone, Copy, PartialEq, Eq, Hash)]
pub enum BinaryOp {
    Eq,
    In,
}
#[derive(Debug, Clone, PartialEq, Eq, Hash)]
pub enum ExprKind {
    Lit(Literal),
    Var(Var),
    Slot(SlotId),
    And {
        left: Arc<Expr>,
        right: Arc<Expr>,
    },
    Or {
        left: Arc<Expr>,
        right: Arc<Expr>,
    },
    UnaryApp {
        op: UnaryOp,
        arg: Arc<Expr>,
    },
    BinaryApp {
        op: BinaryOp,
        arg1: Arc<Expr>,
        arg2: Arc<Expr>,
    },
    Set(Arc<Vec<Expr>>),
    Is {
        expr: Arc<Expr>,
        entity_type: EntityType,
    },
    /// An opaque clause: its text, and the slots found in it by the rules of docs/RULES.md, "Sealed books".
    Sealed {
        text: String,
        slots: Vec<SlotId>,
    },
}
#[derive(Debug, Clone, PartialEq, Eq, Hash)]
pub struct Expr {
    expr_kind: ExprKind,
}
#[derive(Debug, Clone, PartialEq, Eq)]
pub struct ExprValidationError(String);
impl From<ExprValidationError> for super::TemplateValidationError {
    fn from(e: ExprValidationError) -> Self {
        Self::InvalidExpression(e)
    }
}
/// Wanted by `Policy::unknown_entities` alone; there are no unknowns here.
pub struct Unknown {
    pub name: SmolStr,
    pub type_annotation: Option<Type>,
}
pub enum Type {
    Entity { ty: EntityType },
}
impl Expr {
    fn new(expr_kind: ExprKind) -> Self {
        Expr { expr_kind }
    }
    pub fn expr_kind(&self) -> &ExprKind {
        &self.expr_kind
    }
    pub fn with_maybe_source_loc(self, _: Option<crate::parser::Loc>) -> Self {
        self
    }
    pub fn val(v: impl Into<Literal>) -> Self {
        Self::new(ExprKind::Lit(v.into()))
    }
    pub fn var(v: Var) -> Self {
        Self::new(ExprKind::Var(v))
    }
    pub fn slot(s: SlotId) -> Self {
        Self::new(ExprKind::Slot(s))
    }
    pub fn not(e: Expr) -> Self {
        Self::new(ExprKind::UnaryApp {
            op: UnaryOp::Not,
            arg: Arc::new(e),
        })
    }
    pub fn is_eq(e1: Expr, e2: Expr) -> Self {
        Self::new(ExprKind::BinaryApp {
            op: BinaryOp::Eq,
            arg1: Arc::new(e1),
            arg2: Arc::new(e2),
        })
    }
    pub fn is_in(e1: Expr, e2: Expr) -> Self {
        Self::new(ExprKind::BinaryApp {
            op: BinaryOp::In,
            arg1: Arc::new(e1),
            arg2: Arc::new(e2),
        })
    }
    pub fn and(e1: Expr, e2: Expr) -> Self {
        Self::new(match (&e1.expr_kind, &e2.expr_kind) {
            (ExprKind::Lit(Literal::Bool(b1)), ExprKind::Lit(Literal::Bool(b2))) => {
                ExprKind::Lit(Literal::Bool(*b1 && *b2))
            }
            _ => ExprKind::And {
                left: Arc::new(e1),
                right: Arc::new(e2),
            },
        })
    }
    pub fn or(e1: Expr, e2: Expr) -> Self {
        Self::new(match (&e1.expr_kind, &e2.expr_kind) {
            (ExprKind::Lit(Literal::Bool(b1)), ExprKind::Lit(Literal::Bool(b2))) => {
                ExprKind::Lit(Literal::Bool(*b1 || *b2))
            }
            _ => ExprKind::Or {
                left: Arc::new(e1),
                right: Arc::new(e2),
            },
        })
    }
    pub fn set(exprs: impl IntoIterator<Item = Expr>) -> Self {
        Self::new(ExprKind::Set(Arc::new(exprs.into_iter().collect())))
    }
    pub fn is_entity_type(expr: Expr, entity_type: EntityType) -> Self {
        Self::new(ExprKind::Is {
            expr: Arc::new(expr),
            entity_type,
        })
    }
    pub fn sealed(text: String, slots: Vec<SlotId>) -> Self {
        Self::new(ExprKind::Sealed { text, slots })
    }
    fn gather(&self, out: &mut Vec<SlotId>) {
        match &self.expr_kind {
            ExprKind::Lit(_) | ExprKind::Var(_) => {}
            ExprKind::Slot(s) => out.push(*s),
            ExprKind::And { left: a, right: b }
            | ExprKind::Or { left: a, right: b }
            | ExprKind::BinaryApp {
                arg1: a, arg2: b, ..
            } => {
                a.gather(out);
                b.gather(out);
            }
            ExprKind::UnaryApp { arg: a, .. } | ExprKind::Is { expr: a, .. } => a.gather(out),
            ExprKind::Set(v) => v.iter().for_each(|e| e.gather(out)),
            ExprKind::Sealed { slots, .. } => out.extend(slots.iter().copied()),
        }
    }
    /// Left to right: the crate's own iterator over an expression is not compiled here.
    pub fn slots(&self) -> impl Iterator<Item = Slot> + '_ {
        let mut out = vec![];
        self.gather(&mut out);
        out.into_iter().map(|id| Slot { id, loc: None })
    }
    pub fn unknowns(&self) -> impl Iterator<Item = &Unknown> {
        std::iter::empty()
    }
    pub fn try_validate(self) -> Result<Self, ExprValidationError> {
        Ok(self)
    }
}
impl std::fmt::Display for Expr {
    fn fmt(&self, f: &mut std::fmt::Formatter<'_>) -> std::fmt::Result {
        write!(f, "{:?}", self.expr_kind)
    }
}
