// Reduced forms of what policy.rs takes from the crate's `parser`. `SlotsInConditionClause` and `InvalidActionType` follow
// src/parser/err.rs of cedar-policy-core 4.14.0, Copyright Cedar Contributors, Apache-2.0 (see ../../LICENSE and
// ../../NOTICE), without the derives for messages. README.md lists what is left out.
#[derive(Debug, Clone, PartialEq, Eq, Hash, PartialOrd, Ord)]
pub struct Loc {
    pub span: miette::SourceSpan,
}
impl miette::SourceCode for Loc {}

pub mod err {
    pub mod parse_errors {
        use crate::ast;
        use nonempty::NonEmpty;
        use std::sync::Arc;

        #[derive(Debug, Clone, PartialEq, Eq)]
        pub struct SlotsInConditionClause {
            pub(crate) slot: ast::Slot,
            pub(crate) clause_type: &'static str,
        }

        #[derive(Debug, Clone, PartialEq, Eq)]
        pub struct InvalidActionType {
            pub(crate) euids: NonEmpty<Arc<ast::EntityUID>>,
        }
    }
}
