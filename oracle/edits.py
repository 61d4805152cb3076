"""The one table of edits: how the crate's text in docs/src becomes the text that the oracle builds.

`Swap` puts `new` in place of `old`. `Cut` takes out everything from `first` up to, and without, `stop`
(the end of the file where `stop` is None) and leaves `left`, a bracket that has to stay, in its place.
Every text to be found has to stand in its file exactly once.
No edit touches a rule of reading or decoding: they open what is private, drop what decoding never
reaches, and add the one hook.
"""

from typing import NamedTuple, Optional


class Swap(NamedTuple):
    why: str
    old: str
    new: str


class Cut(NamedTuple):
    why: str
    first: str
    stop: Optional[str]
    left: str = ""


OPENED = "opened for the driver"
NO_ZERO = "Debian's num-bigint has no constant ZERO"
NO_SCHEMA = "built from a schema, which decoding never sees"
NO_TAGS = "needs entity_tag.rs, which is not in the text; decoding makes no tags"
NO_TEXT = "Display is left out of the port and would need cedar_policy_core"
BUILDING = "builds values from Cedar's own text or expressions; decoding builds them from numbers"

EDITS = {
    "symcc/decoder/sexpr.rs": [
        Swap(OPENED, "fn decode_string(", "pub fn decode_string("),
    ],
    "symcc/decoder.rs": [
        Swap(OPENED, "mod sexpr;\nuse sexpr::", "pub mod sexpr;\nuse sexpr::"),
        Swap(OPENED + ": IdMaps is built by hand from document 01's tables",
             "    types: BTreeMap<&'a SmolStr, &'a TermType>,", "    pub types: BTreeMap<&'a SmolStr, &'a TermType>,"),
        Swap(OPENED, "    vars: BTreeMap<&'a SmolStr, &'a TermVar>,", "    pub vars: BTreeMap<&'a SmolStr, &'a TermVar>,"),
        Swap(OPENED, "    uufs: BTreeMap<&'a SmolStr, &'a Uuf>,", "    pub uufs: BTreeMap<&'a SmolStr, &'a Uuf>,"),
        Swap(OPENED, "    enums: BTreeMap<SmolStr, EntityUid>,", "    pub enums: BTreeMap<SmolStr, EntityUid>,"),
        Swap(OPENED + ": called after parse_sexpr, so that input need not be UTF-8",
             "    fn decode_model<'a>(\n        &self,", "    pub fn decode_model<'a>(\n        &self,"),
        Cut("IdMaps is built by hand, not from an encoder", "impl<'a> IdMaps<'a> {", "impl TermType {\n"),
        Swap("the encoder's state is not there", "use super::encoder::Encoder;\n", ""),
    ],
    "symcc/bitvec.rs": [
        Swap("the hook: document 01's arena holds this number, not the stored vector",
             "    pub fn of_int(width: Width, v: Int) -> Self {\n        if v >= BigInt::ZERO {",
             "    pub fn of_int(width: Width, v: Int) -> Self {\n        crate::hook::note(&v);\n"
             "        if v >= BigInt::default() {"),
        Swap(NO_ZERO, "                BigInt::ZERO\n", "                BigInt::default()\n"),
        Swap(NO_ZERO, "        bit != BigUint::ZERO\n", "        bit != BigUint::default()\n"),
        Swap(NO_ZERO, "        self.v == BigUint::ZERO\n", "        self.v == BigUint::default()\n"),
        Swap(NO_ZERO, "        if rhs.v == BigUint::ZERO {\n            Ok(BitVec::all_ones(lhs.width))",
             "        if rhs.v == BigUint::default() {\n            Ok(BitVec::all_ones(lhs.width))"),
        Swap(NO_ZERO, "        if rhs.v == BigUint::ZERO {\n            Ok(lhs.clone())",
             "        if rhs.v == BigUint::default() {\n            Ok(lhs.clone())"),
    ],
    "symcc/encoder.rs": [
        Cut("only the greatest code point is reached: the encoder's imports, errors and async writers go",
            "use async_recursion::async_recursion;", "/// The maximum Unicode code point supported"),
        Cut("encoding", "/// This function needs to encode unicode strings", None),
    ],
    "symcc/env.rs": [
        Cut(NO_SCHEMA, "use super::function::{\n    self,", "use super::tags::SymTags;"),
        Cut(NO_SCHEMA, "use cedar_policy::{RequestEnv, Schema};", "use std::collections::{BTreeMap, BTreeSet};"),
        Swap("the imports that stay", "use super::tags::SymTags;\nuse super::term::{Term, TermPrim, TermVar};\n"
             "use super::term_type::TermType;\n",
             "use super::function::UnaryFunction;\nuse super::tags::SymTags;\nuse super::term::Term;\n"
             "use smol_str::SmolStr;\n"),
        Cut(NO_SCHEMA, "// ----- Functions for constructing symbolic input from a schema -----", None),
    ],
    "symcc/ext.rs": [
        Cut(BUILDING, "use std::str::FromStr;", "use super::extension_types::datetime::{Datetime, Duration};"),
        Cut(BUILDING, "/// Errors in [`Ext`] operations.", None),
    ],
    "symcc/extension_types/datetime.rs": [
        Cut(BUILDING, "use std::str::FromStr;", "/// Internal representation of Cedar `datetime` values."),
        Cut(BUILDING, "/// Errors in [`Datetime`] and [`Duration`] operations.", "const MILLISECONDS_PER_SECOND"),
        Cut(BUILDING, "    /// Returns true iff s is a datetime str", "impl From<Datetime> for i64 {", "}\n\n"),
        Cut(BUILDING, "    /// Parses the unit part of a duration string.",
            "#[expect(\n    clippy::derivable_impls,\n    reason = \"Make explicit as require the default be 0\"\n)]\n"
            "impl Default for Duration {", "}\n\n"),
    ],
    "symcc/extension_types/decimal.rs": [],
    "symcc/extension_types/ipaddr.rs": [
        Swap(NO_ZERO, ".fold(BigUint::ZERO, |acc, c|", ".fold(BigUint::default(), |acc, c|"),
    ],
    "symcc/factory.rs": [
        Swap(NO_TAGS, "use super::entity_tag::EntityTag;\n", ""),
        Cut(NO_TAGS, "pub fn tag_of(", "// ---------- SMTLib core theory of equality"),
        Cut("matching a pattern is in cedar_policy_core; decoding makes no `like`", "pub fn string_like(",
            "// // ---------- Extension ADT operators with a trusted mapping to SMT"),
    ],
    "symcc/function.rs": [],
    "symcc/interpretation.rs": [
        Cut("interpreting a symbolic environment comes after decoding", "impl Interpretation<'_> {", None),
        Swap("the imports that stay",
             "use std::collections::{BTreeMap, HashMap};\nuse std::sync::Arc;\n\n"
             "use super::env::{SymEntities, SymEntityData, SymRequest};\nuse super::function::{Udf, UnaryFunction};\n"
             "use super::op::{ExtOp, Op, Uuf};\nuse super::tags::SymTags;\nuse super::term::{Term, TermVar};\n"
             "use super::{factory, SymEnv};\n",
             "use std::collections::BTreeMap;\n\nuse super::function::Udf;\nuse super::op::Uuf;\n"
             "use super::term::{Term, TermVar};\nuse super::SymEnv;\n"),
        Swap(OPENED, "    pub(super) vars: BTreeMap<TermVar, Term>,", "    pub vars: BTreeMap<TermVar, Term>,"),
        Swap(OPENED, "    pub(super) funs: BTreeMap<Uuf, Udf>,", "    pub funs: BTreeMap<Uuf, Udf>,"),
    ],
    "symcc/op.rs": [],
    "symcc/result.rs": [
        Swap(BUILDING, "use super::ext::ExtError;\n", ""),
        Swap(BUILDING, "    /// Extension error.\n    #[error(\"extension error\")]\n    ExtError(#[from] ExtError),\n", ""),
    ],
    "symcc/smtlib_script.rs": [],
    "symcc/tags.rs": [
        Swap("the imports that stay",
             "use super::{\n    factory::{app, if_true, set_member, tag_of},\n    function::UnaryFunction,\n    term::Term,\n};\n",
             "use super::function::UnaryFunction;\n"),
        Cut(NO_TAGS, "    pub fn has_tag(", "    pub fn is_literal("),
    ],
    "symcc/term.rs": [
        Cut(NO_TEXT, "impl std::fmt::Display for Term {", None),
        Swap("only Display used it", "use smol_str::{format_smolstr, SmolStr};", "use smol_str::SmolStr;"),
        Swap("only Display used it", "    ops::Deref,\n", ""),
    ],
    "symcc/term_type.rs": [
        Cut(NO_SCHEMA, "use cedar_policy_core::validator::types::{AttributeType,", "use super::{entity_tag::EntityTag, type_abbrevs::*};"),
        Swap(NO_TAGS, "use super::{entity_tag::EntityTag, type_abbrevs::*};", "use super::type_abbrevs::*;"),
        Cut(NO_TAGS, "    /// Returns the type of tag keys", "    /// Checks if the term type is a primitive type"),
        Cut(NO_SCHEMA, "    /// Converts a Cedar [`Type`] into a [`TermType`].", None, "}\n"),
    ],
    "symcc/type_abbrevs.rs": [
        Swap("O(1) casts of Cedar's types need ref_cast", "use ref_cast::RefCast;\n", ""),
        Cut("Cedar's own literals; decoding makes none",
            "#[expect(missing_docs, reason = \"existing code\")]\npub type Prim =",
            "#[expect(missing_docs, reason = \"existing code\")]\npub type Nat ="),
        Cut("O(1) casts of Cedar's types need ref_cast", "/// Convert `ast::EntityType` into", "/// Types of extensions."),
    ],
}
