//! The modules of the crate that decoding and script lines reach. The crate's own symcc.rs names these and
//! the compiler's besides; each module's text is the crate's, as oracle/edits.py leaves it.

pub mod bitvec;
pub mod decoder;
pub mod encoder;
pub mod env;
pub mod ext;
pub mod extension_types {
    pub mod datetime;
    pub mod decimal;
    pub mod ipaddr;
}
pub mod factory;
pub mod function;
pub mod interpretation;
pub mod op;
pub mod result;
pub mod smtlib_script;
pub mod tags;
pub mod term;
pub mod term_type;
pub mod type_abbrevs;

pub use env::SymEnv;
pub use result::CompileError;
