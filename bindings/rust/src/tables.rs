//! The tables that a model is decoded by: sorts, variables, functions, enum members. They are read from their text, checked by
//! their rules, and looked up in.
//!
//! ```
//! use stazzumpi::tables::{Tables, Wanted};
//!
//! let text = b"sort=bool\nsort=bitvec 8\nsort=option 1\nvar=x 2\nfun=f 1 0\n";
//! let (mut sorts, mut variables, mut functions) = ([0; 15], [0; 5], [0; 5]);
//! let tables = Tables::read(text, &mut sorts, &mut [], &mut variables, &mut functions, &mut [])?;
//! assert_eq!(tables.find_variable(b"x"), Some(0));
//! assert_eq!(tables.find_variable(b"f"), None);
//! assert_eq!(tables.find_sort(Wanted::BitVec(8)), Some(1));
//! # Ok::<(), stazzumpi::Refusal>(())
//! ```

use crate::{ffi, Refusal};

/// The words of a row, in each table.
pub const ROW_WORDS: usize = 5;

/// Tables as they are lent: five words a row, the fields of records in one list, names and texts in one byte string.
/// include/stazzumpi.h says what each word is.
#[derive(Clone, Copy, Debug, Default)]
pub struct Tables<'a> {
    pub sorts: &'a [u64],
    pub fields: &'a [u64],
    pub variables: &'a [u64],
    pub functions: &'a [u64],
    pub members: &'a [u64],
    pub names: &'a [u8],
}

/// A sort that has no name; an option or a set is of a row.
#[derive(Clone, Copy, Debug, PartialEq, Eq)]
pub enum Wanted {
    Bool,
    String,
    Decimal,
    Datetime,
    Duration,
    BitVec(u64),
    Option(u64),
    Set(u64),
}

impl Wanted {
    /// Words 2 and 3 of its row.
    fn words(self) -> (u64, u64) {
        match self {
            Wanted::Bool => (1, 0),
            Wanted::String => (2, 0),
            Wanted::Decimal => (3, 0),
            Wanted::Datetime => (4, 0),
            Wanted::Duration => (5, 0),
            Wanted::BitVec(width) => (6, width),
            Wanted::Option(row) => (7, row),
            Wanted::Set(row) => (8, row),
        }
    }
}

/// What a lookup tells: 1 and a row, or 0 and 0. One that is refused finds no row; with room for its numbers, which it has
/// here, none is.
fn row(answer: Result<[usize; 2], Refusal>) -> Option<usize> {
    match answer {
        Ok([0, _]) | Err(_) => None,
        Ok([_, row]) => Some(row),
    }
}

impl<'a> Tables<'a> {
    /// Tables from their text form: a line a row, as in `sort=bitvec 8`, `var=x 2`, `fun=f 1 0`, `enum=Red 3 red` (the
    /// kinds in this order; include/stazzumpi.h has all forms). Rows are put at the front of the five slices; names are
    /// ranges of the text itself.
    ///
    /// Refusals: 9 for more than 65,536 bytes; 25 for a text that is not the text form of tables that break no rule; 26
    /// with the words that the first short slice needs. 5,120 words for each table and 32,768 for the fields are enough
    /// for any text. The call takes some 430,000 bytes of the stack.
    pub fn read(
        text: &'a [u8],
        sorts: &'a mut [u64],
        fields: &'a mut [u64],
        variables: &'a mut [u64],
        functions: &'a mut [u64],
        members: &'a mut [u64],
    ) -> Result<Tables<'a>, Refusal> {
        let [a, b, c, d, e] = call!(stazzumpi_read_tables(text; sorts, fields, variables, functions, members))?;
        Ok(Tables {
            sorts: &sorts[..a],
            fields: &fields[..b],
            variables: &variables[..c],
            functions: &functions[..d],
            members: &members[..e],
            names: text,
        })
    }

    /// The first row of that name among the variables.
    pub fn find_variable(&self, name: &[u8]) -> Option<usize> {
        row(call!(stazzumpi_find_variable(self.variables, self.names, name;)))
    }

    /// The first row of that name among the functions.
    pub fn find_function(&self, name: &[u8]) -> Option<usize> {
        row(call!(stazzumpi_find_function(self.functions, self.names, name;)))
    }

    /// The first row of that name among the enum members.
    pub fn find_member(&self, name: &[u8]) -> Option<usize> {
        row(call!(stazzumpi_find_member(self.members, self.names, name;)))
    }

    /// The first entity or record of that name among the sorts.
    pub fn find_sort_name(&self, name: &[u8]) -> Option<usize> {
        row(call!(stazzumpi_find_sort_name(self.sorts, self.names, name;)))
    }

    /// The first row of that sort.
    pub fn find_sort(&self, wanted: Wanted) -> Option<usize> {
        let (sorts, (kind, number)) = (self.sorts, wanted.words());
        // SAFETY: the slice is valid for its length, and `told` is room of its own.
        row(crate::answer(|told, n| unsafe {
            ffi::stazzumpi_find_sort(sorts.as_ptr(), sorts.len(), kind, number, told, n)
        }))
    }

    /// Whether they break no rule of document 01. Refusal: 25.
    ///
    /// ```
    /// use stazzumpi::{tables::Tables, Refusal};
    ///
    /// // the sort bool, and a variable x of it
    /// let tables = Tables { sorts: &[0, 0, 1, 0, 0], variables: &[0, 1, 0, 0, 0], names: b"x", ..Tables::default() };
    /// assert_eq!(tables.check(), Ok(()));
    /// assert_eq!(Tables { names: b"(", ..tables }.check(), Err(Refusal::BadTable));
    /// ```
    pub fn check(&self) -> Result<(), Refusal> {
        let Tables { sorts, fields, variables, functions, members, names } = *self;
        // SAFETY: slices are valid for their lengths, and nothing is written.
        let word = unsafe {
            ffi::stazzumpi_check_tables(
                sorts.as_ptr(),
                sorts.len(),
                fields.as_ptr(),
                fields.len(),
                variables.as_ptr(),
                variables.len(),
                functions.as_ptr(),
                functions.len(),
                members.as_ptr(),
                members.len(),
                names.as_ptr(),
                names.len(),
            )
        };
        if word == 0 {
            Ok(())
        } else {
            Err(Refusal::from_word(word))
        }
    }
}
