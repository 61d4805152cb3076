//! Our library beside the crate: what `rt lib` writes for crates/stazzumpi, called as C calls it.

// The bench calls fewer of them than the comparison.
#![allow(dead_code)]

extern "C" {
    // A slice is passed as two words, its address and its length.
    #[allow(improper_ctypes)]
    fn stazzumpi_decode_string(s: &[u8], out: &mut [u8], told: &mut [u64]) -> u64;
    #[allow(improper_ctypes)]
    fn stazzumpi_parse_sexpr(input: &[u8], nodes: &mut [u64], text: &mut [u8], stack: &mut [u64], told: &mut [u64]) -> u64;
    #[allow(improper_ctypes)]
    fn stazzumpi_check_arena(words: &[u64], text: &[u8], told: &mut [u64]) -> u64;
    #[allow(improper_ctypes)]
    fn stazzumpi_check_tables(sorts: &[u64], fields: &[u64], variables: &[u64], functions: &[u64], members: &[u64], names: &[u8]) -> u64;
    #[allow(improper_ctypes)]
    fn stazzumpi_read_tables(
        text: &[u8],
        sorts: &mut [u64],
        fields: &mut [u64],
        variables: &mut [u64],
        functions: &mut [u64],
        members: &mut [u64],
        told: &mut [u64],
    ) -> u64;
    #[allow(improper_ctypes)]
    fn stazzumpi_find_variable(variables: &[u64], names: &[u8], name: &[u8], told: &mut [u64]) -> u64;
    #[allow(improper_ctypes)]
    fn stazzumpi_list_model(
        sorts: &[u64],
        fields: &[u64],
        variables: &[u64],
        functions: &[u64],
        members: &[u64],
        names: &[u8],
        nodes: &[u64],
        text: &[u8],
        out: &mut [u8],
        told: &mut [u64],
    ) -> u64;
    #[allow(improper_ctypes)]
    fn stazzumpi_list_values(
        sorts: &[u64],
        fields: &[u64],
        variables: &[u64],
        functions: &[u64],
        members: &[u64],
        names: &[u8],
        nodes: &[u64],
        text: &[u8],
        out: &mut [u8],
        told: &mut [u64],
    ) -> u64;
    #[allow(improper_ctypes)]
    fn stazzumpi_set_logic(logic: &[u8], out: &mut [u8], told: &mut [u64]) -> u64;
    #[allow(improper_ctypes)]
    fn stazzumpi_set_option(option: &[u8], value: &[u8], out: &mut [u8], told: &mut [u64]) -> u64;
    #[allow(improper_ctypes)]
    fn stazzumpi_comment(text: &[u8], out: &mut [u8], told: &mut [u64]) -> u64;
    #[allow(improper_ctypes)]
    fn stazzumpi_assert(term: &[u8], out: &mut [u8], told: &mut [u64]) -> u64;
    #[allow(improper_ctypes)]
    fn stazzumpi_define_fun(name: &[u8], string: &[u8], ends: &[u64], sort: &[u8], body: &[u8], out: &mut [u8], told: &mut [u64]) -> u64;
    #[allow(improper_ctypes)]
    fn stazzumpi_declare_const(name: &[u8], sort: &[u8], out: &mut [u8], told: &mut [u64]) -> u64;
    #[allow(improper_ctypes)]
    fn stazzumpi_declare_fun(name: &[u8], string: &[u8], ends: &[u64], sort: &[u8], out: &mut [u8], told: &mut [u64]) -> u64;
    #[allow(improper_ctypes)]
    fn stazzumpi_declare_datatype(name: &[u8], parameters: &[u8], stops: &[u64], constructors: &[u8], ends: &[u64], out: &mut [u8], told: &mut [u64]) -> u64;
    #[allow(improper_ctypes)]
    fn stazzumpi_check_sat(out: &mut [u8], told: &mut [u64]) -> u64;
    #[allow(improper_ctypes)]
    fn stazzumpi_get_model(out: &mut [u8], told: &mut [u64]) -> u64;
    #[allow(improper_ctypes)]
    fn stazzumpi_reset(out: &mut [u8], told: &mut [u64]) -> u64;
    #[allow(improper_ctypes)]
    fn stazzumpi_exit(out: &mut [u8], told: &mut [u64]) -> u64;
}

// Every slice below is a live borrow of its own, which is all that the library asks of its caller.

pub fn decode_string(s: &[u8], out: &mut [u8], told: &mut [u64]) -> u64 {
    unsafe { stazzumpi_decode_string(s, out, told) }
}

pub fn parse_sexpr(input: &[u8], nodes: &mut [u64], text: &mut [u8], stack: &mut [u64], told: &mut [u64]) -> u64 {
    unsafe { stazzumpi_parse_sexpr(input, nodes, text, stack, told) }
}

pub fn check_arena(words: &[u64], text: &[u8], told: &mut [u64]) -> u64 {
    unsafe { stazzumpi_check_arena(words, text, told) }
}

pub fn check_tables(sorts: &[u64], fields: &[u64], variables: &[u64], functions: &[u64], members: &[u64], names: &[u8]) -> u64 {
    unsafe { stazzumpi_check_tables(sorts, fields, variables, functions, members, names) }
}

/// The five lists that tables are read into: sorts, fields, variables, functions, members.
pub fn read_tables(text: &[u8], lists: [&mut [u64]; 5], told: &mut [u64]) -> u64 {
    let [sorts, fields, variables, functions, members] = lists;
    unsafe { stazzumpi_read_tables(text, sorts, fields, variables, functions, members, told) }
}

/// The same five lists, and an arena.
pub fn find_variable(variables: &[u64], names: &[u8], name: &[u8], told: &mut [u64]) -> u64 {
    unsafe { stazzumpi_find_variable(variables, names, name, told) }
}

pub fn list_model(lists: [&[u64]; 5], names: &[u8], nodes: &[u64], text: &[u8], out: &mut [u8], told: &mut [u64]) -> u64 {
    let [sorts, fields, variables, functions, members] = lists;
    unsafe { stazzumpi_list_model(sorts, fields, variables, functions, members, names, nodes, text, out, told) }
}

/// The same of a reply to get-value.
pub fn list_values(lists: [&[u64]; 5], names: &[u8], nodes: &[u64], text: &[u8], out: &mut [u8], told: &mut [u64]) -> u64 {
    let [sorts, fields, variables, functions, members] = lists;
    unsafe { stazzumpi_list_values(sorts, fields, variables, functions, members, names, nodes, text, out, told) }
}

/// A list as the script's calls take it: the texts one after the other, and where each ends.
#[derive(Clone, Debug, Default)]
pub struct Joined {
    pub string: Vec<u8>,
    pub ends: Vec<u64>,
}

impl Joined {
    pub fn of(texts: &[String]) -> Joined {
        texts.iter().fold(Joined::default(), |mut list, text| {
            list.string.extend_from_slice(text.as_bytes());
            list.ends.push(list.string.len() as u64);
            list
        })
    }
}

/// One of the twelve lines, with its parts.
#[derive(Clone, Debug)]
pub enum Line {
    SetLogic(String),
    SetOption(String, String),
    Comment(String),
    Assert(String),
    DefineFun(String, Vec<String>, String, String),
    DeclareConst(String, String),
    DeclareFun(String, Vec<String>, String),
    DeclareDatatype(String, Vec<String>, Vec<String>),
    CheckSat,
    GetModel,
    Reset,
    Exit,
}

/// The lists among a line's parts, as the calls take them.
pub fn lists(line: &Line) -> [Joined; 2] {
    match line {
        Line::DefineFun(_, list, ..) | Line::DeclareFun(_, list, _) => [Joined::of(list), Joined::default()],
        Line::DeclareDatatype(_, parameters, constructors) => [Joined::of(parameters), Joined::of(constructors)],
        _ => [Joined::default(), Joined::default()],
    }
}

pub fn write(line: &Line, out: &mut [u8], told: &mut [u64]) -> u64 {
    write_lists(line, &lists(line), out, told)
}

/// Writes a line whose lists are joined already.
pub fn write_lists(line: &Line, [first, second]: &[Joined; 2], out: &mut [u8], told: &mut [u64]) -> u64 {
    unsafe {
        match line {
            Line::SetLogic(logic) => stazzumpi_set_logic(logic.as_bytes(), out, told),
            Line::SetOption(option, value) => stazzumpi_set_option(option.as_bytes(), value.as_bytes(), out, told),
            Line::Comment(text) => stazzumpi_comment(text.as_bytes(), out, told),
            Line::Assert(term) => stazzumpi_assert(term.as_bytes(), out, told),
            Line::DefineFun(name, _, sort, body) => {
                stazzumpi_define_fun(name.as_bytes(), &first.string, &first.ends, sort.as_bytes(), body.as_bytes(), out, told)
            }
            Line::DeclareConst(name, sort) => stazzumpi_declare_const(name.as_bytes(), sort.as_bytes(), out, told),
            Line::DeclareFun(name, _, sort) => {
                stazzumpi_declare_fun(name.as_bytes(), &first.string, &first.ends, sort.as_bytes(), out, told)
            }
            Line::DeclareDatatype(name, ..) => {
                stazzumpi_declare_datatype(name.as_bytes(), &first.string, &first.ends, &second.string, &second.ends, out, told)
            }
            Line::CheckSat => stazzumpi_check_sat(out, told),
            Line::GetModel => stazzumpi_get_model(out, told),
            Line::Reset => stazzumpi_reset(out, told),
            Line::Exit => stazzumpi_exit(out, told),
        }
    }
}
