//! The library's functions, as include/stazzumpi.h has them.

extern "C" {
    pub fn stazzumpi_version() -> u64;

    pub fn stazzumpi_decode_string(
        s: *const u8,
        s_length: usize,
        out: *mut u8,
        out_length: usize,
        told: *mut u64,
        told_length: usize,
    ) -> u64;

    pub fn stazzumpi_parse_sexpr(
        input: *const u8,
        input_length: usize,
        nodes: *mut u64,
        nodes_length: usize,
        text: *mut u8,
        text_length: usize,
        stack: *mut u64,
        stack_length: usize,
        told: *mut u64,
        told_length: usize,
    ) -> u64;

    pub fn stazzumpi_check_arena(
        words: *const u64,
        words_length: usize,
        text: *const u8,
        text_length: usize,
        told: *mut u64,
        told_length: usize,
    ) -> u64;

    pub fn stazzumpi_check_tables(
        sorts: *const u64,
        sorts_length: usize,
        fields: *const u64,
        fields_length: usize,
        variables: *const u64,
        variables_length: usize,
        functions: *const u64,
        functions_length: usize,
        members: *const u64,
        members_length: usize,
        names: *const u8,
        names_length: usize,
    ) -> u64;

    pub fn stazzumpi_read_tables(
        text: *const u8,
        text_length: usize,
        sorts: *mut u64,
        sorts_length: usize,
        fields: *mut u64,
        fields_length: usize,
        variables: *mut u64,
        variables_length: usize,
        functions: *mut u64,
        functions_length: usize,
        members: *mut u64,
        members_length: usize,
        told: *mut u64,
        told_length: usize,
    ) -> u64;

    pub fn stazzumpi_find_variable(
        variables: *const u64,
        variables_length: usize,
        names: *const u8,
        names_length: usize,
        name: *const u8,
        name_length: usize,
        told: *mut u64,
        told_length: usize,
    ) -> u64;

    pub fn stazzumpi_find_function(
        functions: *const u64,
        functions_length: usize,
        names: *const u8,
        names_length: usize,
        name: *const u8,
        name_length: usize,
        told: *mut u64,
        told_length: usize,
    ) -> u64;

    pub fn stazzumpi_find_member(
        members: *const u64,
        members_length: usize,
        names: *const u8,
        names_length: usize,
        name: *const u8,
        name_length: usize,
        told: *mut u64,
        told_length: usize,
    ) -> u64;

    pub fn stazzumpi_find_sort_name(
        sorts: *const u64,
        sorts_length: usize,
        names: *const u8,
        names_length: usize,
        name: *const u8,
        name_length: usize,
        told: *mut u64,
        told_length: usize,
    ) -> u64;

    pub fn stazzumpi_find_sort(
        sorts: *const u64,
        sorts_length: usize,
        kind: u64,
        number: u64,
        told: *mut u64,
        told_length: usize,
    ) -> u64;

    pub fn stazzumpi_list_model(
        sorts: *const u64,
        sorts_length: usize,
        fields: *const u64,
        fields_length: usize,
        variables: *const u64,
        variables_length: usize,
        functions: *const u64,
        functions_length: usize,
        members: *const u64,
        members_length: usize,
        names: *const u8,
        names_length: usize,
        nodes: *const u64,
        nodes_length: usize,
        text: *const u8,
        text_length: usize,
        out: *mut u8,
        out_length: usize,
        told: *mut u64,
        told_length: usize,
    ) -> u64;
    pub fn stazzumpi_list_values(
        sorts: *const u64,
        sorts_length: usize,
        fields: *const u64,
        fields_length: usize,
        variables: *const u64,
        variables_length: usize,
        functions: *const u64,
        functions_length: usize,
        members: *const u64,
        members_length: usize,
        names: *const u8,
        names_length: usize,
        nodes: *const u64,
        nodes_length: usize,
        text: *const u8,
        text_length: usize,
        out: *mut u8,
        out_length: usize,
        told: *mut u64,
        told_length: usize,
    ) -> u64;

    pub fn stazzumpi_set_logic(
        logic: *const u8,
        logic_length: usize,
        out: *mut u8,
        out_length: usize,
        told: *mut u64,
        told_length: usize,
    ) -> u64;

    pub fn stazzumpi_set_option(
        option: *const u8,
        option_length: usize,
        value: *const u8,
        value_length: usize,
        out: *mut u8,
        out_length: usize,
        told: *mut u64,
        told_length: usize,
    ) -> u64;

    pub fn stazzumpi_comment(
        text: *const u8,
        text_length: usize,
        out: *mut u8,
        out_length: usize,
        told: *mut u64,
        told_length: usize,
    ) -> u64;

    pub fn stazzumpi_assert(
        term: *const u8,
        term_length: usize,
        out: *mut u8,
        out_length: usize,
        told: *mut u64,
        told_length: usize,
    ) -> u64;

    pub fn stazzumpi_define_fun(
        name: *const u8,
        name_length: usize,
        string: *const u8,
        string_length: usize,
        ends: *const u64,
        ends_length: usize,
        sort: *const u8,
        sort_length: usize,
        body: *const u8,
        body_length: usize,
        out: *mut u8,
        out_length: usize,
        told: *mut u64,
        told_length: usize,
    ) -> u64;

    pub fn stazzumpi_declare_const(
        name: *const u8,
        name_length: usize,
        sort: *const u8,
        sort_length: usize,
        out: *mut u8,
        out_length: usize,
        told: *mut u64,
        told_length: usize,
    ) -> u64;

    pub fn stazzumpi_declare_fun(
        name: *const u8,
        name_length: usize,
        string: *const u8,
        string_length: usize,
        ends: *const u64,
        ends_length: usize,
        sort: *const u8,
        sort_length: usize,
        out: *mut u8,
        out_length: usize,
        told: *mut u64,
        told_length: usize,
    ) -> u64;

    pub fn stazzumpi_declare_datatype(
        name: *const u8,
        name_length: usize,
        parameters: *const u8,
        parameters_length: usize,
        parameter_ends: *const u64,
        parameter_ends_length: usize,
        constructors: *const u8,
        constructors_length: usize,
        constructor_ends: *const u64,
        constructor_ends_length: usize,
        out: *mut u8,
        out_length: usize,
        told: *mut u64,
        told_length: usize,
    ) -> u64;

    pub fn stazzumpi_check_sat(out: *mut u8, out_length: usize, told: *mut u64, told_length: usize) -> u64;

    pub fn stazzumpi_get_model(out: *mut u8, out_length: usize, told: *mut u64, told_length: usize) -> u64;

    pub fn stazzumpi_reset(out: *mut u8, out_length: usize, told: *mut u64, told_length: usize) -> u64;

    pub fn stazzumpi_exit(out: *mut u8, out_length: usize, told: *mut u64, told_length: usize) -> u64;
}
