// Made by bindings/generate from bindings/interface.toml.

// Hands each table to a macro: its method, the members of its records that are names, and those that are CodeView records.
macro_rules! each_table {
    ($put:ident, $($given:tt)*) => {
        $put!($($given)*, threads, [], []);
        $put!($($given)*, modules, [name], [codeview]);
        $put!($($given)*, exceptions, [], []);
        $put!($($given)*, systems, [csd_version], []);
        $put!($($given)*, unloaded, [name], []);
        $put!($($given)*, regions, [], []);
        $put!($($given)*, thread_names, [name], []);
        $put!($($given)*, ranges, [], []);
    };
}
