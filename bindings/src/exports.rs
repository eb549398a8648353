//! The functions of the proved archive, one row for each, beside the
//! definition that its contract names. A row is a safe function: no export has
//! a requires, so the function tests nothing, and declares and calls the one
//! of the archive, where a slice is a pointer and a number of elements, and a
//! slice that need not be given (`?[u8]`) has in front whether it is.
//!
//! Nothing checks these rows against the Rattle source but the comparisons
//! with the second implementation.

use values::Cell;

macro_rules! exports {
    ($(
        $(#[$definition:meta])*
        $export:ident($(
            $given:ident: $(&[$read:ty])? $(&mut [$lent:ty])? $(?[$may:ty])? $($number:ident)?
        ),*);
    )*) => {$(
        $(#[$definition])*
        #[allow(clippy::too_many_arguments)]
        pub fn $export(
            $($given: $(&[$read])? $(&mut [$lent])? $(Option<&[$may]>)? $($number)?),*
        ) -> bool {
            extern "C" {
                fn $export($(
                    $($given: *const $read, _: usize,)?
                    $($given: *mut $lent, _: usize,)?
                    $(_: bool, $given: *const $may, _: usize,)?
                    $($given: $number,)?
                )*) -> bool;
            }
            // SAFETY: each pointer and length are those of a slice.
            unsafe {
                $export($(
                    $(<[$read]>::as_ptr($given), $given.len(),)?
                    $(<[$lent]>::as_mut_ptr($given), $given.len(),)?
                    $(
                        $given.is_some(),
                        <[$may]>::as_ptr($given.unwrap_or_default()),
                        $given.unwrap_or_default().len(),
                    )?
                    $($given as $number,)?
                )*)
            }
        }
    )*};
}

// crates/exports/src/calls.rt; the definitions are those of model/Calls,
// model/Gates, model/PartCalls and model/TextCalls. A call that checks a program has in
// front what is given beside it: the table of operator times, if any, the number of
// procedures and the pulse length.
exports! {
    /// checkCall
    hub_check(
        table: ?[u8], procedures: usize, pulse: u8, program: &[u8], reply: &mut [u8]
    );

    /// compileCall
    hub_compile(
        table: ?[u8], procedures: usize, pulse: u8, program: &[u8], file: &mut [u8], reply: &mut [u8]
    );

    /// joinCall, of the parts that PartCalls' partsIn finds
    hub_join(
        table: ?[u8], lengths: &[u32], pulses: &[u8], parts: &[u8], file: &mut [u8], reply: &mut [u8]
    );

    /// readTextCall
    hub_read_text(
        table: ?[u8], procedures: usize, pulse: u8, text: &[u8], program: &mut [u8], reply: &mut [u8]
    );

    /// compileTextCall
    hub_compile_text(
        table: ?[u8], procedures: usize, pulse: u8, text: &[u8], file: &mut [u8], reply: &mut [u8]
    );

    /// writeCall
    hub_write(pulse: u8, cells: &[u8], finish: u16, file: &mut [u8], reply: &mut [u8]);

    /// readCall
    hub_read(file: &[u8], cells: &mut [u8], reply: &mut [u8]);

    /// beginCall Full
    hub_begin(netlist: &[u8], words: &[u8], state: &mut [u8], reply: &mut [u8]);

    /// beginCall Compact
    hub_begin_compact(netlist: &[u8], words: &[u8], state: &mut [u8], reply: &mut [u8]);

    /// continueCall Full
    hub_continue(netlist: &[u8], state: &mut [u8], n: u32, reply: &mut [u8]);

    /// continueCall Compact
    hub_continue_compact(netlist: &[u8], state: &mut [u8], n: u32, reply: &mut [u8]);

    /// startCall Full
    hub_start(netlist: &[u8], state: &mut [u8], reply: &mut [u8]);

    /// startCall Compact
    hub_start_compact(netlist: &[u8], state: &mut [u8], reply: &mut [u8]);

    /// runProgramCall
    hub_run_program(
        table: ?[u8], procedures: usize, pulse: u8, program: &[u8], words: &[u8], budget: u32,
        netlist: &mut [u8], state: &mut [u8], reply: &mut [u8]
    );

    /// runTextCall
    hub_run_text(
        table: ?[u8], procedures: usize, pulse: u8, text: &[u8], words: &[u8], budget: u32,
        netlist: &mut [u8], state: &mut [u8], reply: &mut [u8]
    );

    /// runNetlistCall
    hub_run_netlist(
        netlist: &[u8], words: &[u8], budget: u32, state: &mut [u8], reply: &mut [u8]
    );

    /// slowRunCall, which no pulse length is given to
    hub_slow_run(
        table: ?[u8], procedures: usize, program: &[u8], words: &[u8], budget: u32,
        values: &mut [u8], work: &mut [u8], reply: &mut [u8]
    );

    /// referenceCall
    hub_reference(
        table: ?[u8], procedures: usize, pulse: u8, program: &[u8], words: &[u8], budget: u32,
        reply: &mut [u8]
    );
}

// The same for functional circuits, which are given a table alone; the definitions
// are those of model/FunctionalCalls.
exports! {
    /// checkFunctionalCall
    hub_check_functional(table: ?[u8], program: &[u8], reply: &mut [u8]);

    /// compileFunctionalCall
    hub_compile_functional(
        table: ?[u8], program: &[u8], file: &mut [u8], reply: &mut [u8]
    );

    /// referenceFunctionalCall
    hub_reference_functional(
        table: ?[u8], program: &[u8], words: &[u8], budget: u32, reply: &mut [u8]
    );

    /// beginFunctionalCall Full
    hub_begin_functional(netlist: &[u8], words: &[u8], state: &mut [u8], reply: &mut [u8]);

    /// beginFunctionalCall Compact
    hub_begin_functional_compact(
        netlist: &[u8], words: &[u8], state: &mut [u8], reply: &mut [u8]
    );

    /// continueFunctionalCall Full
    hub_continue_functional(netlist: &[u8], state: &mut [u8], n: u32, reply: &mut [u8]);

    /// continueFunctionalCall Compact
    hub_continue_functional_compact(netlist: &[u8], state: &mut [u8], n: u32, reply: &mut [u8]);

    /// startFunctionalCall Full
    hub_start_functional(netlist: &[u8], state: &mut [u8], reply: &mut [u8]);

    /// startFunctionalCall Compact
    hub_start_functional_compact(netlist: &[u8], state: &mut [u8], reply: &mut [u8]);

    /// runFunctionalCall
    hub_run_functional(
        netlist: &[u8], words: &[u8], budget: u32, state: &mut [u8], reply: &mut [u8]
    );

    /// runFunctionalProgramCall
    hub_run_functional_program(
        table: ?[u8], program: &[u8], words: &[u8], budget: u32, netlist: &mut [u8],
        state: &mut [u8], reply: &mut [u8]
    );
}

// crates/exports/src/lib.rt and moves.rt; the definitions are those of model/CellSlices.
exports! {
    /// checkCellsCall
    hub_check_cells(cells: &[Cell], finish: u16, reply: &mut [u8]);

    /// writeCellsCall
    hub_write_cells(
        pulse: u8, cells: &[Cell], finish: u16, file: &mut [u8], reply: &mut [u8]
    );

    /// readCellsCall
    hub_read_cells(file: &[u8], at: usize, cells: &mut [Cell], reply: &mut [u8]);

    /// renumberCall; has no reply
    hub_renumber(cells: &mut [u8], from: usize, end: usize, by: u16);
}
