//! The table itself.

/// Hands the table of the public calls to a macro. A row has, in this order: the variant of [`Call`](crate::Call); the call's name; its
/// name in C; its parameters in C's order, those that are the call's own values in braces; its answer, with what it holds beside the
/// number; the numbers that refuse it, stage by stage. The first stage in which something is at fault decides; in a stage of several
/// numbers one fault excludes the others, as the first faulty number of a sheet does.
///
/// A parameter is a name, the name of its length in C where it is a slice, and a sort of [`Sort`](crate::Sort).
#[macro_export]
macro_rules! table {
    ($use:ident) => {
        $use! {
            /// Starts with no decisions, no events and this mask of selected fields, which the session keeps.
            Open open belaykeel_open
                (session: Session, sheet sheet_len: Sheet, engine: Number, order order_len: Bytes)
                { selected: Number }
                (offers offers_len: WrittenWords, rows rows_len: Work, memory memory_len: Work)
                -> u32 {} refused by [6] [1 2 3 4 5] [18] [7] [9] [14];

            /// Changes nothing and gives the offers.
            Show show belaykeel_show
                (session: Session, sheet sheet_len: Sheet, engine: Number, order order_len: Bytes)
                (offers offers_len: WrittenWords, rows rows_len: Work, memory memory_len: Work)
                -> u32 {} refused by [6] [1 2 3 4 5] [15] [7] [9] [14];

            /// Adds a choice of a setting, and the event.
            Choose choose belaykeel_choose
                (session: Session, sheet sheet_len: Sheet, engine: Number, order order_len: Bytes)
                { field: Number, position: Number }
                (offers offers_len: WrittenWords, rows rows_len: Work, memory memory_len: Work)
                -> u32 {} refused by [6] [1 2 3 4 5] [15] [7] [9] [10] [12] [14];

            /// Adds a strike of a setting, and the event.
            Strike strike belaykeel_strike
                (session: Session, sheet sheet_len: Sheet, engine: Number, order order_len: Bytes)
                { field: Number, position: Number }
                (offers offers_len: WrittenWords, rows rows_len: Work, memory memory_len: Work)
                -> u32 {} refused by [6] [1 2 3 4 5] [15] [7] [9] [10] [12] [14];

            /// Removes a choice that is in force, and adds the event.
            WithdrawChoice withdraw_choice belaykeel_withdraw_choice
                (session: Session, sheet sheet_len: Sheet, engine: Number, order order_len: Bytes)
                { field: Number, position: Number }
                (offers offers_len: WrittenWords, rows rows_len: Work, memory memory_len: Work)
                -> u32 {} refused by [6] [1 2 3 4 5] [15] [7] [9] [11] [12] [14];

            /// Removes a strike that is in force, and adds the event.
            WithdrawStrike withdraw_strike belaykeel_withdraw_strike
                (session: Session, sheet sheet_len: Sheet, engine: Number, order order_len: Bytes)
                { field: Number, position: Number }
                (offers offers_len: WrittenWords, rows rows_len: Work, memory memory_len: Work)
                -> u32 {} refused by [6] [1 2 3 4 5] [15] [7] [9] [11] [12] [14];

            /// Drops the latest event and reverses it: an added decision goes, a withdrawn one returns.
            Back back belaykeel_back
                (session: Session, sheet sheet_len: Sheet, engine: Number, order order_len: Bytes)
                (offers offers_len: WrittenWords, rows rows_len: Work, memory memory_len: Work)
                -> u32 {} refused by [6] [1 2 3 4 5] [15] [7] [9] [13] [14];

            /// Drops all events; decisions remain.
            CoilOn coil_on belaykeel_coil_on
                (session: Session, sheet sheet_len: Sheet, engine: Number, order order_len: Bytes)
                (offers offers_len: WrittenWords, rows rows_len: Work, memory memory_len: Work)
                -> u32 {} refused by [6] [1 2 3 4 5] [15] [7] [9] [14];

            /// Reads a sheet's bytes to its list of numbers.
            Read read belaykeel_read
                (sheet sheet_len: Sheet)
                (output output_len: WrittenWords)
                -> Answer { length } refused by [1 2 3 4 5] [6];

            /// Writes a list of numbers as a sheet's bytes.
            Write write belaykeel_write
                ()
                { numbers numbers_len: Words }
                (output output_len: WrittenBytes)
                -> Answer { length } refused by [1 3 20 4 5] [6];
        }
    };
}
