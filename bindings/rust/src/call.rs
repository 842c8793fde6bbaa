//! The one way into the library.

/// The report of a call. What the function takes is told by a word each: `sheets` the sheets of the call, `reads` a list that is read,
/// `writes` one that is written, `is` a number.
macro_rules! call {
    ($function:ident: $($told:tt)*) => { $crate::call::call!(@ $function () $($told)*,) };
    (@ $function:ident ($($taken:tt)*) sheets $sheets:expr, $($told:tt)*) => {{
        let $crate::Sheets { fittings, customers } = $sheets;
        let (fitted, fittings) = (fittings.is_some(), fittings.unwrap_or_default());
        $crate::call::call!(@ $function ($($taken)* fitted,) reads fittings, reads customers, $($told)*)
    }};
    (@ $function:ident ($($taken:tt)*) reads $list:expr, $($told:tt)*) => {
        $crate::call::call!(@ $function ($($taken)* <[_]>::as_ptr(&$list[..]), $list.len(),) $($told)*)
    };
    (@ $function:ident ($($taken:tt)*) writes $list:expr, $($told:tt)*) => {
        $crate::call::call!(@ $function ($($taken)* <[_]>::as_mut_ptr(&mut $list[..]), $list.len(),) $($told)*)
    };
    (@ $function:ident ($($taken:tt)*) is $number:expr, $($told:tt)*) => {
        $crate::call::call!(@ $function ($($taken)* $number,) $($told)*)
    };
    // SAFETY: slices are pointers to that many entries, which nobody writes meanwhile; those that are written are borrowed by nobody else.
    (@ $function:ident ($($taken:tt)*) $(,)?) => {
        unsafe { $crate::ffi::reported(|report| $crate::ffi::$function(report, $($taken)*)) }
    };
}

pub(crate) use call;
