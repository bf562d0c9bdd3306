//! From a grid size at run time to the crate's constant `GRID_SIZE`.

/// `with_size!(g, function(arguments))` is `function::<G>(arguments)` for the constant G that equals g, 0 to 255.
macro_rules! with_size {
    ($g:expr, $function:ident ( $($argument:expr),* )) => {
        match $g / 16 {
            0 => with_size!(@low 0, $g, $function($($argument),*)), 1 => with_size!(@low 1, $g, $function($($argument),*)),
            2 => with_size!(@low 2, $g, $function($($argument),*)), 3 => with_size!(@low 3, $g, $function($($argument),*)),
            4 => with_size!(@low 4, $g, $function($($argument),*)), 5 => with_size!(@low 5, $g, $function($($argument),*)),
            6 => with_size!(@low 6, $g, $function($($argument),*)), 7 => with_size!(@low 7, $g, $function($($argument),*)),
            8 => with_size!(@low 8, $g, $function($($argument),*)), 9 => with_size!(@low 9, $g, $function($($argument),*)),
            10 => with_size!(@low 10, $g, $function($($argument),*)), 11 => with_size!(@low 11, $g, $function($($argument),*)),
            12 => with_size!(@low 12, $g, $function($($argument),*)), 13 => with_size!(@low 13, $g, $function($($argument),*)),
            14 => with_size!(@low 14, $g, $function($($argument),*)), _ => with_size!(@low 15, $g, $function($($argument),*)),
        }
    };
    (@low $high:literal, $g:expr, $function:ident ( $($argument:expr),* )) => {
        match $g % 16 {
            0 => $function::<{ 16 * $high }>($($argument),*), 1 => $function::<{ 16 * $high + 1 }>($($argument),*),
            2 => $function::<{ 16 * $high + 2 }>($($argument),*), 3 => $function::<{ 16 * $high + 3 }>($($argument),*),
            4 => $function::<{ 16 * $high + 4 }>($($argument),*), 5 => $function::<{ 16 * $high + 5 }>($($argument),*),
            6 => $function::<{ 16 * $high + 6 }>($($argument),*), 7 => $function::<{ 16 * $high + 7 }>($($argument),*),
            8 => $function::<{ 16 * $high + 8 }>($($argument),*), 9 => $function::<{ 16 * $high + 9 }>($($argument),*),
            10 => $function::<{ 16 * $high + 10 }>($($argument),*), 11 => $function::<{ 16 * $high + 11 }>($($argument),*),
            12 => $function::<{ 16 * $high + 12 }>($($argument),*), 13 => $function::<{ 16 * $high + 13 }>($($argument),*),
            14 => $function::<{ 16 * $high + 14 }>($($argument),*), _ => $function::<{ 16 * $high + 15 }>($($argument),*),
        }
    };
}
