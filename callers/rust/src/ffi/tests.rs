//! The structs beside those of `dumarewhi.h`, as the C compiler lays them out.
use std::string::String;
use std::vec::Vec;

pub(super) type Rows = Vec<String>;

/// The layout of a struct as `c/layout.h` has it: its size, and of each field the offset and the size.
macro_rules! layout {
    ($type:ty, $name:ident, [$($field:ident),*]) => {{
        fn size<T>(_: *const T) -> usize {
            core::mem::size_of::<T>()
        }
        let memory = core::mem::MaybeUninit::<$type>::uninit();
        let start = memory.as_ptr();
        let name = stringify!($name);
        std::vec![
            std::format!("STRUCT({name}, {}", core::mem::size_of::<$type>()),
            $({
                // SAFETY: it is a field of the memory, which isn't read.
                let field = unsafe { core::ptr::addr_of!((*start).$field) };
                let offset = field as usize - start as usize;
                std::format!("FIELD({name}, {}, {offset}, {}", stringify!($field), size(field))
            },)*
        ]
    }};
}
pub(super) use layout;

#[test]
fn structs_are_as_in_c() {
    let of_c = include_str!("../../../c/layout.h").split(')');
    let wanted: Vec<_> = of_c
        .filter_map(|it| it.lines().last().map(str::trim))
        .filter_map(|it| match it.starts_with("FIELD(dm_") {
            true => it.rsplit_once(", ").map(|(row, _type)| row),
            false => Some(it).filter(|it| it.starts_with("STRUCT(dm_")),
        })
        .collect();
    assert_eq!(super::header::rows(), wanted);
}
