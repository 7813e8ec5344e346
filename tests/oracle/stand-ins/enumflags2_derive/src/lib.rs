//! Stands for the crate `enumflags2_derive`: the attribute `bitflags` does what
//! the public documentation of `enumflags2` says, and only what the carried
//! files use (fieldless enums, one bit a variant, written out).

use proc_macro::{TokenStream, TokenTree};

/// Make an enum usable in `BitFlags`
#[proc_macro_attribute]
pub fn bitflags(_arguments: TokenStream, item: TokenStream) -> TokenStream {
    let name = enum_name(item.clone());
    let impls = format!(
        "impl ::enumflags2::BitFlag for {name} {{
            fn bit(self) -> u64 {{ self as u64 }}
        }}
        impl ::core::ops::BitOr for {name} {{
            type Output = ::enumflags2::BitFlags<{name}>;
            fn bitor(self, other: Self) -> Self::Output {{
                ::enumflags2::BitFlags::from(self) | other
            }}
        }}"
    );
    let mut out = item;
    out.extend(impls.parse::<TokenStream>().expect("bitflags: own code"));
    out
}

/// Find the enum's name
fn enum_name(item: TokenStream) -> String {
    let mut after_enum = false;
    for token in item {
        if let TokenTree::Ident(ident) = token {
            if after_enum {
                return ident.to_string();
            }
            after_enum = ident.to_string() == "enum";
        }
    }
    panic!("bitflags: not an enum");
}
