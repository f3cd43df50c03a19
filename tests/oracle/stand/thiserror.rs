//! Type. `derive(Error)` gives an enum the two traits; its text is the variant as `Debug` shows it.
extern crate proc_macro;
use proc_macro::TokenStream;

#[proc_macro_derive(Error, attributes(error))]
pub fn error(item: TokenStream) -> TokenStream {
    let mut words = item.into_iter().skip_while(|word| word.to_string() != "enum");
    let name = words.nth(1).expect("an enum with a name");
    format!(
        "impl ::std::fmt::Display for {name} {{
            fn fmt(&self, f: &mut ::std::fmt::Formatter<'_>) -> ::std::fmt::Result {{ ::std::fmt::Debug::fmt(self, f) }}
        }}
        impl ::std::error::Error for {name} {{}}"
    )
    .parse()
    .expect("two impls")
}
