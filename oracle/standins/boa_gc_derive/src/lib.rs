//! The derive macros of the stand-in boa_gc, for the forms of types that the
//! shape files have: structs with named fields, enums of one-field variants.

mod item;

use item::{Body, Field, Item};
use proc_macro::TokenStream;

#[proc_macro_derive(Finalize)]
pub fn derive_finalize(input: TokenStream) -> TokenStream {
    let Item { name, generics, .. } = Item::parse(input);
    let (parameters, arguments) = (generics.parameters, generics.arguments);
    format!("impl<{parameters}> ::boa_gc::Finalize for {name}<{arguments}> {{}}")
        .parse()
        .expect("the text is Rust")
}

#[proc_macro_derive(Trace, attributes(unsafe_ignore_trace))]
pub fn derive_trace(input: TokenStream) -> TokenStream {
    let Item {
        name,
        generics,
        body,
    } = Item::parse(input);
    let (parameters, arguments) = (generics.parameters, generics.arguments);
    let methods = match body {
        Body::Fields(fields) => methods_of_struct(&fields),
        Body::Variants(variants) => methods_of_enum(&variants),
        Body::Other => panic!("this stand-in cannot derive Trace for a tuple struct"),
    };
    format!("unsafe impl<{parameters}> ::boa_gc::Trace for {name}<{arguments}> {{ {methods} }}")
        .parse()
        .expect("the text is Rust")
}

fn methods_of_struct(fields: &[Field]) -> String {
    let search = fields.iter().rev().fold("None".to_string(), |rest, field| {
        let name = &field.name;
        if field.ignored {
            // What follows an ignored field is never reached.
            format!("Some(&self.{name})")
        } else {
            format!("::boa_gc::Trace::ignored_field(&self.{name}).or_else(|| {rest})")
        }
    });
    let each = |call: &str| -> String {
        let traced = fields.iter().filter(|field| !field.ignored);
        traced
            .map(|field| format!("::boa_gc::Trace::{call}self.{}, visitor);", field.name))
            .collect()
    };
    format!(
        "fn ignored_field(&self) -> Option<&dyn ::std::any::Any> {{ {search} }}
        fn visit_cells(&self, visitor: &mut dyn ::boa_gc::Visitor) {{ {} }}
        fn visit(&mut self, visitor: &mut dyn ::boa_gc::Visitor) {{ {} }}",
        each("visit_cells(&"),
        each("visit(&mut "),
    )
}

/// Nothing is visited here: no cell of a shape holds an enum.
fn methods_of_enum(variants: &[String]) -> String {
    let arms: String = variants
        .iter()
        .map(|variant| format!("Self::{variant}(of) => ::boa_gc::Trace::ignored_field(of),"))
        .collect();
    format!("fn ignored_field(&self) -> Option<&dyn ::std::any::Any> {{ match self {{ {arms} }} }}")
}
