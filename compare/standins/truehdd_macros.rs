//! Stand-in for the proc-macro crate `truehdd_macros`, whose text we do not have.
//!
//! It is made by 01's rule and not by the crate's own: a struct's bytes are its fields in declared order,
//! big-endian. The derive writes the fields; the attribute names the chunk whose body they are.
//! Read by hand over the token stream, since no registry can be reached for `syn` or `quote`.

extern crate proc_macro;

use proc_macro::{Delimiter, TokenStream, TokenTree};

/// The name of the struct and its body, from the tokens of `pub struct NAME { .. }`.
fn struct_parts(item: TokenStream) -> (String, TokenStream) {
    let mut tokens = item.into_iter();
    while let Some(token) = tokens.next() {
        let TokenTree::Ident(word) = token else { continue };
        if word.to_string() != "struct" {
            continue;
        }
        let name = tokens.next().expect("a name follows `struct`").to_string();
        for rest in tokens {
            if let TokenTree::Group(group) = rest
                && group.delimiter() == Delimiter::Brace
            {
                return (name, group.stream());
            }
        }
        break;
    }
    panic!("the stand-in wants a struct with named fields");
}

/// The names of the fields in declared order: the word before each `:` that opens a field's type.
fn field_names(body: TokenStream) -> Vec<String> {
    let mut names = Vec::new();
    let mut word = None;
    let mut in_type = false;
    let mut depth = 0i32;
    for token in body {
        match token {
            TokenTree::Ident(ident) if !in_type => word = Some(ident.to_string()),
            TokenTree::Punct(punct) => match punct.as_char() {
                ':' if !in_type => {
                    names.push(word.take().expect("a field's name stands before its colon"));
                    in_type = true;
                }
                '<' => depth += 1,
                '>' => depth -= 1,
                ',' if depth == 0 => in_type = false,
                _ => {}
            },
            _ => {}
        }
    }
    names
}

#[proc_macro_derive(ToBytes)]
pub fn to_bytes(item: TokenStream) -> TokenStream {
    let (name, body) = struct_parts(item);
    let fields = field_names(body);
    let write = |trait_name: &str, method: &str| {
        let calls: String = fields.iter().map(|field| format!("{trait_name}::{method}(&self.{field}, dst);")).collect();
        format!("impl {trait_name} for {name} {{ fn {method}(&self, dst: &mut Vec<u8>) {{ {calls} }} }}")
    };
    let code = write("WriteBytesBe", "write_be") + &write("WriteBytesLe", "write_le");
    code.parse().expect("the derived code is Rust")
}

#[proc_macro_attribute]
pub fn caf_chunk_type(chunk_type: TokenStream, item: TokenStream) -> TokenStream {
    let (name, _) = struct_parts(item.clone());
    let code = format!(
        "impl CAFChunk for {name} {{
            fn chunk_type(&self) -> &[u8; 4] {{ {chunk_type} }}
            fn chunk_data(&self) -> Vec<u8> {{
                let mut bytes = Vec::new();
                self.write_be(&mut bytes);
                bytes
            }}
        }}"
    );
    let mut both = item;
    both.extend(code.parse::<TokenStream>().expect("the chunk's code is Rust"));
    both
}
