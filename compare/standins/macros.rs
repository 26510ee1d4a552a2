//! Derives that stand in for those of educe, thiserror, miette and serde. `Educe` writes the impls that are asked for (a
//! field that carries any `ignore` is left out of all of them); the others write nothing.
extern crate proc_macro;
use proc_macro::{Delimiter, TokenStream, TokenTree};

#[proc_macro_derive(Error, attributes(error, source, from, backtrace))]
pub fn error(_: TokenStream) -> TokenStream {
    TokenStream::new()
}
#[proc_macro_derive(Diagnostic, attributes(diagnostic, label, help, source_code, related))]
pub fn diagnostic(_: TokenStream) -> TokenStream {
    TokenStream::new()
}
#[proc_macro_derive(Serialize, attributes(serde))]
pub fn serialize(_: TokenStream) -> TokenStream {
    TokenStream::new()
}
#[proc_macro_derive(Deserialize, attributes(serde))]
pub fn deserialize(_: TokenStream) -> TokenStream {
    TokenStream::new()
}

fn is_punct(t: &TokenTree, c: char) -> bool {
    matches!(t, TokenTree::Punct(p) if p.as_char() == c)
}

/// Takes `#[...]` groups off the front; gives the texts of the educe ones.
fn attrs(ts: &[TokenTree], mut i: usize) -> (Vec<String>, usize) {
    let mut out = vec![];
    while i + 1 < ts.len() && is_punct(&ts[i], '#') {
        if let TokenTree::Group(g) = &ts[i + 1] {
            let s = g.stream().to_string().replace(' ', "");
            if let Some(inner) = s.strip_prefix("educe(") {
                out.push(inner.strip_suffix(')').unwrap_or(inner).to_string());
            }
        }
        i += 2;
    }
    (out, i)
}

fn split_commas(ts: Vec<TokenTree>) -> Vec<Vec<TokenTree>> {
    let (mut out, mut cur, mut depth) = (vec![], vec![], 0i32);
    for t in ts {
        if is_punct(&t, '<') {
            depth += 1
        }
        if is_punct(&t, '>') {
            depth -= 1
        }
        if depth == 0 && is_punct(&t, ',') {
            out.push(std::mem::take(&mut cur));
        } else {
            cur.push(t)
        }
    }
    if !cur.is_empty() {
        out.push(cur)
    }
    out
}

fn skip_vis(ts: &[TokenTree], mut i: usize) -> usize {
    if matches!(&ts[i], TokenTree::Ident(d) if d.to_string() == "pub") {
        i += 1;
        if matches!(&ts[i], TokenTree::Group(g) if g.delimiter() == Delimiter::Parenthesis) {
            i += 1
        }
    }
    i
}

/// The bodies of `eq`, of `hash` and of `cmp`.
struct Bodies {
    eq: String,
    hash: String,
    cmp: String,
}

fn is_ignored(field: &[TokenTree]) -> bool {
    attrs(field, 0).0.iter().any(|a| a.contains("ignore"))
}

fn struct_bodies(fields: Vec<Vec<TokenTree>>) -> Bodies {
    let (mut eq, mut hash) = ("true".to_string(), String::new());
    let mut cmp = "::std::cmp::Ordering::Equal".to_string();
    for field in fields.iter().filter(|field| !is_ignored(field)) {
        let name = field[skip_vis(field, attrs(field, 0).1)].to_string();
        eq += &format!(" && self.{name} == o.{name}");
        hash += &format!("::std::hash::Hash::hash(&self.{name}, state);");
        cmp += &format!(".then_with(|| self.{name}.cmp(&o.{name}))");
    }
    Bodies { eq, hash, cmp }
}

/// The arms for one variant, the `rank`th.
fn variant_arms(rank: usize, name: &str, fields: &[Vec<TokenTree>]) -> Bodies {
    let (mut ours, mut theirs) = (vec![], vec![]);
    let (mut eq, mut hash) = (
        "true".to_string(),
        format!("::std::hash::Hash::hash(&{rank}usize, state);"),
    );
    let mut cmp = "::std::cmp::Ordering::Equal".to_string();
    for (n, field) in fields.iter().enumerate() {
        if is_ignored(field) {
            ours.push("_".to_string());
            theirs.push("_".to_string());
            continue;
        }
        ours.push(format!("a{n}"));
        theirs.push(format!("b{n}"));
        eq += &format!(" && a{n} == b{n}");
        hash += &format!("::std::hash::Hash::hash(a{n}, state);");
        cmp += &format!(".then_with(|| a{n}.cmp(b{n}))");
    }
    let pattern = |parts: &[String]| match parts {
        [] => format!("Self::{name}"),
        _ => format!("Self::{name}({})", parts.join(",")),
    };
    let (ours, theirs) = (pattern(&ours), pattern(&theirs));
    Bodies {
        eq: format!("({ours}, {theirs}) => {eq},"),
        hash: format!("{ours} => {{ {hash} }},"),
        cmp: format!("({ours}, {theirs}) => {cmp},"),
    }
}

fn enum_bodies(variants: Vec<Vec<TokenTree>>) -> Bodies {
    let (mut eq, mut hash, mut cmp, mut ranks) =
        (String::new(), String::new(), String::new(), String::new());
    for (rank, variant) in variants.into_iter().enumerate() {
        let at = attrs(&variant, 0).1;
        let name = variant[at].to_string();
        let fields = match variant.get(at + 1) {
            Some(TokenTree::Group(g)) => split_commas(g.stream().into_iter().collect()),
            _ => vec![],
        };
        let arms = variant_arms(rank, &name, &fields);
        eq += &arms.eq;
        hash += &arms.hash;
        cmp += &arms.cmp;
        ranks += &format!("Self::{name}{{..}} => {rank}usize,");
    }
    Bodies {
        eq: format!("match (self, o) {{ {eq} _ => false }}"),
        hash: format!("match self {{ {hash} }}"),
        cmp: format!("match (self, o) {{ {cmp} _ => (match self {{ {ranks} }}).cmp(&(match o {{ {ranks} }})) }}"),
    }
}

/// The impl of one of the traits.
fn written(asked: &str, name: &str, bodies: &Bodies) -> String {
    let Bodies { eq, hash, cmp } = bodies;
    let ordering = "::std::cmp::Ordering";
    match asked {
        "PartialEq" => format!("#[allow(unreachable_patterns)] impl ::std::cmp::PartialEq for {name} {{ fn eq(&self, o: &Self) -> bool {{ {eq} }} }}"),
        "Eq" => format!("impl ::std::cmp::Eq for {name} {{}}"),
        "Hash" => format!("impl ::std::hash::Hash for {name} {{ fn hash<H: ::std::hash::Hasher>(&self, state: &mut H) {{ {hash} }} }}"),
        "PartialOrd" => format!("impl ::std::cmp::PartialOrd for {name} {{ fn partial_cmp(&self, o: &Self) -> ::std::option::Option<{ordering}> {{ ::std::option::Option::Some(::std::cmp::Ord::cmp(self, o)) }} }}"),
        "Ord" => format!("#[allow(unreachable_patterns)] impl ::std::cmp::Ord for {name} {{ fn cmp(&self, o: &Self) -> {ordering} {{ {cmp} }} }}"),
        _ => panic!("Educe writes no {asked}"),
    }
}

#[proc_macro_derive(Educe, attributes(educe))]
pub fn educe(input: TokenStream) -> TokenStream {
    let ts: Vec<TokenTree> = input.into_iter().collect();
    let (asked, i) = attrs(&ts, 0);
    let i = skip_vis(&ts, i);
    let name = ts[i + 1].to_string();
    let parts = match &ts[i + 2] {
        TokenTree::Group(g) => split_commas(g.stream().into_iter().collect()),
        t => panic!("no generics here: {t}"),
    };
    let bodies = match ts[i].to_string().as_str() {
        "struct" => struct_bodies(parts),
        _ => enum_bodies(parts),
    };
    let asked = asked.iter().flat_map(|list| list.split(','));
    let impls: String = asked.map(|one| written(one, &name, &bodies)).collect();
    impls.parse().unwrap()
}
